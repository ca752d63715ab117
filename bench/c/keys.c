/* The bare work of keys at a terminal: `keys FILE [NO]` reads a key, writes and syncs what the store writes and syncs for one (a body
   and the next gate; the gate), and answers with the end of a scene; so again, until there is no more to read. With NO nothing is
   written or synced. FILE is there, with the sectors of a journal. */
#include <fcntl.h>
#include <termios.h>
#include <unistd.h>

enum { EVENTS = 256 };

static const char sector[1024], end_of_scene[] = "\033[?2026l";

/* Writes a sector. Says whether it failed. */
static int put(int file, long n) { return pwrite(file, sector, sizeof sector, sizeof sector * n) != sizeof sector; }

static int answer(void) { return write(1, end_of_scene, sizeof end_of_scene - 1) < 0; }

int main(int count, char **words) {
    struct termios terminal;
    char key;
    if (count != 2 && count != 3) return 2;
    int file = open(words[1], O_RDWR);
    if (file < 0 || tcgetattr(0, &terminal)) return 4;
    cfmakeraw(&terminal);
    if (tcsetattr(0, TCSANOW, &terminal) || answer()) return 4;
    for (long k = 0; read(0, &key, 1) == 1; k = (k + 1) % EVENTS) {
        if (count == 2) {
            if (put(file, 2 * k + 1) || put(file, 2 * k + 2) || fdatasync(file)) return 4;
            if (put(file, 2 * k) || fdatasync(file)) return 4;
        }
        if (answer()) return 4;
    }
    return 0;
}
