/* The bare writes and syncs of checkpoints: `sectors FILE COUNT TIMES [FULL]` does, TIMES times, what a store does whose image takes COUNT
   sectors: the gate of the slot that isn't in use and a sync; the image, the head, the first gate of the journal and a sync; the gate and a
   sync. With FULL it does an event before that (the body and the next gate and a sync; the gate and a sync), and writes FULL sectors of
   characters before the image, into one area and the other in turn. */
#include <fcntl.h>
#include <stdlib.h>
#include <string.h>
#include <unistd.h>

static char bytes[1024];
static int file;

/* Writes a sector. Says whether it failed. */
static int put(long n) { return pwrite(file, bytes, 1024, 1024L * n) != 1024; }

int main(int count, char **words) {
    if (count != 4 && count != 5) return 2;
    int full = count == 5 ? atoi(words[4]) : -1;
    file = open(words[1], O_RDWR);
    if (file < 0) return 4;
    memset(bytes, 'x', sizeof bytes);
    for (int k = 0; k < atoi(words[3]); k++) {
        int slot = k % 2;
        if (full >= 0) {
            if (put(6 + 512 * (1 - slot)) || put(7 + 512 * (1 - slot)) || fdatasync(file)) return 4;
            if (put(5 + 512 * (1 - slot)) || fdatasync(file)) return 4;
        }
        if (put(1 + 2 * slot) || fdatasync(file)) return 4;
        for (int n = 0; n < full; n++)
            if (put(7429 + 4096 * slot + n)) return 4;
        for (int n = 0; n < atoi(words[2]); n++)
            if (put(1029 + 3200 * slot + n)) return 4;
        if (put(2 + 2 * slot) || put(5 + 512 * slot) || fdatasync(file)) return 4;
        if (put(1 + 2 * slot) || fdatasync(file)) return 4;
    }
    return 0;
}
