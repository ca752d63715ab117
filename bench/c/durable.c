/* The bare loop: the writes and syncs of so many journals of 256 posts, each but the first after a checkpoint, and nothing else.
   `durable FILE JOURNALS`: the file is there, with all its sectors. */
#include <fcntl.h>
#include <stdlib.h>
#include <string.h>
#include <unistd.h>

/* Every event writes so many characters; an image has so many bytes beside its tail. */
enum { EVENTS = 256, WRITTEN = 5, IMAGE = 50, AREA = 7429 };

static char body[1024], shut[1024], image[1024], open_gate[1024] = "OPENGATE";

static int put(int file, int sector, const char *bytes) {
    return pwrite(file, bytes, 1024, 1024L * sector) == 1024 ? 0 : 1;
}

/* One journal in a slot. */
static int journal(int file, int slot) {
    int first = slot ? 517 : 5;
    for (int k = 0; k < EVENTS; k++) {
        if (put(file, first + 1 + 2 * k, body)) return 1;
        if (k < EVENTS - 1 && put(file, first + 2 + 2 * k, shut)) return 1;
        if (fdatasync(file)) return 1;
        if (put(file, first + 2 * k, open_gate)) return 1;
        if (fdatasync(file)) return 1;
    }
    return 0;
}

/* The checkpoint into a slot, after so many journals: the new full sectors of characters, the image with its tail, the head, gate 0. */
static int checkpoint(int file, int slot, int journals) {
    long written = (long)EVENTS * WRITTEN * journals;
    if (journals > 1 && put(file, slot ? 3 : 1, shut)) return 1;
    if (fdatasync(file)) return 1;
    for (long k = (written - EVENTS * WRITTEN) / 1024; k < written / 1024; k++)
        if (put(file, AREA + k, image)) return 1;
    for (long k = 0; k * 1024 < written % 1024 + IMAGE; k++)
        if (put(file, (slot ? 4229 : 1029) + k, image)) return 1;
    if (put(file, slot ? 4 : 2, image)) return 1;
    if (put(file, slot ? 517 : 5, shut)) return 1;
    if (fdatasync(file)) return 1;
    if (put(file, slot ? 3 : 1, open_gate)) return 1;
    return fdatasync(file);
}

int main(int count, char **words) {
    if (count != 3) return 2;
    int file = open(words[1], O_RDWR);
    if (file < 0) return 4;
    memcpy(body, "\005\006A.Text\000\005hello", 15);
    memset(image, 'x', sizeof image);
    for (int k = 0; k < atoi(words[2]); k++) {
        if (k > 0 && checkpoint(file, k % 2, k)) return 4;
        if (journal(file, k % 2)) return 4;
    }
    return 0;
}
