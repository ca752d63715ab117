/* Preloaded before a program that has a store in a file. It makes each call by the next library, if another one is preloaded
   behind it, and then adds it to the file RECORD:
   a pwrite as `w`, its offset, its size and its file's number in decimal, each before a blank, a line feed, and the bytes
   that it took; an fdatasync that was done as the line `s` and that number; a write to standard output as the line `a` and
   its size. */
#define _GNU_SOURCE
#include <dlfcn.h>
#include <fcntl.h>
#include <stdio.h>
#include <stdlib.h>
#include <string.h>
#include <sys/syscall.h>
#include <sys/types.h>
#include <unistd.h>

static void record(const char *head, const void *bytes, size_t size) {
    const char *path = getenv("RECORD");
    if (!path) return;
    int file = syscall(SYS_openat, AT_FDCWD, path, O_CREAT | O_WRONLY | O_APPEND, 0600);
    if (file < 0) return;
    syscall(SYS_write, file, head, strlen(head));
    if (size) syscall(SYS_write, file, bytes, size);
    syscall(SYS_close, file);
}

ssize_t pwrite(int file, const void *bytes, size_t size, off_t to) {
    ssize_t (*made)(int, const void *, size_t, off_t) = dlsym(RTLD_NEXT, "pwrite");
    ssize_t moved = made(file, bytes, size, to);
    char head[64];
    if (moved >= 0) snprintf(head, sizeof head, "w %ld %ld %d\n", (long)to, (long)moved, file), record(head, bytes, moved);
    return moved;
}

int fdatasync(int file) {
    int (*made)(int) = dlsym(RTLD_NEXT, "fdatasync");
    int done = made(file);
    char head[64];
    if (!done) snprintf(head, sizeof head, "s %d\n", file), record(head, 0, 0);
    return done;
}

ssize_t write(int file, const void *bytes, size_t size) {
    ssize_t moved = syscall(SYS_write, file, bytes, size);
    char head[64];
    if (file == 1 && moved >= 0) snprintf(head, sizeof head, "a %ld\n", (long)moved), record(head, 0, 0);
    return moved;
}
