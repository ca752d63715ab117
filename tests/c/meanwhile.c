/* Preloaded before a program: before it opens a file of the name OPENED the second time the command MEANWHILE is done. */
#define _GNU_SOURCE
#include <fcntl.h>
#include <stdarg.h>
#include <stdlib.h>
#include <string.h>
#include <sys/syscall.h>
#include <unistd.h>

static int openings;

int open(const char *path, int flags, ...) {
    va_list rest;
    va_start(rest, flags);
    int mode = flags & (O_CREAT | O_TMPFILE) ? va_arg(rest, int) : 0;
    va_end(rest);
    const char *opened = getenv("OPENED"), *meanwhile = getenv("MEANWHILE");
    if (opened && meanwhile && !strcmp(path, opened) && ++openings == 2) {
        unsetenv("LD_PRELOAD");
        if (system(meanwhile)) abort();
    }
    return syscall(SYS_openat, AT_FDCWD, path, flags, mode);
}
