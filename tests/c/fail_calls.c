/* Preloaded before the program oberon, or file_calls. It writes each call that reads, writes or syncs a file, but of
   standard output and error, as a line into the file CALLS: `read N` for standard input, `pread SECTOR`,
   `pwrite SECTOR`, `fdatasync`, and `fsync NAME` with the last part of the path. The call named FAIL, number AT of that
   name counted from 0, isn't made, and fails with the error number ERROR (5, an input or output error, where it isn't
   set; 4 is a signal that interrupted it). With ONWARD it and all later ones of its name fail, as on a medium that
   stays full. Where PART is set this call, a pread or a pwrite, doesn't fail: it moves PART bytes at most. Where SPOILED
   is set a pwrite doesn't fail either: it is told as done, and its first byte is another one. Where KILLED is set the
   program is killed by signal 9 in its place.

   FAIL may also be a call that is no line: `open`, `flock`, `ftruncate`, `statx`, `realpath`, `link`, `rename`,
   `mkdir`, `write`, on standard output, and `file_read` and `file_write`, on a file that was opened. In each case the
   file CALLS has the line `failed`, `in part` or `killed` once that came. */
#define _GNU_SOURCE
#include <dlfcn.h>
#include <errno.h>
#include <fcntl.h>
#include <signal.h>
#include <stdarg.h>
#include <stdio.h>
#include <stdlib.h>
#include <string.h>
#include <sys/stat.h>
#include <sys/syscall.h>
#include <sys/types.h>
#include <unistd.h>

/* Writes a line about a call. */
static void tell(const char *text) {
    const char *path = getenv("CALLS");
    if (!path) return;
    int file = syscall(SYS_openat, AT_FDCWD, path, O_CREAT | O_WRONLY | O_APPEND, 0600);
    if (file < 0) return;
    syscall(SYS_write, file, text, strlen(text));
    syscall(SYS_close, file);
}

/* Whether this call of that name is the one that the host refuses. */
static int is_refused(const char *name, long *count) {
    const char *wanted = getenv("FAIL"), *at = getenv("AT");
    if (!wanted || !at || strcmp(wanted, name)) return 0;
    long number = (*count)++, first = atol(at);
    return number == first || (getenv("ONWARD") && number > first);
}

/* Whether this call of that name is the one that fails. */
static int fails(const char *name, long *count) {
    const char *error = getenv("ERROR");
    if (!is_refused(name, count)) return 0;
    if (getenv("KILLED")) {
        tell("killed\n");
        kill(getpid(), SIGKILL);
    }
    tell("failed\n");
    errno = error ? atoi(error) : EIO;
    return 1;
}

/* How many bytes this call of that name moves: all, or PART of them, or -1 where it fails. */
static ssize_t share(const char *name, long *count, size_t size) {
    const char *part = getenv("PART");
    if (!part) return fails(name, count) ? -1 : (ssize_t)size;
    if (!is_refused(name, count)) return size;
    tell("in part\n");
    return (size_t)atol(part) < size ? atol(part) : (ssize_t)size;
}

static long reads, writes, preads, pwrites, fdatasyncs, fsyncs, opens, flocks, ftruncates, statxs, realpaths;
static long file_reads, file_writes, links, renames, mkdirs;

int open(const char *path, int flags, ...) {
    va_list rest;
    va_start(rest, flags);
    int mode = flags & (O_CREAT | O_TMPFILE) ? va_arg(rest, int) : 0;
    va_end(rest);
    return fails("open", &opens) ? -1 : syscall(SYS_openat, AT_FDCWD, path, flags, mode);
}

int flock(int file, int how) { return fails("flock", &flocks) ? -1 : syscall(SYS_flock, file, how); }

int ftruncate(int file, off_t size) {
    return fails("ftruncate", &ftruncates) ? -1 : syscall(SYS_ftruncate, file, size);
}

int statx(int folder, const char *path, int flags, unsigned mask, struct statx *found) {
    return fails("statx", &statxs) ? -1 : syscall(SYS_statx, folder, path, flags, mask, found);
}

char *realpath(const char *path, char *resolved) {
    static char *(*next)(const char *, char *);
    if (!next) next = (char *(*)(const char *, char *))dlsym(RTLD_NEXT, "realpath");
    return fails("realpath", &realpaths) || !next ? 0 : next(path, resolved);
}

int link(const char *from, const char *to) {
    return fails("link", &links) ? -1 : syscall(SYS_linkat, AT_FDCWD, from, AT_FDCWD, to, 0);
}

int rename(const char *from, const char *to) {
    return fails("rename", &renames) ? -1 : syscall(SYS_renameat2, AT_FDCWD, from, AT_FDCWD, to, 0);
}

int mkdir(const char *path, mode_t mode) {
    return fails("mkdir", &mkdirs) ? -1 : syscall(SYS_mkdirat, AT_FDCWD, path, mode);
}

ssize_t write(int file, const void *bytes, size_t size) {
    if (file == 1 && fails("write", &writes)) return -1;
    if (file > 2 && fails("file_write", &file_writes)) return -1;
    return syscall(SYS_write, file, bytes, size);
}

ssize_t read(int file, void *bytes, size_t size) {
    if (file == 0 && fails("read", &reads)) return -1;
    if (file > 2 && fails("file_read", &file_reads)) return -1;
    return syscall(SYS_read, file, bytes, size);
}

ssize_t pread(int file, void *bytes, size_t size, off_t from) {
    char text[64];
    snprintf(text, sizeof text, "pread %ld\n", (long)(from / 1024));
    tell(text);
    ssize_t moved = share("pread", &preads, size);
    return moved < 0 ? -1 : syscall(SYS_pread64, file, bytes, moved, from);
}

ssize_t pwrite(int file, const void *bytes, size_t size, off_t to) {
    char text[64];
    snprintf(text, sizeof text, "pwrite %ld\n", (long)(to / 1024));
    tell(text);
    if (getenv("SPOILED")) {
        ssize_t moved = syscall(SYS_pwrite64, file, bytes, size, to);
        if (!size || !is_refused("pwrite", &pwrites)) return moved;
        char first = *(const char *)bytes ^ 1;
        tell("failed\n");
        return syscall(SYS_pwrite64, file, &first, 1, to) == 1 ? moved : -1;
    }
    ssize_t moved = share("pwrite", &pwrites, size);
    return moved < 0 ? -1 : syscall(SYS_pwrite64, file, bytes, moved, to);
}

int fdatasync(int file) {
    tell("fdatasync\n");
    return fails("fdatasync", &fdatasyncs) ? -1 : syscall(SYS_fdatasync, file);
}

int fsync(int file) {
    char link[64], path[4096], text[4200];
    snprintf(link, sizeof link, "/proc/self/fd/%d", file);
    ssize_t length = readlink(link, path, sizeof path - 1);
    path[length < 0 ? 0 : length] = 0;
    const char *name = strrchr(path, '/');
    snprintf(text, sizeof text, "fsync %s\n", name ? name + 1 : path);
    tell(text);
    return fails("fsync", &fsyncs) ? -1 : syscall(SYS_fsync, file);
}
