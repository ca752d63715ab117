/* Preloaded before a program: refuses one allocation, number REFUSE counted from 0, and makes the file REFUSED when it does. When
   the program ends the file ALLOCATED has how many allocations there were. */
#include <fcntl.h>
#include <stdio.h>
#include <stdlib.h>
#include <unistd.h>

extern void *__libc_malloc(size_t size);
extern void *__libc_realloc(void *block, size_t size);

static long allocations;

static int is_refused(void) {
    const char *wanted = getenv("REFUSE");
    long number = allocations++;
    if (!wanted || number != atol(wanted)) return 0;
    const char *told = getenv("REFUSED");
    int file = told ? open(told, O_CREAT | O_WRONLY, 0600) : -1;
    if (file >= 0) close(file);
    return 1;
}

void *malloc(size_t size) { return is_refused() ? 0 : __libc_malloc(size); }

void *realloc(void *block, size_t size) { return is_refused() ? 0 : __libc_realloc(block, size); }

__attribute__((destructor)) static void tell(void) {
    const char *path = getenv("ALLOCATED");
    long number = allocations;
    FILE *file = path ? fopen(path, "w") : 0;
    if (!file) return;
    fprintf(file, "%ld\n", number);
    fclose(file);
}
