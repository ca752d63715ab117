/* Preloaded before a program: when it ends, the file COUNTED says how many blocks of memory it was given and how many of them it freed. */
#include <stdio.h>
#include <stdlib.h>

extern void *__libc_malloc(size_t size);
extern void *__libc_calloc(size_t count, size_t size);
extern void *__libc_realloc(void *block, size_t size);
extern void *__libc_memalign(size_t alignment, size_t size);
extern void __libc_free(void *block);

static long given, freed;

static void *counted(void *block) {
    given += block != 0;
    return block;
}

void *malloc(size_t size) { return counted(__libc_malloc(size)); }

void *calloc(size_t count, size_t size) { return counted(__libc_calloc(count, size)); }

void *aligned_alloc(size_t alignment, size_t size) { return counted(__libc_memalign(alignment, size)); }

int posix_memalign(void **block, size_t alignment, size_t size) {
    *block = counted(__libc_memalign(alignment, size));
    return *block ? 0 : 12;
}

void *realloc(void *block, size_t size) {
    void *moved = __libc_realloc(block, size);
    if (!block) return counted(moved);
    freed += size == 0;
    return moved;
}

void free(void *block) {
    freed += block != 0;
    __libc_free(block);
}

__attribute__((destructor)) static void tell(void) {
    const char *path = getenv("COUNTED");
    long blocks = given, gone = freed;
    FILE *file = path ? fopen(path, "w") : 0;
    if (!file) return;
    fprintf(file, "%ld given, %ld left\n", blocks, blocks - gone);
    fclose(file);
}
