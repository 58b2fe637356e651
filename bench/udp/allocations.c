/* Preloaded before a program: counts its requests for new memory, and those for more or less of it, and writes both
   numbers at its end to the file that COUNTS names. For Linux with glibc. */
#include <stdio.h>
#include <stdlib.h>

extern void *__libc_malloc(size_t size);
extern void *__libc_calloc(size_t count, size_t size);
extern void *__libc_realloc(void *old, size_t size);

static unsigned long allocations, reallocations;

void *malloc(size_t size) {
    allocations++;
    return __libc_malloc(size);
}

void *calloc(size_t count, size_t size) {
    allocations++;
    return __libc_calloc(count, size);
}

void *realloc(void *old, size_t size) {
    if (old)
        reallocations++;
    else
        allocations++;
    return __libc_realloc(old, size);
}

__attribute__((destructor)) static void end(void) {
    unsigned long counted = allocations, again = reallocations;
    FILE *file = fopen(getenv("COUNTS"), "w");
    if (file) {
        fprintf(file, "%lu %lu\n", counted, again);
        fclose(file);
    }
}
