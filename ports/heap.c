/* The heap of the library, in C: what its code calls by names of the toolchain's, by those of tftp.h. It is trusted: no
 * proof reads it. Above each function stands what the toolchain declares of it. */
#include "tftp.h"

/* Whether there was memory, and where: never NULL, which no pointer of Rattle is. */
struct tried {
    uint8_t is_some;
    void *block;
};

static struct tried tried(void *block) {
    static char nothing;
    return (struct tried){block != NULL, block ? block : &nothing};
}

struct tried rattle_alloc(size_t size, size_t align);
struct tried rattle_realloc(void *old, size_t kept, size_t size, size_t align);
void rattle_dealloc(void *block);

/* New memory of `size` bytes at a multiple of `align`, which divides 16. */
struct tried rattle_alloc(size_t size, size_t align) { return tried(tftp_alloc(size ? size : align, align)); }

/* Makes a block one of `size` bytes, whose first `kept` are as they were. If it fails, the block is as it was. */
struct tried rattle_realloc(void *old, size_t kept, size_t size, size_t align) {
    return tried(tftp_realloc(old, kept, size ? size : align, align));
}

/* Frees what either returned. */
void rattle_dealloc(void *block) { tftp_free(block); }
