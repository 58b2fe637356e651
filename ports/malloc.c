/* The heap of tftp.h over malloc, which aligns to 16. An archive has it in an object of its own: a program that defines
 * the three calls is linked without it, and without malloc. */
#include "tftp.h"
#include <stdlib.h>

void *tftp_alloc(size_t size, size_t align) {
    (void)align;
    return malloc(size);
}

void *tftp_realloc(void *block, size_t kept, size_t size, size_t align) {
    (void)kept;
    (void)align;
    return realloc(block, size);
}

void tftp_free(void *block) { free(block); }
