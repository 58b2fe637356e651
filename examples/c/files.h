/* The files of serve.c, in memory. */
#ifndef FILES_H
#define FILES_H
#include "tftp.h"
#include <stdbool.h>
#include <stdint.h>
#include <stdlib.h>
#include <string.h>

enum { FILES = 32 };

/* a path has at most TFTP_MAX_PATH bytes, and a zero byte behind them */
struct file { char name[TFTP_MAX_PATH + 1]; uint8_t *bytes; size_t len, room; };

static struct file files[FILES];

static struct file *find(const char *name) {
    for (int i = 0; i < FILES; i++)
        if (files[i].bytes && !strcmp(files[i].name, name)) return &files[i];
    return NULL;
}

static bool grow(struct file *file, size_t more) {
    if (file->len + more <= file->room) return true;
    size_t room = (file->len + more) * 2;
    uint8_t *bytes = realloc(file->bytes, room);
    if (bytes) file->bytes = bytes, file->room = room;
    return bytes != NULL;
}

/* A text as it is sent in netascii, with CR LF and CR NUL. */
static bool wire_copy(const struct file *text, struct file *wire) {
    wire->len = tftp_wire_length(text->bytes, text->len);
    wire->bytes = malloc(wire->len + 1);
    if (!wire->bytes) return false;
    if (tftp_to_wire(text->bytes, text->len, wire->bytes, wire->len) == wire->len) return true;
    free(wire->bytes);
    return false;
}

/* A file that is complete gets its name, unless another has it or there are too many. */
static bool publish(const struct file *it) {
    for (int i = 0; i < FILES; i++)
        if (!files[i].bytes && !find(it->name)) {
            files[i] = *it;
            return true;
        }
    return false;
}
#endif
