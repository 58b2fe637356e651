/* A client for a machine without an operating system: it gets a file of at most ROOM bytes into static
 * memory. All that it needs of the machine are the five calls below; host_machine.c has them for Linux,
 * so that the example can be tried. It has no allocator but the arena of this file. */
#include "tftp.h"
#include <string.h>

enum { ARENA = 2048, ROOM = 1 << 20, BLOCK = 1468 };

/* the machine: a UDP port with polling, and a clock in milliseconds */
void machine_send(const struct tftp_endpoint *to, const uint8_t *bytes, size_t len);
size_t machine_receive(struct tftp_endpoint *from, uint8_t *bytes, size_t room); /* SIZE_MAX: nothing is there */
uint32_t machine_clock(void);
void machine_server(struct tftp_endpoint *server, char *name, size_t room);
void machine_boot(const uint8_t *image, size_t len, const struct tftp_event *event);

/* The arena: blocks one after another, each with its length before it; the first free one that fits is
 * taken, and free neighbours are joined. An end takes one block, and one for each datagram that it
 * keeps: a get used 224 bytes, and with the longest request it would be 704. */
static union { uint8_t bytes[ARENA]; long double aligned; } arena;
struct head { size_t len; size_t used; }; /* 16 bytes, so that what follows is aligned to 16 */
size_t arena_most;                        /* how far the arena was used */

static struct head *at(size_t place) { return (struct head *)(void *)(arena.bytes + place); }

void *tftp_alloc(size_t len, size_t align) {
    (void)align; /* 16 at the most */
    size_t need = (len + 15) / 16 * 16 + sizeof(struct head);
    if (len > ARENA) return NULL;
    if (at(0)->len == 0) at(0)->len = ARENA; /* the first call: one free block */
    for (size_t place = 0; place < ARENA; place += at(place)->len) {
        struct head *it = at(place);
        while (!it->used && place + it->len < ARENA && !at(place + it->len)->used) it->len += at(place + it->len)->len;
        if (it->used || it->len < need) continue;
        if (it->len >= need + 32) {
            *at(place + need) = (struct head){it->len - need, 0};
            it->len = need;
        }
        it->used = 1;
        if (place + it->len > arena_most) arena_most = place + it->len;
        return it + 1;
    }
    return NULL;
}

void tftp_free(void *bytes) {
    if (bytes) ((struct head *)bytes - 1)->used = 0;
}

void *tftp_realloc(void *bytes, size_t kept, size_t len, size_t align) {
    if (len <= ((struct head *)bytes - 1)->len - sizeof(struct head)) return bytes;
    void *moved = tftp_alloc(len, align);
    if (moved) {
        memcpy(moved, bytes, kept);
        tftp_free(bytes);
    }
    return moved;
}

static uint8_t image[ROOM], datagram[TFTP_HEADER + BLOCK + 1], reply[TFTP_MAX_REQUEST];
static struct tftp_end end;

int main(void) {
    struct tftp_endpoint server = {0}, from = {0};
    char name[128];
    machine_server(&server, name, sizeof name);
    struct tftp_options options = TFTP_OPTIONS_INIT;
    options.max_file = ROOM; /* a longer file is refused at once, if its length is stated */
    options.blksize = BLOCK;
    options.asks_tsize = true;
    options.backoff = true;
    struct tftp_event event = {0};
    size_t len = 0;
    uint8_t fault = tftp_get(&end, &server, (const uint8_t *)name, strlen(name), &options, reply, sizeof reply, &event);
    if (fault == 0) machine_send(&event.to, reply, event.send_len);
    uint32_t began = machine_clock();
    /* A loader does not wait for two more seconds once its image is whole: if its last ACK is lost, the server
     * sends the last block some times more, and nothing answers. */
    while (fault == 0 && event.outcome == 0 && !event.complete) {
        size_t got = machine_receive(&from, datagram, sizeof datagram);
        if (got != SIZE_MAX) {
            /* the block goes to its place in the image: nothing is copied twice */
            fault = tftp_receive(&end, &from, datagram, got, image + len, ROOM - len, reply, sizeof reply, &event);
            if (fault == TFTP_FAULT_MEMORY) { fault = 0; continue; } /* nothing has changed: the peer sends again */
        } else if (machine_clock() - began >= 1000u * event.interval) {
            fault = tftp_timeout(&end, reply, sizeof reply, &event);
            began = machine_clock();
        } else
            continue;
        if (fault) break;
        len += event.file_len;
        if (event.send_len) machine_send(&event.to, reply, event.send_len);
        if (event.progress) began = machine_clock();
    }
    tftp_close(&end);
    machine_boot(image, event.complete ? len : 0, &event);
    return event.complete ? 0 : 1;
}
