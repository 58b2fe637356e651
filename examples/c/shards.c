/* A thousand transfers at once, in memory: a table has at most 64, so there are SHARDS of them behind one request port, and a
 * client's port says which is its own. A request that comes again comes to the same table, which knows it. Each of a
 * thousand clients gets the same file, a datagram at a time, with all of them open; none has a socket here. */
#include "tftp.h"
#include <stdio.h>
#include <string.h>

enum { SHARDS = 32, EACH = 64, CLIENTS = 1000, FIRST_PORT = 20000, LENGTH = 1500 };

static struct tftp_server shards[SHARDS];
static bool is_used[SHARDS][EACH];       /* a place here is a transfer's number in its table */
static size_t taken[SHARDS][EACH];       /* how much of the file each has sent */
static uint8_t file[LENGTH];

static struct client {
    struct tftp_end end;
    struct tftp_event event;
    uint8_t got[LENGTH], datagram[TFTP_MIN_REPLY];
    size_t have, len;                    /* the datagram that is on its way to it, or from it */
    uint16_t number;
} clients[CLIENTS];

static struct tftp_endpoint at(uint16_t port) { return (struct tftp_endpoint){{127, 0, 0, 1}, port}; }

/* The table of a client, always the same one. */
static int shard_of(uint16_t port) { return port % SHARDS; }

/* The first datagram of a client opens its transfer; returns whether it did. The length of `reply` bounds the block size
 * that the table agrees to, whatever a client asks for. */
static bool open_transfer(struct client *it, uint16_t port) {
    struct tftp_server *server = &shards[shard_of(port)];
    struct tftp_endpoint from = at(port);
    struct tftp_question question = {0};
    struct tftp_event event = {0};
    uint8_t path[TFTP_MAX_PATH], reply[TFTP_MIN_REPLY];
    if (tftp_server_request(server, &from, it->datagram, it->len, path, sizeof path, reply, sizeof reply, &question) ||
        question.wants != TFTP_WANTS_OPEN)
        return false; /* as many as its table may have: the ERROR is in `reply` */
    for (it->number = 0; is_used[shard_of(port)][it->number];) it->number++;
    if (tftp_server_get(server, it->number, &from, it->datagram, it->len, LENGTH, file, LENGTH, reply, sizeof reply, &event))
        return false;
    is_used[shard_of(port)][it->number] = true;
    taken[shard_of(port)][it->number] = event.file_len;
    memcpy(it->datagram, reply, event.send_len);
    it->len = event.send_len;
    return true;
}

/* A DATA at its client, and the ACK at its transfer. Returns whether both calls were made. */
static bool step(struct client *it, uint16_t port) {
    struct tftp_endpoint server = at(69), from = at(port);
    struct tftp_event event = {0};
    uint8_t reply[TFTP_MIN_REPLY];
    size_t *sent = &taken[shard_of(port)][it->number];
    if (tftp_receive(&it->end, &server, it->datagram, it->len, it->got + it->have, LENGTH - it->have, reply, sizeof reply,
                     &it->event))
        return false;
    it->have += it->event.file_len;
    if (tftp_server_send(&shards[shard_of(port)], it->number, &from, reply, it->event.send_len, file + *sent, LENGTH - *sent,
                         it->datagram, sizeof it->datagram, &event))
        return false;
    *sent += event.file_len;
    it->len = event.send_len;
    return true;
}

int main(void) {
    struct tftp_options options = TFTP_OPTIONS_INIT;
    struct tftp_endpoint server = at(69);
    int complete = 0;
    options.backoff = true;
    for (size_t i = 0; i < LENGTH; i++) file[i] = (uint8_t)(i * 7);
    for (int i = 0; i < SHARDS; i++)
        if (tftp_server_open(&shards[i], &options, EACH)) return 2;
    for (uint16_t i = 0; i < CLIENTS; i++) {
        struct client *it = &clients[i];
        if (tftp_get(&it->end, &server, (const uint8_t *)"boot", 4, &options, it->datagram, sizeof it->datagram, &it->event))
            return 2;
        it->len = it->event.send_len;
        if (!open_transfer(it, (uint16_t)(FIRST_PORT + i))) return 1;
    }
    for (int block = 0; block < LENGTH / TFTP_DEFAULT_BLOCK + 1; block++)
        for (uint16_t i = 0; i < CLIENTS; i++)
            if (!step(&clients[i], (uint16_t)(FIRST_PORT + i))) return 1;
    for (int i = 0; i < CLIENTS; i++) {
        complete += clients[i].event.complete && clients[i].have == LENGTH && !memcmp(clients[i].got, file, LENGTH);
        tftp_close(&clients[i].end);
    }
    for (int i = 0; i < SHARDS; i++) tftp_server_close(&shards[i]);
    printf("%d transfers at once, %d complete\n", CLIENTS, complete);
    return complete == CLIENTS ? 0 : 1;
}
