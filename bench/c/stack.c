/* The stack of each call of a get, of a put and of a server in memory, with what the calls of malloc below it take. */
#include "stack.h"
#include "tftp.h"
#include <stdio.h>

enum { BLOCK = 1428 };

static const struct tftp_endpoint there = {{127, 0, 0, 1}, 1024}, other = {{127, 0, 0, 1}, 1025};
static const struct tftp_options options = {.size = sizeof options, .max_file = 1 << 20, .blksize = BLOCK, .retries = 5, .asks_tsize = true};
static struct tftp_end end;
static struct tftp_server server;
static struct tftp_event event;
static struct tftp_question question;
static struct tftp_packet packet;
static uint8_t datagram[TFTP_HEADER + BLOCK], file[BLOCK], reply[TFTP_HEADER + BLOCK], name[256];
static size_t len, number;
static uint8_t fault;

/* the calls */
static void decodes(void) { fault = tftp_decode(datagram, len, &packet); }
static void gets(void) { fault = tftp_get(&end, &there, (const uint8_t *)"a", 1, &options, reply, sizeof reply, &event); }
static void puts_it(void) { fault = tftp_put(&end, &there, (const uint8_t *)"a", 1, 2 * BLOCK, &options, reply, sizeof reply, &event); }
static void receives(void) { fault = tftp_receive(&end, &there, datagram, len, file, sizeof file, reply, sizeof reply, &event); }
static void sends(void) { fault = tftp_send(&end, &there, datagram, len, file, sizeof file, reply, sizeof reply, &event); }
static void times_out(void) { fault = tftp_timeout(&end, reply, sizeof reply, &event); }
static void closes(void) { tftp_close(&end); }
static void opens_server(void) { fault = tftp_server_open(&server, &options, 4); }
static void is_asked(void) { fault = tftp_server_request(&server, &other, datagram, len, name, sizeof name, reply, sizeof reply, &question); }
static void serves_get(void) { fault = tftp_server_get(&server, 1, &other, datagram, len, 2 * BLOCK, file, sizeof file, reply, sizeof reply, &event); }
static void serves_put(void) { fault = tftp_server_put(&server, 2, &there, datagram, len, reply, sizeof reply, &event); }
static void server_sends(void) { fault = tftp_server_send(&server, 1, &other, datagram, len, file, sizeof file, reply, sizeof reply, &event); }
static void server_receives(void) { fault = tftp_server_receive(&server, 2, &there, datagram, len, file, sizeof file, reply, sizeof reply, &event); }
static void closes_server(void) { tftp_server_close(&server); }

/* a datagram of this opcode and number, with so many bytes */
static void has(uint8_t opcode, uint8_t of, const char *body, size_t body_len) {
    memset(datagram, 0, sizeof datagram);
    datagram[1] = opcode, datagram[3] = of;
    len = opcode == 3 || opcode == 4 ? TFTP_HEADER : 2;
    if (body) memcpy(datagram + len, body, body_len);
    len += body_len;
}

static void try(const char *call, void (*it)(void)) {
    if (number++ == 0) it(); /* the first call of malloc is its own affair */
    size_t depth = depth_of(it);
    printf("%s %zu\n", call, depth);
    if (fault) printf("%s: fault %d\n", call, fault);
}

#define TEXT(text) (text), sizeof(text) - 1

int main(void) {
    try("tftp_get", gets);
    has(6, 0, TEXT("blksize\0001428\0tsize\0002856\0"));
    try("tftp_receive", receives);
    has(3, 1, NULL, BLOCK);
    try("tftp_receive", receives);
    try("tftp_timeout", times_out);
    try("tftp_decode", decodes);
    try("tftp_close", closes);
    try("tftp_put", puts_it);
    has(6, 0, TEXT("blksize\0001428\0tsize\0002856\0"));
    try("tftp_send", sends);
    has(4, 1, NULL, 0);
    try("tftp_send", sends);
    closes();
    try("tftp_server_open", opens_server);
    has(1, 0, TEXT("a\0octet\0blksize\0001428\0"));
    try("tftp_server_request", is_asked);
    try("tftp_server_get", serves_get);
    has(4, 0, NULL, 0);
    try("tftp_server_send", server_sends);
    has(2, 0, TEXT("b\0octet\0blksize\0001428\0"));
    try("tftp_server_put", serves_put);
    has(3, 1, NULL, BLOCK);
    try("tftp_server_receive", server_receives);
    try("tftp_server_close", closes_server);
    return 0;
}
