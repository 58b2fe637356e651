/* Holds tftp.h to the types of the library: each field of each struct has the value that a call gives the field of that
 * name, each of them another, or the offset that it is read from; nothing is written behind a struct; and each number has
 * the value that a call returns. Builds packets and reads options. Tries the request port of a server and its table, transfers that are aborted, buffers
 * that are too short, waits that grow, and NULL. Counts the requests for memory
 * of transfers. Then refuses each of an opening, of a get, and of a served write, in turn: the call reports it, changes
 * nothing, and does its work when it is made again. It is linked with --wrap for malloc and realloc. */
#include "tftp.h"
#include <stddef.h>
#include <stdio.h>
#include <stdlib.h>
#include <string.h>

void *__real_malloc(size_t len);
void *__real_realloc(void *bytes, size_t len);
void *__wrap_malloc(size_t len);
void *__wrap_realloc(void *bytes, size_t len);

static int wrong, asked, refused;

void *__wrap_malloc(size_t len) {
    return ++asked == refused ? NULL : __real_malloc(len);
}

void *__wrap_realloc(void *bytes, size_t len) {
    return ++asked == refused ? NULL : __real_realloc(bytes, len);
}

/* Options with these fields, and zeros. */
#define OPTIONS(...) {.size = sizeof(struct tftp_options), __VA_ARGS__}

static void expect(const char *what, unsigned long long found, unsigned long long expected) {
    if (found != expected) {
        printf("%s is %llu; expected %llu\n", what, found, expected);
        wrong = 1;
    }
}

#define FIELD(value, field, number) expect(#value "." #field, (value).field, (number))

/* A DATA at a get in netascii, which decodes it; made again if memory was refused, with the event as it was. */
static void take(struct tftp_end *end, const char *data, size_t len, char *file, size_t *have) {
    static const struct tftp_endpoint peer = {{10, 0, 0, 1}, 1024};
    uint8_t datagram[64] = {0, 3}, block[512], reply[TFTP_MAX_REQUEST];
    struct tftp_event event, before;
    memcpy(datagram + 2, data, len);
    memset(&event, 0, sizeof event);
    event.number = 77;
    before = event;
    uint8_t fault = tftp_receive(end, &peer, datagram, len + 2, block, sizeof block, reply, sizeof reply, &event);
    if (fault == TFTP_FAULT_MEMORY) {
        expect("the event after TFTP_FAULT_MEMORY", memcmp(&event, &before, sizeof event), 0);
        fault = tftp_receive(end, &peer, datagram, len + 2, block, sizeof block, reply, sizeof reply, &event);
    }
    expect("a DATA", fault, TFTP_OK);
    expect("the length of an ACK", event.send_len, 4);
    memcpy(file + *have, block, event.file_len);
    *have += event.file_len;
}

/* A get of two blocks of 8 bytes while the request for memory of this number is refused. Whether it was. */
static int lacking(int number) {
    static const struct tftp_endpoint server = {{10, 0, 0, 1}, 69};
    struct tftp_options options = OPTIONS(.max_file = 100, .blksize = 8, .is_netascii = true);
    struct tftp_end end = {0};
    struct tftp_event event = {0};
    uint8_t request[TFTP_MAX_REQUEST], oack[] = "\0\6blksize\0008";
    char file[64];
    size_t have = 0;
    asked = 0;
    refused = number;
    uint8_t fault = tftp_get(&end, &server, (const uint8_t *)"a", 1, &options, request, sizeof request, &event);
    if (fault == TFTP_FAULT_MEMORY) {
        expect("a handle without memory", end.is_open, 0);
        fault = tftp_get(&end, &server, (const uint8_t *)"a", 1, &options, request, sizeof request, &event);
    }
    expect("a get", fault, TFTP_OK);
    struct tftp_endpoint peer = {{10, 0, 0, 1}, 1024};
    uint8_t block[8], reply[TFTP_MAX_REQUEST];
    fault = tftp_receive(&end, &peer, oack, sizeof oack, block, sizeof block, reply, sizeof reply, &event);
    expect("an OACK", fault, TFTP_OK);
    take(&end, "\0\1one\r\ntwo", 10, file, &have);
    take(&end, "\0\2\r\nend", 7, file, &have);
    expect("the length of the file", have, 11);
    expect("the file", memcmp(file, "one\ntwo\nend", have), 0);
    tftp_close(&end);
    return asked >= number;
}

/* An opening asks for memory as often as tftp.h says: for the end, for its last datagram and, if it puts, for its
 * block; a get in netascii asks for that at its first block. No other of 100 blocks of 8 bytes asks. */
static void blocks(bool puts, bool is_netascii) {
    static const struct tftp_endpoint server = {{10, 0, 0, 1}, 69}, peer = {{10, 0, 0, 1}, 1024};
    struct tftp_options options = OPTIONS(.max_file = 1000, .blksize = 8, .retries = 5, .is_netascii = is_netascii);
    struct tftp_end end = {0};
    struct tftp_event event = {0};
    uint8_t out[TFTP_MAX_REQUEST], block[8], oack[] = "\0\6blksize\0008", datagram[12] = {0, 3};
    const uint8_t *name = (const uint8_t *)"a";
    asked = refused = 0;
    uint8_t fault = puts ? tftp_put(&end, &server, name, 1, 799, &options, out, sizeof out, &event)
        : tftp_get(&end, &server, name, 1, &options, out, sizeof out, &event);
    expect("an opening", fault, TFTP_OK);
    expect("how often an opening asks for memory", asked, puts ? 3 : 2);
    fault = puts ? tftp_send(&end, &peer, oack, sizeof oack, block, 8, out, sizeof out, &event)
        : tftp_receive(&end, &peer, oack, sizeof oack, block, 8, out, sizeof out, &event);
    expect("an OACK", fault, TFTP_OK);
    for (unsigned number = 1; number <= 100 && !fault; number++) {
        datagram[1] = puts ? 4 : 3;
        datagram[3] = (uint8_t)number;
        fault = puts ? tftp_send(&end, &peer, datagram, 4, block, number == 99 ? 7 : 8, out, sizeof out, &event)
            : tftp_receive(&end, &peer, datagram, number == 100 ? 11 : 12, block, 8, out, sizeof out, &event);
    }
    expect("a hundred blocks", fault, TFTP_OK);
    expect("whether all were stored, or acknowledged", event.complete, 1);
    expect("how often it asked for memory", asked, puts || is_netascii ? 3 : 2);
    tftp_close(&end);
}

#define TEXT(text) (const uint8_t *)(text), sizeof(text) - 1

/* A server's end asks as often as the README of tftp_c says: three times to receive; four times to send, and twice more
 * at its first DATA if that is longer than what it has sent before. */
static void served(bool writes, bool agrees) {
    static const struct tftp_endpoint client = {{10, 0, 0, 1}, 1024};
    static const uint8_t file[2000];
    const size_t size = sizeof file;
    static uint8_t out[TFTP_HEADER + 1428], stored[1428], datagram[TFTP_HEADER + 1428];
    struct tftp_options options = OPTIONS(.max_file = 5000, .retries = 5);
    struct tftp_end end = {0};
    struct tftp_event event = {0};
    uint8_t request[TFTP_MAX_REQUEST];
    size_t len = tftp_request(writes ? 2 : 1, 1, TEXT("a"), request, sizeof request), at = 0;
    if (agrees) len = tftp_add_option(len, TEXT("blksize"), TEXT("1428"), request, sizeof request);
    asked = refused = 0;
    uint8_t fault = writes ? tftp_serve_put(&end, &client, request, len, &options, out, sizeof out, &event)
        : tftp_serve_get(&end, &client, request, len, size, file, size, &options, out, sizeof out, &event);
    expect("a server's end", fault, TFTP_OK);
    expect("how often a server's end asks for memory", asked, writes ? 3 : 4);
    datagram[1] = writes ? 3 : 4;
    for (unsigned number = writes || !agrees; !fault && !event.complete && number < 9; number++) {
        at += event.file_len;
        datagram[3] = (uint8_t)number;
        size_t sent = agrees ? 1428 : 512;
        if (sent > size - at) sent = size - at;
        fault = writes
            ? tftp_receive(&end, &client, datagram, TFTP_HEADER + sent, stored, sizeof stored, out, sizeof out, &event)
            : tftp_send(&end, &client, datagram, TFTP_HEADER, file + at, size - at, out, sizeof out, &event);
    }
    expect("a served file", fault, TFTP_OK);
    expect("whether it is complete", event.complete, 1);
    expect("how often it asked for memory", asked, writes ? 3 : agrees ? 6 : 4);
    tftp_close(&end);
}

/* How a get or a put of three bytes ends by a datagram of its peer, where `file` has so many bytes. */
static uint8_t outcome(bool puts, struct tftp_options options, const uint8_t *bytes, size_t len, size_t room,
                       struct tftp_event *event) {
    static const struct tftp_endpoint server = {{10, 0, 0, 1}, 69}, peer = {{10, 0, 0, 1}, 1024};
    uint8_t file[TFTP_DEFAULT_BLOCK] = {0}, out[TFTP_HEADER + TFTP_DEFAULT_BLOCK], name[] = "a";
    struct tftp_end end = {0};
    options.max_file = 1000;
    uint8_t fault = puts ? tftp_put(&end, &server, name, 1, 3, &options, out, sizeof out, event)
        : tftp_get(&end, &server, name, 1, &options, out, sizeof out, event);
    expect("an opening", fault, TFTP_OK);
    fault = puts ? tftp_send(&end, &peer, bytes, len, file, room, out, sizeof out, event)
        : tftp_receive(&end, &peer, bytes, len, file, room, out, sizeof out, event);
    if (puts && !event->outcome && !fault) /* its one DATA is acknowledged */
        fault = tftp_send(&end, &peer, TEXT("\0\4\0\1"), file, 0, out, sizeof out, event);
    expect("its peer's datagram", fault, TFTP_OK);
    tftp_close(&end);
    return event->outcome;
}

/* The numbers of outcomes, of the faults of a server's end, and of blocks. */
static void numbers(void) {
    static const struct tftp_endpoint at = {{10, 0, 0, 1}, 69};
    static uint8_t out[TFTP_HEADER + TFTP_DEFAULT_BLOCK], file[TFTP_DEFAULT_BLOCK];
    struct tftp_options none = OPTIONS(.retries = 0), text = OPTIONS(.is_netascii = 1), sized = OPTIONS(.asks_tsize = 1),
                        large = OPTIONS(.max_file = 600);
    struct tftp_event event = {0};
    struct tftp_end end = {0};
    size_t most = sizeof out;
    expect("TFTP_OUTCOME_COMPLETE", outcome(true, none, TEXT("\0\4\0\0"), 3, &event), TFTP_OUTCOME_COMPLETE);
    expect("TFTP_OUTCOME_PEER_ERROR", outcome(false, none, TEXT("\0\5\0\7no\0"), 512, &event), TFTP_OUTCOME_PEER_ERROR);
    expect("its code", event.peer_code, 7);
    expect("TFTP_OUTCOME_ILLEGAL", outcome(false, none, TEXT("\0\4\0\1"), 512, &event), TFTP_OUTCOME_ILLEGAL);
    expect("TFTP_OUTCOME_REFUSED", outcome(false, none, TEXT("\0\6blksize\0008\0"), 512, &event), TFTP_OUTCOME_REFUSED);
    expect("TFTP_OUTCOME_TOO_LARGE", outcome(false, sized, TEXT("\0\6tsize\0001001\0"), 512, &event), TFTP_OUTCOME_TOO_LARGE);
    expect("TFTP_OUTCOME_STORE_FAULT", outcome(false, none, TEXT("\0\3\0\1abc"), 2, &event), TFTP_OUTCOME_STORE_FAULT);
    expect("TFTP_OUTCOME_SOURCE_FAULT", outcome(true, none, TEXT("\0\4\0\0"), 2, &event), TFTP_OUTCOME_SOURCE_FAULT);
    expect("TFTP_OUTCOME_NOT_NETASCII", outcome(false, text, TEXT("\0\3\0\1a\rb"), 512, &event), TFTP_OUTCOME_NOT_NETASCII);

    static const char twice[] = "\0\1a\0octet\0blksize\0008\0blksize\0009";
    const uint8_t *request = (const uint8_t *)twice;
    uint8_t fault = tftp_serve_get(&end, &at, request, 10, 3, TEXT("ab"), &large, out, most, &event);
    expect("TFTP_FAULT_NO_SOURCE", fault, TFTP_FAULT_NO_SOURCE);
    fault = tftp_serve_get(&end, &at, request, sizeof twice, 3, TEXT("abc"), &large, out, most, &event);
    expect("TFTP_FAULT_REFUSED_OPTIONS", fault, TFTP_FAULT_REFUSED_OPTIONS);
    fault = tftp_serve_get(&end, &at, request, 10, sizeof file, file, sizeof file, &large, out, most, &event);
    expect("a block of the default length", fault, TFTP_OK);
    expect("TFTP_HEADER", event.send_len, TFTP_HEADER + TFTP_DEFAULT_BLOCK);
    expect("TFTP_DEFAULT_BLOCK", event.block_size, TFTP_DEFAULT_BLOCK);
    uint16_t sizes[] = {TFTP_MIN_BLOCK - 1, TFTP_MIN_BLOCK, TFTP_MAX_BLOCK, TFTP_MAX_BLOCK + 1};
    for (int i = 0; i < 4; i++) {
        large.blksize = sizes[i];
        fault = tftp_get(&end, &at, TEXT("a"), &large, out, most, &event);
        expect("a block size", fault, i % 3 ? TFTP_OK : TFTP_FAULT_BAD_REQUEST);
    }
    tftp_close(&end);
}

/* A server's largest block size is a block size or 0 for any: else it serves nothing, and does not open. */
static void limits(void) {
    static const struct { uint16_t limit; const char *oack; } tried[] = {{0, "600"}, {1, NULL}, {7, NULL}, {8, "8"},
        {600, "600"}, {TFTP_MAX_BLOCK, "600"}, {TFTP_MAX_BLOCK + 1, NULL}};
    static const struct tftp_endpoint at = {{10, 0, 0, 1}, 69};
    static const char read[] = "\0\1a\0octet\0blksize\000600", write[] = "\0\2a\0octet\0blksize\000600";
    uint8_t out[TFTP_HEADER + 600], text[TFTP_MAX_REQUEST];
    struct tftp_event event = {0};
    struct tftp_end end = {0};
    struct tftp_server server = {0};
    for (size_t i = 0; i < sizeof tried / sizeof *tried; i++) {
        struct tftp_options options = OPTIONS(.max_file = 1000, .retries = 5, .blksize = tried[i].limit);
        uint8_t wanted = tried[i].oack ? TFTP_OK : TFTP_FAULT_BAD_REQUEST;
        uint8_t fault = tftp_serve_get(&end, &at, (const uint8_t *)read, sizeof read, 3, TEXT("abc"), &options, out,
                                       sizeof out, &event);
        expect("a limit of a read", fault, wanted);
        if (!fault) {
            size_t len = tftp_find_option(out, event.send_len, TEXT("blksize"), text, sizeof text);
            expect("the length of its blksize", len, strlen(tried[i].oack) + 9);
            expect("its blksize", strcmp((const char *)text + 8, tried[i].oack), 0);
        }
        fault = tftp_serve_put(&end, &at, (const uint8_t *)write, sizeof write, &options, out, sizeof out, &event);
        expect("a limit of a write", fault, wanted);
        expect("whether the end is open", end.is_open, !fault);
        expect("a limit of a server", tftp_server_open(&server, &options, 1), wanted);
        expect("whether the server is open", server.is_open, !fault);
    }
    tftp_close(&end);
    tftp_server_close(&server);
}

/* The options of the first version of struct tftp_options had 24 bytes, and no field behind is_netascii. */
enum { FIRST_OPTIONS = 24 };

/* Options of a size between the first version's and today's are taken, and a field that they are too short for counts as
 * 0; larger ones are refused by a name of their own, and so are those that did not begin as TFTP_OPTIONS_INIT, as all bytes
 * zero. */
static void sizes_of_options(void) {
    static const struct tftp_endpoint at = {{10, 0, 0, 1}, 69};
    static const char read[] = "\0\1a\0octet", write[] = "\0\2a\0octet";
    struct tftp_options options = TFTP_OPTIONS_INIT;
    uint8_t out[TFTP_MIN_REPLY];
    struct tftp_event event = {0};
    struct tftp_end end = {0};
    struct tftp_server server = {0};
    FIELD(options, size, sizeof options);
    FIELD(options, max_file, UINT64_MAX);
    FIELD(options, blksize, 0);
    FIELD(options, timeout, 0);
    FIELD(options, retries, 5);
    FIELD(options, asks_tsize, 0);
    FIELD(options, is_netascii, 0);
    FIELD(options, backoff, 0);
    FIELD(options, max_timeout, 0);
    expect("the first version", offsetof(struct tftp_options, backoff), FIRST_OPTIONS);
    for (size_t size = 0; size <= sizeof options + 1; size++) {
        options.size = size;
        uint8_t wanted = size > sizeof options ? TFTP_FAULT_LATER_STRUCT
            : size >= FIRST_OPTIONS ? TFTP_OK : TFTP_FAULT_BAD_OPTIONS;
        expect("a get", tftp_get(&end, &at, TEXT("a"), &options, out, sizeof out, &event), wanted);
        expect("a put", tftp_put(&end, &at, TEXT("a"), 1, &options, out, sizeof out, &event), wanted);
        expect("a served read", tftp_serve_get(&end, &at, (const uint8_t *)read, sizeof read, 1, TEXT("a"), &options, out,
                                               sizeof out, &event), wanted);
        expect("a served write", tftp_serve_put(&end, &at, (const uint8_t *)write, sizeof write, &options, out, sizeof out,
                                                &event), wanted);
        expect("whether it is open", end.is_open, wanted == TFTP_OK);
        expect("a server", tftp_server_open(&server, &options, 1), wanted);
    }
    options.size = SIZE_MAX;
    expect("a size without a bound", tftp_get(&end, &at, TEXT("a"), &options, out, sizeof out, &event),
           TFTP_FAULT_LATER_STRUCT);
    /* a caller without the header passes the size, too, which has to be the struct's */
    options.size = sizeof options;
    expect("another size", tftp_open_get(&end, &at, TEXT("a"), &options, FIRST_OPTIONS, out, sizeof out, &event),
           TFTP_FAULT_BAD_OPTIONS);
    /* what is behind a struct of the first version is not read */
    for (int larger = 0; larger < 2; larger++) {
        options.backoff = true;
        options.size = larger ? FIRST_OPTIONS + 1 : FIRST_OPTIONS;
        expect("a get", tftp_get(&end, &at, TEXT("a"), &options, out, sizeof out, &event), TFTP_OK);
        expect("a timeout", tftp_timeout(&end, out, sizeof out, &event), TFTP_OK);
        FIELD(event, interval, larger ? 2 : 1);
    }
    tftp_close(&end);
    tftp_server_close(&server);
}

/* An opening of this kind, at an end or at a server. */
static uint8_t opening(int kind, struct tftp_end *end, struct tftp_server *server, uint8_t *out, size_t room,
                       struct tftp_event *event) {
    static const struct tftp_endpoint at = {{10, 0, 0, 1}, 1024};
    static const char read[] = "\0\1a\0octet", write[] = "\0\2a\0octet";
    const uint8_t *asks = (const uint8_t *)(kind % 2 ? write : read);
    struct tftp_options options = OPTIONS(.max_file = 1000, .retries = 5);
    switch (kind) {
    case 0: return tftp_get(end, &at, TEXT("a"), &options, out, room, event);
    case 1: return tftp_put(end, &at, TEXT("a"), 3, &options, out, room, event);
    case 2: return tftp_serve_get(end, &at, asks, sizeof read, 3, TEXT("abc"), &options, out, room, event);
    case 3: return tftp_serve_put(end, &at, asks, sizeof write, &options, out, room, event);
    case 4: return tftp_server_get(server, 7, &at, asks, sizeof read, 3, TEXT("abc"), out, room, event);
    default: return tftp_server_put(server, 7, &at, asks, sizeof write, out, room, event);
    }
}

/* Each of the openings while each of its requests for memory is refused: then neither the event nor the buffer has
 * changed, so that a caller that sends what an event says sends nothing, and nothing is open. */
static void openings_without_memory(void) {
    struct tftp_options options = OPTIONS(.max_file = 1000, .retries = 5);
    for (int kind = 0; kind < 6; kind++) {
        int number = 0, lacked = 0;
        uint8_t fault;
        do {
            struct tftp_end end = {0};
            struct tftp_server server = {0};
            struct tftp_event event = {0}, before;
            uint8_t out[TFTP_MIN_REPLY], was[TFTP_MIN_REPLY];
            memset(out, 0xEE, sizeof out);
            memcpy(was, out, sizeof out);
            event.number = 77;
            before = event;
            refused = 0;
            expect("a server", tftp_server_open(&server, &options, 2), TFTP_OK);
            asked = 0;
            refused = ++number;
            fault = opening(kind, &end, &server, out, sizeof out, &event);
            refused = 0;
            if (fault) {
                expect("an opening without memory", fault, TFTP_FAULT_MEMORY);
                expect("the event after it", memcmp(&event, &before, sizeof event), 0);
                expect("the buffer after it", memcmp(out, was, sizeof out), 0);
                expect("whether it is open", end.is_open, 0);
                expect("whether the server has it", tftp_server_give_up(&server, 7), 0);
                lacked++;
            } else
                expect("whether something is to be sent", event.send_len > 0, 1);
            tftp_close(&end);
            tftp_server_close(&server);
        } while (fault);
        expect("whether an opening lacked memory", lacked > 1, 1);
    }
}

static void expect_bytes(const char *what, const uint8_t *found, size_t len, const char *expected, size_t count);

/* A transfer of this kind that is aborted after this many datagrams of its peer. */
static void aborted(int kind, int steps) {
    static const struct tftp_endpoint peer = {{10, 0, 0, 1}, 1024};
    struct tftp_end end = {0};
    struct tftp_server server = {0};
    struct tftp_event event = {0}, before;
    uint8_t out[TFTP_MIN_REPLY], file[512];
    bool sends = kind == 1 || kind == 2, has_peer = kind > 1 || steps > 0;
    expect("an opening", opening(kind, &end, &server, out, sizeof out, &event), TFTP_OK);
    if (steps) /* three bytes: the file is whole, and a receiver dallies */
        expect("a step", sends ? tftp_send(&end, &peer, TEXT("\0\4\0\0"), TEXT("abc"), out, sizeof out, &event)
               : tftp_receive(&end, &peer, TEXT("\0\3\0\1abc"), file, sizeof file, out, sizeof out, &event), TFTP_OK);
    before = event;
    memset(out, 0xEE, sizeof out);
    expect("an ERROR with a zero byte", tftp_abort(&end, 3, TEXT("a\0b"), out, sizeof out, &event), TFTP_FAULT_BAD_REQUEST);
    expect("a text that is too long", tftp_abort(&end, 3, file, 508, out, sizeof out, &event), TFTP_FAULT_BAD_REQUEST);
    asked = 0;
    refused = 1;
    expect("an abort without memory", tftp_abort(&end, 3, TEXT("full"), out, sizeof out, &event), TFTP_FAULT_MEMORY);
    refused = 0;
    expect("the event after these", memcmp(&event, &before, sizeof event), 0);
    expect("the buffer after these", out[0], 0xEE);
    expect("whether the end is open still", end.is_open, 1);
    expect("an abort", tftp_abort(&end, 3, TEXT("full"), out, sizeof out, &event), TFTP_OK);
    if (has_peer) {
        expect_bytes("its ERROR", out, event.send_len, "\0\5\0\3full", 9);
        expect("whether it is for the peer", event.to.port, 1024);
    } else
        expect("what is sent without a peer", event.send_len, 0);
    FIELD(event, outcome, TFTP_OUTCOME_ABORTED);
    FIELD(event, complete, 0);
    FIELD(event, progress, 0);
    FIELD(event, file_len, 0);
    expect("whether the end is open", end.is_open, 0);
    expect("a second abort", tftp_abort(&end, 3, TEXT("full"), out, sizeof out, &event), TFTP_FAULT_NOT_OPEN);
    tftp_close(&end);
}

static void aborts(void) {
    static const struct tftp_endpoint peer = {{10, 0, 0, 1}, 1024};
    struct tftp_options options = OPTIONS(.max_file = 1000, .retries = 5);
    struct tftp_end end = {0};
    struct tftp_server server = {0};
    struct tftp_event event = {0};
    uint8_t out[TFTP_MIN_REPLY];
    for (int kind = 0; kind < 4; kind++)
        for (int steps = 0; steps < (kind == 2 ? 1 : 2); steps++) aborted(kind, steps);
    /* what is over is not aborted */
    expect("a served read", opening(2, &end, &server, out, sizeof out, &event), TFTP_OK);
    expect("its ACK", tftp_send(&end, &peer, TEXT("\0\4\0\1"), out, 0, out, sizeof out, &event), TFTP_OK);
    expect("its outcome", event.outcome, TFTP_OUTCOME_COMPLETE);
    expect("an abort of it", tftp_abort(&end, 3, TEXT("full"), out, sizeof out, &event), TFTP_FAULT_CLOSED);
    FIELD(event, outcome, TFTP_OUTCOME_COMPLETE);
    tftp_close(&end);
    /* the same at a server */
    expect("a closed server", tftp_server_abort(&server, 7, 3, TEXT("full"), out, sizeof out, &event), TFTP_FAULT_NOT_OPEN);
    expect("a server", tftp_server_open(&server, &options, 2), TFTP_OK);
    expect("no transfer", tftp_server_abort(&server, 7, 3, TEXT("full"), out, sizeof out, &event), TFTP_FAULT_NO_TRANSFER);
    expect("a transfer", opening(5, &end, &server, out, sizeof out, &event), TFTP_OK);
    expect("a bad text", tftp_server_abort(&server, 7, 3, TEXT("\0"), out, sizeof out, &event), TFTP_FAULT_BAD_REQUEST);
    asked = 0;
    refused = 1;
    expect("no memory", tftp_server_abort(&server, 7, 3, TEXT("full"), out, sizeof out, &event), TFTP_FAULT_MEMORY);
    refused = 0;
    expect("an abort", tftp_server_abort(&server, 7, 3, TEXT("full"), out, sizeof out, &event), TFTP_OK);
    expect_bytes("its ERROR", out, event.send_len, "\0\5\0\3full", 9);
    FIELD(event, outcome, TFTP_OUTCOME_ABORTED);
    expect("its port", event.to.port, 1024);
    expect("whether it is held", tftp_server_give_up(&server, 7), 0);
    expect("a transfer", opening(4, &end, &server, out, sizeof out, &event), TFTP_OK);
    expect("its ACK", tftp_server_send(&server, 7, &peer, TEXT("\0\4\0\1"), out, 0, out, sizeof out, &event), TFTP_OK);
    expect("one that is over", tftp_server_abort(&server, 7, 3, TEXT("x"), out, sizeof out, &event), TFTP_FAULT_NO_TRANSFER);
    expect("whether it is held", tftp_server_give_up(&server, 7), 1);
    tftp_server_close(&server);
}

/* NULL where the header allows it: a buffer without a length, and what is closed. */
static void nulls(void) {
    static const struct tftp_endpoint at = {{10, 0, 0, 1}, 1024};
    static const char read[] = "\0\1a\0octet", write[] = "\0\2a\0octet";
    struct tftp_options options = OPTIONS(.max_file = 1000, .retries = 5);
    struct tftp_end end = {0};
    struct tftp_server server = {0};
    struct tftp_event event = {0};
    struct tftp_packet packet = {0};
    struct tftp_question question = {0};
    uint64_t length = 5;
    uint8_t out[TFTP_MAX_REQUEST], reply[TFTP_MIN_REPLY];
    tftp_close(NULL);
    tftp_server_close(NULL);
    expect("a name of NULL", tftp_get(&end, &at, NULL, 0, &options, NULL, 0, &event), TFTP_FAULT_BAD_REQUEST);
    expect("a request of NULL", tftp_get(&end, &at, TEXT("a"), &options, NULL, 0, &event), TFTP_FAULT_NO_ROOM);
    expect("a get", tftp_get(&end, &at, TEXT("a"), &options, out, 10, &event), TFTP_OK);
    expect("what is to be sent", event.send_len, 10);
    expect("a datagram of NULL", tftp_receive(&end, &at, NULL, 0, NULL, 0, NULL, 0, &event), TFTP_OK);
    expect("its answer", event.send_len, 0);
    expect("whether it was lost", event.no_room, 1);
    expect("a timeout to NULL", tftp_timeout(&end, NULL, 0, &event), TFTP_FAULT_CLOSED);
    expect("a put to NULL", tftp_put(&end, &at, TEXT("a"), 0, &options, NULL, 0, &event), TFTP_FAULT_NO_ROOM);
    expect("a put", tftp_put(&end, &at, TEXT("a"), 0, &options, out, sizeof out, &event), TFTP_OK);
    expect("an empty file of NULL", tftp_send(&end, &at, TEXT("\0\4\0\0"), NULL, 0, out, sizeof out, &event), TFTP_OK);
    expect("its DATA", event.send_len, 4);
    expect("an abort without a text", tftp_abort(&end, 0, NULL, 0, out, sizeof out, &event), TFTP_OK);
    expect("its ERROR", event.send_len, 5);
    expect("a served empty file to NULL", tftp_serve_get(&end, &at, (const uint8_t *)read, sizeof read, 0, NULL, 0,
                                                         &options, NULL, 0, &event), TFTP_FAULT_NO_ROOM);
    expect("a served empty file of NULL", tftp_serve_get(&end, &at, (const uint8_t *)read, sizeof read, 0, NULL, 0,
                                                         &options, reply, sizeof reply, &event), TFTP_OK);
    expect("a read of NULL", tftp_serve_get(&end, &at, NULL, 0, 0, NULL, 0, &options, NULL, 0, &event), TFTP_FAULT_BAD_REQUEST);
    expect("a write to NULL", tftp_serve_put(&end, &at, (const uint8_t *)write, sizeof write, &options, NULL, 0, &event),
           TFTP_FAULT_NO_ROOM);
    expect("a write of NULL", tftp_serve_put(&end, &at, NULL, 0, &options, NULL, 0, &event), TFTP_FAULT_BAD_REQUEST);
    expect("a server", tftp_server_open(&server, &options, 1), TFTP_OK);
    expect("a question of NULL", tftp_server_request(&server, &at, NULL, 0, NULL, 0, NULL, 0, &question), TFTP_OK);
    expect("its ERROR, which does not fit", question.send_len, 0);
    expect("a transfer to NULL", tftp_server_get(&server, 1, &at, (const uint8_t *)read, sizeof read, 0, NULL, 0, NULL, 0,
                                                 &event), TFTP_FAULT_NO_ROOM);
    expect("a transfer of NULL", tftp_server_get(&server, 1, &at, (const uint8_t *)read, sizeof read, 0, NULL, 0, reply,
                                                 sizeof reply, &event), TFTP_OK);
    expect("its timeout", tftp_server_timeout(&server, 1, NULL, 0, &event), TFTP_OK);
    expect("its abort", tftp_server_abort(&server, 1, 0, NULL, 0, NULL, 0, &event), TFTP_OK);
    tftp_server_close(&server);
    expect("a packet of NULL", tftp_decode(NULL, 0, &packet), TFTP_DECODE_SHORT);
    expect("an option of NULL", tftp_option(NULL, 0, 0, NULL, 0), 0);
    expect("a name of NULL", tftp_find_option(TEXT("\0\6a\0001\0"), NULL, 0, NULL, 0), 0);
    expect("a length of NULL", tftp_stated_length(NULL, 0, &length), 0);
    expect("what it was", length, 5);
    expect("a request to NULL", tftp_request(1, 1, TEXT("a"), NULL, 0), 0);
    expect("an option without a value", tftp_add_option(0, TEXT("a"), NULL, 0, out, sizeof out), 3);
    expect("an option to NULL", tftp_add_option(0, TEXT("a"), NULL, 0, NULL, 0), 0);
    expect("an ERROR without a text", tftp_error(1, NULL, 0, out, sizeof out), 5);
    expect("an ERROR to NULL", tftp_error(1, NULL, 0, NULL, 0), 0);
    expect("no text", tftp_wire_length(NULL, 0), 0);
    expect("no wire text", tftp_to_wire(NULL, 0, NULL, 0), 0);
}

/* The length that a packet states: of a request or an OACK, in any case of the name, and a number alone. */
static void stated(void) {
    static const struct { const char *datagram; size_t len; bool states; uint64_t length; } tried[] = {
        {"\0\6tsize\0" "1234\0", 13, true, 1234}, {"\0\6TSize\0" "0\0", 10, true, 0},
        {"\0\2a\0octet\0blksize\0008\0tsize\0" "18446744073709551615\0", 47, true, UINT64_MAX},
        {"\0\6tsize\0" "18446744073709551616\0", 29, false, 0}, {"\0\6tsize\0x\0", 10, false, 0},
        {"\0\6blksize\0008\0", 12, false, 0}, {"\0\3\0\1tsize\0" "1\0", 12, false, 0}, {"\0\6tsize\0" "1", 9, false, 0}};
    for (size_t i = 0; i < sizeof tried / sizeof *tried; i++) {
        uint64_t length = 77;
        expect("whether a length is stated", tftp_stated_length((const uint8_t *)tried[i].datagram, tried[i].len, &length),
               tried[i].states);
        expect("the length", length, tried[i].states ? tried[i].length : 77);
    }
}

/* (a compiler that knows the texts would compare them itself, and says so) */
/* What an end says that it has agreed with its peer; has_length as well, so that 0 bytes are a length. */
static void agrees(const char *what, struct tftp_end *end, bool has_length, uint64_t length, uint8_t timeout) {
    struct tftp_info info = TFTP_INFO_INIT;
    info.length = 77, info.timeout = 77, info.block_size = 77;
    expect(what, tftp_end_info(end, &info), TFTP_OK);
    FIELD(info, size, sizeof info);
    FIELD(info, block_size, TFTP_DEFAULT_BLOCK);
    FIELD(info, has_length, has_length);
    FIELD(info, length, length);
    FIELD(info, timeout, timeout);
}

/* A datagram at a client that gets or puts: no fault. */
static void hears(struct tftp_end *end, bool puts, const uint8_t *datagram, size_t len) {
    static const struct tftp_endpoint peer = {{10, 0, 0, 1}, 1024};
    static uint8_t file[TFTP_DEFAULT_BLOCK], reply[TFTP_MIN_REPLY];
    struct tftp_event event = {0};
    expect("a datagram", puts ? tftp_send(end, &peer, datagram, len, TEXT("abc"), reply, sizeof reply, &event)
                              : tftp_receive(end, &peer, datagram, len, file, sizeof file, reply, sizeof reply, &event), TFTP_OK);
}

/* What was answered to the options of an end, and the faults of asking for it. */
static void agreements(void) {
    static const struct tftp_endpoint at = {{10, 0, 0, 1}, 69};
    struct tftp_options options = OPTIONS(.max_file = 1000, .timeout = 9, .retries = 5, .asks_tsize = true);
    struct tftp_info info = {0};
    struct tftp_event event = {0};
    struct tftp_end end = {0};
    uint8_t out[TFTP_MIN_REPLY];
    expect("an info without a size", tftp_end_info(&end, &info), TFTP_FAULT_BAD_OPTIONS);
    info = (struct tftp_info)TFTP_INFO_INIT;
    info.size--;
    expect("an info that is too short", tftp_end_info(&end, &info), TFTP_FAULT_BAD_OPTIONS);
    info.size += 2;
    expect("an info of a later version", tftp_end_info(&end, &info), TFTP_FAULT_LATER_STRUCT);
    info = (struct tftp_info)TFTP_INFO_INIT;
    info.length = 77;
    expect("the info of a closed end", tftp_end_info(&end, &info), TFTP_FAULT_NOT_OPEN);
    FIELD(info, length, 77);

    expect("a get", tftp_get(&end, &at, TEXT("a"), &options, out, sizeof out, &event), TFTP_OK);
    agrees("a get before its answer", &end, false, 0, 0);
    hears(&end, false, TEXT("\0\6tsize\0" "3\0timeout\0" "9\0"));
    agrees("a get with an OACK", &end, true, 3, 9);
    hears(&end, false, TEXT("\0\3\0\1abc"));
    agrees("a get that is complete", &end, true, 3, 9);
    hears(&end, false, TEXT("\0\3\0\1abc"));
    agrees("a get that dallies", &end, true, 3, 9);
    expect("a get", tftp_get(&end, &at, TEXT("a"), &options, out, sizeof out, &event), TFTP_OK);
    hears(&end, false, TEXT("\0\3\0\1abc"));
    agrees("a get without an OACK", &end, false, 0, 0);
    expect("a get", tftp_get(&end, &at, TEXT("a"), &options, out, sizeof out, &event), TFTP_OK);
    hears(&end, false, TEXT("\0\6tsize\0" "0\0"));
    agrees("a get of no bytes", &end, true, 0, 0);

    expect("a put", tftp_put(&end, &at, TEXT("a"), 3, &options, out, sizeof out, &event), TFTP_OK);
    hears(&end, true, TEXT("\0\6tsize\0" "3\0"));
    agrees("a put with an OACK", &end, true, 3, 0);
    expect("a put", tftp_put(&end, &at, TEXT("a"), 3, &options, out, sizeof out, &event), TFTP_OK);
    hears(&end, true, TEXT("\0\4\0\0"));
    agrees("a put without an OACK", &end, false, 0, 0);

    static const char read[] = "\0\1a\0octet\0tsize\0" "0\0timeout\0" "4", plain[] = "\0\1a\0octet";
    static const char write[] = "\0\2a\0octet\0tsize\0" "700";
    expect("a served read", tftp_serve_get(&end, &at, (const uint8_t *)read, sizeof read, 3, TEXT("abc"), &options, out,
                                           sizeof out, &event), TFTP_OK);
    agrees("a served read", &end, true, 3, 4);
    expect("a served read", tftp_serve_get(&end, &at, (const uint8_t *)plain, sizeof plain, 3, TEXT("abc"), &options, out,
                                           sizeof out, &event), TFTP_OK);
    agrees("a served read without options", &end, false, 0, 0);
    expect("a served write", tftp_serve_put(&end, &at, (const uint8_t *)write, sizeof write, &options, out, sizeof out,
                                            &event), TFTP_OK);
    agrees("a served write", &end, true, 700, 0);
    tftp_close(&end);
}

/* What a server's transfer says that it has agreed, open or over. */
static void transfers_agree(void) {
    static const struct tftp_endpoint at = {{10, 0, 0, 1}, 1024};
    static const char read[] = "\0\1a\0octet\0tsize\0" "0\0timeout\0" "4\0blksize\0" "8", plain[] = "\0\2b\0octet";
    static const char write[] = "\0\2c\0octet\0tsize\0" "700";
    static const struct { const char *request; size_t len; bool writes, has_length; uint64_t length; uint8_t timeout;
                          uint16_t block_size; } tried[] = {
        {read, sizeof read, false, true, 3, 4, 8}, {plain, sizeof plain, true, false, 0, 0, 512},
        {write, sizeof write, true, true, 700, 0, 512}};
    struct tftp_options options = OPTIONS(.max_file = 1000, .retries = 5);
    struct tftp_server server = {0};
    struct tftp_event event = {0};
    struct tftp_info info = TFTP_INFO_INIT;
    uint8_t out[TFTP_MIN_REPLY];
    expect("the info of a closed server", tftp_server_info(&server, 0, &info), TFTP_FAULT_NOT_OPEN);
    expect("a server", tftp_server_open(&server, &options, 3), TFTP_OK);
    for (uint16_t i = 0; i < 3; i++) {
        const uint8_t *request = (const uint8_t *)tried[i].request;
        expect("the info of no transfer", tftp_server_info(&server, i, &info), TFTP_FAULT_NO_TRANSFER);
        expect("a transfer", tried[i].writes ? tftp_server_put(&server, i, &at, request, tried[i].len, out, sizeof out, &event)
            : tftp_server_get(&server, i, &at, request, tried[i].len, 3, TEXT("abc"), out, sizeof out, &event), TFTP_OK);
    }
    for (int over = 0; over < 2; over++) {
        for (uint16_t i = 0; i < 3; i++) {
            info = (struct tftp_info)TFTP_INFO_INIT;
            info.length = 77;
            expect("the info of a transfer", tftp_server_info(&server, i, &info), TFTP_OK);
            FIELD(info, has_length, tried[i].has_length);
            FIELD(info, length, tried[i].length);
            FIELD(info, timeout, tried[i].timeout);
            FIELD(info, block_size, tried[i].block_size);
        }
        /* the peer of the first gives it up */
        expect("its ERROR", tftp_server_send(&server, 0, &at, TEXT("\0\5\0\0\0"), NULL, 0, out, sizeof out, &event),
               over ? TFTP_FAULT_NO_TRANSFER : TFTP_OK);
    }
    info.size = 8;
    expect("an info of no size", tftp_server_info(&server, 0, &info), TFTP_FAULT_BAD_OPTIONS);
    info.size = 80;
    expect("one that is too large", tftp_server_info(&server, 0, &info), TFTP_FAULT_LATER_STRUCT);
    tftp_server_close(&server);
}

/* A read at an end, or at a server, whose buffer has this room. */
static void room_of(size_t room, bool held, const uint8_t *request, size_t len) {
    static const struct tftp_endpoint at = {{10, 0, 0, 1}, 1024};
    static uint8_t file[70000], out[TFTP_HEADER + TFTP_MAX_BLOCK];
    const uint8_t ack[] = {0, 4, 0, 0};
    struct tftp_options options = OPTIONS(.max_file = UINT64_MAX, .retries = 5);
    struct tftp_end end = {0};
    struct tftp_server server = {0};
    struct tftp_event event = {.number = 77};
    bool asks = len > 20;
    expect("a server", tftp_server_open(&server, &options, 1), TFTP_OK);
    uint8_t fault = held
        ? tftp_server_get(&server, 7, &at, request, len, sizeof file, file, sizeof file, out, room, &event)
        : tftp_serve_get(&end, &at, request, len, sizeof file, file, sizeof file, &options, out, room, &event);
    expect("an opening", fault, room < TFTP_MIN_REPLY ? TFTP_FAULT_NO_ROOM : TFTP_OK);
    if (fault) {
        FIELD(event, number, 77);
        expect("whether it is open", end.is_open || tftp_server_give_up(&server, 7), 0);
    } else {
        FIELD(event, block_size, asks ? room - TFTP_HEADER : TFTP_DEFAULT_BLOCK);
        FIELD(event, progress, 0);
        expect("whether its datagram fits", event.send_len > 0 && event.send_len <= room, 1);
    }
    if (!fault && asks) {
        fault = held ? tftp_server_send(&server, 7, &at, ack, sizeof ack, file, sizeof file, out, room - 1, &event)
            : tftp_send(&end, &at, ack, sizeof ack, file, sizeof file, out, room - 1, &event);
        expect("an ACK, whose DATA does not fit", fault, TFTP_OK);
        FIELD(event, send_len, 0);
        FIELD(event, no_room, 1);
        fault = held ? tftp_server_timeout(&server, 7, out, room, &event) : tftp_timeout(&end, out, room, &event);
        expect("a timeout, which has room", fault, TFTP_OK);
        FIELD(event, send_len, room);
        FIELD(event, no_room, 0);
    }
    tftp_close(&end);
    tftp_server_close(&server);
}

/* No call says that more is to be sent than its buffer has, whatever a client asks for: an opening agrees to no block that
 * its buffer has no room for, or is refused, and what a later call has no room for is lost, and sent again. */
static void rooms(void) {
    static const struct tftp_endpoint at = {{10, 0, 0, 1}, 1024};
    struct tftp_options options = OPTIONS(.max_file = UINT64_MAX, .retries = 5);
    static const size_t tried[] = {0, 12, 515, TFTP_MIN_REPLY, 517, 1432, TFTP_HEADER + TFTP_MAX_BLOCK};
    uint8_t out[TFTP_MIN_REPLY];
    for (size_t i = 0; i < sizeof tried / sizeof *tried; i++) {
        room_of(tried[i], false, TEXT("\0\1a\0octet\0blksize\00065464\0"));
        room_of(tried[i], true, TEXT("\0\1a\0octet\0blksize\00065464\0"));
        room_of(tried[i], false, TEXT("\0\1a\0octet\0"));
        room_of(tried[i], true, TEXT("\0\1a\0octet\0"));
    }
    /* a client's request, and a server's first datagram of a write */
    struct tftp_end end = {0};
    struct tftp_event event = {0};
    expect("a get", tftp_get(&end, &at, TEXT("a"), &options, out, 9, &event), TFTP_FAULT_NO_ROOM);
    expect("a put", tftp_put(&end, &at, TEXT("a"), 3, &options, out, 9, &event), TFTP_FAULT_NO_ROOM);
    expect("whether it is open", end.is_open, 0);
    expect("a put", tftp_put(&end, &at, TEXT("a"), 3, &options, out, 10, &event), TFTP_OK);
    FIELD(event, progress, 0);
    expect("a served write", tftp_serve_put(&end, &at, TEXT("\0\2a\0octet\0"), &options, out, 3, &event), TFTP_FAULT_NO_ROOM);
    expect("a served write", tftp_serve_put(&end, &at, TEXT("\0\2a\0octet\0"), &options, out, 4, &event), TFTP_OK);
    FIELD(event, progress, 0);
    tftp_close(&end);
}

/* The waits of an end, and of a server's transfer, grow after timeouts if the options say so, and begin anew. */
static void waits(void) {
    static const struct tftp_endpoint at = {{10, 0, 0, 1}, 1024};
    static const char read[] = "\0\1a\0octet\0timeout\000255";
    for (int kind = 0; kind < 4; kind++) {
        struct tftp_options options = OPTIONS(.max_file = 1000, .retries = 6, .backoff = kind % 2);
        struct tftp_end end = {0};
        struct tftp_server server = {0};
        struct tftp_event event = {0};
        uint8_t out[TFTP_MIN_REPLY];
        bool held = kind > 1;
        unsigned first = held ? 255 : 1;
        expect("a server", tftp_server_open(&server, &options, 1), TFTP_OK);
        expect("an opening", held
            ? tftp_server_get(&server, 7, &at, (const uint8_t *)read, sizeof read, 600, out, 512, out, sizeof out, &event)
            : tftp_put(&end, &at, TEXT("a"), 600, &options, out, sizeof out, &event), TFTP_OK);
        FIELD(event, interval, first);
        for (int round = 0; round < 2; round++) {
            for (unsigned i = 1; i <= 4; i++) {
                expect("a timeout", held ? tftp_server_timeout(&server, 7, out, sizeof out, &event)
                                         : tftp_timeout(&end, out, sizeof out, &event), TFTP_OK);
                FIELD(event, interval, kind % 2 ? first << (i < 3 ? i : 3) : first);
            }
            uint8_t ack[] = {0, 4, 0, (uint8_t)round};
            expect("an ACK", held ? tftp_server_send(&server, 7, &at, ack, 4, out, 512, out, sizeof out, &event)
                                  : tftp_send(&end, &at, ack, 4, out, 512, out, sizeof out, &event), TFTP_OK);
            FIELD(event, interval, first);
            FIELD(event, progress, 1);
        }
        tftp_close(&end);
        tftp_server_close(&server);
    }
}

/* A server's longest timeout bounds what it agrees to: one above it gets no answer, and the other options do. */
static void longest_timeouts(void) {
    static const struct tftp_endpoint at = {{10, 0, 0, 1}, 1024};
    static const char asked[] = "\0\1a\0octet\0TimeOut\0005\0blksize\0008";
    for (unsigned longest = 0; longest < 8; longest++)
        for (int writes = 0; writes < 2; writes++) {
            struct tftp_options options = OPTIONS(.max_file = 1000, .retries = 5, .max_timeout = (uint8_t)longest);
            struct tftp_end end = {0};
            struct tftp_server server = {0};
            struct tftp_event event = {0};
            uint8_t out[TFTP_MIN_REPLY], request[sizeof asked];
            memcpy(request, asked, sizeof asked);
            request[1] = writes ? 2 : 1;
            const char *oack = longest == 0 || longest >= 5 ? "\0\6timeout\0005\0blksize\0008" : "\0\6blksize\0008";
            size_t len = longest == 0 || longest >= 5 ? 22 : 12;
            expect("an end", writes ? tftp_serve_put(&end, &at, request, sizeof asked, &options, out, sizeof out, &event)
                : tftp_serve_get(&end, &at, request, sizeof asked, 3, TEXT("abc"), &options, out, sizeof out, &event), TFTP_OK);
            expect_bytes("its OACK", out, event.send_len, oack, len);
            FIELD(event, interval, len == 22 ? 5 : 1);
            expect("a server", tftp_server_open(&server, &options, 1), TFTP_OK);
            expect("a transfer", writes ? tftp_server_put(&server, 7, &at, request, sizeof asked, out, sizeof out, &event)
                : tftp_server_get(&server, 7, &at, request, sizeof asked, 3, TEXT("abc"), out, sizeof out, &event), TFTP_OK);
            expect_bytes("its OACK", out, event.send_len, oack, len);
            FIELD(event, interval, len == 22 ? 5 : 1);
            tftp_close(&end);
            tftp_server_close(&server);
        }
}

/* Which ERROR answers a request that an opening refuses. */
static void refusals(void) {
    static const struct tftp_endpoint at = {{10, 0, 0, 1}, 1024};
    struct tftp_options options = OPTIONS(.max_file = 1000, .retries = 5);
    struct tftp_end end = {0};
    struct tftp_event event = {0};
    uint8_t out[TFTP_MIN_REPLY];
    uint8_t fault = tftp_serve_put(&end, &at, TEXT("\0\2a\0octet\0tsize\0001001\0"), &options, out, sizeof out, &event);
    expect("a write above the limit", fault, TFTP_FAULT_OVER_LIMIT);
    expect("its ERROR", tftp_error_of(fault), TFTP_ERROR_DISK_FULL);
    fault = tftp_serve_put(&end, &at, TEXT("\0\2a\0octet\0tsize\0001000\0"), &options, out, sizeof out, &event);
    expect("a write at the limit", fault, TFTP_OK);
    fault = tftp_serve_put(&end, &at, TEXT("\0\2a\0octet\0tsize\0001\0tsize\0001\0"), &options, out, sizeof out, &event);
    expect("an option twice", fault, TFTP_FAULT_REFUSED_OPTIONS);
    expect("its ERROR", tftp_error_of(fault), TFTP_ERROR_OPTIONS);
    expect("any other", tftp_error_of(TFTP_FAULT_MEMORY), TFTP_ERROR_UNDEFINED);
    tftp_close(&end);
}

static bool differ(const char *volatile one, const char *volatile other) { return strcmp(one, other) != 0; }

/* Each number has a text of its own, and the numbers around them have none. */
static void texts(void) {
    expect("a text of no fault", differ(tftp_strfault(TFTP_FAULT_LATER_STRUCT + 1), "unknown fault"), 0);
    expect("a text of no outcome", differ(tftp_stroutcome(TFTP_OUTCOME_ABORTED + 1), "unknown outcome"), 0);
    expect("a text of no code", differ(tftp_strerror(TFTP_ERROR_OPTIONS + 1), "unknown code"), 0);
    expect("a text of no fault", differ(tftp_strdecode(TFTP_DECODE_EMPTY_OACK + 1), "unknown fault"), 0);
    for (unsigned i = 0; i <= TFTP_FAULT_LATER_STRUCT + 1; i++)
        for (unsigned j = 0; j < i; j++) {
            expect("two faults with a text", differ(tftp_strfault((uint8_t)i), tftp_strfault((uint8_t)j)), 1);
            if (i <= TFTP_DECODE_EMPTY_OACK + 1)
                expect("two faults with a text", differ(tftp_strdecode((uint8_t)i), tftp_strdecode((uint8_t)j)), 1);
            if (i <= TFTP_OUTCOME_ABORTED + 1)
                expect("two outcomes with a text", differ(tftp_stroutcome((uint8_t)i), tftp_stroutcome((uint8_t)j)), 1);
            if (i <= TFTP_ERROR_OPTIONS + 1)
                expect("two codes with a text", differ(tftp_strerror((uint16_t)i), tftp_strerror((uint16_t)j)), 1);
        }
}

/* Each fault of a datagram, at its offset. */
static void faults_of_packets(void) {
    static const struct { uint8_t fault; const char *datagram; size_t len, at; } tried[] = {
        {TFTP_DECODE_SHORT, "\0\3\0", 3, 2}, {TFTP_DECODE_OPCODE, "\0\7", 2, 0},
        {TFTP_DECODE_UNTERMINATED, "\0\1abc", 5, 2}, {TFTP_DECODE_EMPTY_NAME, "\0\1\0octet\0", 9, 2},
        {TFTP_DECODE_MODE, "\0\1a\0mail\0", 9, 4}, {TFTP_DECODE_NO_VALUE, "\0\6tsize\0", 8, 8},
        {TFTP_DECODE_EMPTY_OPTION, "\0\6\0001\0", 5, 2}, {TFTP_DECODE_TRAILING, "\0\4\0\1x", 5, 4},
        {TFTP_DECODE_BLOCK_ZERO, "\0\3\0\0", 4, 2}, {TFTP_DECODE_EMPTY_OACK, "\0\6", 2, 2}};
    static uint8_t longest[TFTP_HEADER + TFTP_MAX_BLOCK + 1] = {0, 3, 0, 1};
    struct tftp_packet packet;
    for (size_t i = 0; i < sizeof tried / sizeof *tried; i++) {
        struct tftp_packet only = {.fault = tried[i].fault, .fault_at = tried[i].at};
        memset(&packet, 0xEE, sizeof packet);
        expect("a fault", tftp_decode((const uint8_t *)tried[i].datagram, tried[i].len, &packet), tried[i].fault);
        expect("all of its fields", memcmp(&packet, &only, sizeof packet), 0);
    }
    memset(&packet, 0xEE, sizeof packet);
    expect("a request", tftp_decode(TEXT("\0\2ab\0octet\0"), &packet), 0);
    struct tftp_packet write = {.opcode = 2, .name_len = 2, .mode = 1, .body_at = 11};
    expect("all of its fields", memcmp(&packet, &write, sizeof packet), 0);
    expect("an ACK", tftp_decode(TEXT("\0\4\1\2"), &packet), 0);
    struct tftp_packet ack = {.opcode = 4, .number = 258, .body_at = 4};
    expect("all of its fields", memcmp(&packet, &ack, sizeof packet), 0);
    expect("the longest DATA", tftp_decode(longest, sizeof longest - 1, &packet), 0);
    FIELD(packet, opcode, TFTP_OPCODE_DATA);
    expect("a longer one", tftp_decode(longest, sizeof longest, &packet), TFTP_DECODE_TOO_LONG);
}

static void expect_bytes(const char *what, const uint8_t *found, size_t len, const char *expected, size_t count) {
    expect(what, len, count);
    if (len == count) expect(what, memcmp(found, expected, len), 0);
}

/* A request that is built, its options by index and by name, and what each of these calls refuses. */
static void packets(void) {
    static const char whole[] = "\0\1boot\0octet\0blksize\0001428\0TSize\0000";
    uint8_t request[TFTP_MAX_REQUEST + 1], text[TFTP_MAX_REQUEST], name[TFTP_MAX_REQUEST], ack[] = {0, 4, 0, 0};
    size_t most = TFTP_MAX_REQUEST, len = tftp_request(1, 1, TEXT("boot"), request, most);
    expect("the length of a request", len, 13);
    len = tftp_add_option(len, TEXT("blksize"), TEXT("1428"), request, most);
    len = tftp_add_option(len, TEXT("TSize"), TEXT("0"), request, most);
    expect_bytes("a request", request, len, whole, sizeof whole);
    expect_bytes("its second option", text, tftp_option(request, len, 1, text, most), "TSize\0000", 8);
    len = tftp_find_option(request, sizeof whole, TEXT("BLKSIZE"), text, most);
    expect_bytes("its blksize", text, len, "blksize\0001428", 13);
    len = sizeof whole;
    expect("a third option", tftp_option(request, len, 2, text, most), 0);
    expect("its timeout", tftp_find_option(request, len, TEXT("timeout"), text, most), 0);
    expect("an option of an ACK", tftp_option(ack, sizeof ack, 0, text, most), 0);
    expect("an option of a fault", tftp_option(request, len - 1, 0, text, most), 0);
    expect("an option that does not fit", tftp_option(request, len, 0, text, 12), 0);

    memset(name, 'a', sizeof name);
    expect("the longest request", tftp_request(2, 2, name, 500, request, most), TFTP_MAX_REQUEST);
    expect("a longer one", tftp_request(2, 2, name, 501, request, most), 0);
    expect("the longest one in octet", tftp_request(1, 1, name, 503, request, most), TFTP_MAX_REQUEST);
    expect("without a name", tftp_request(1, 1, name, 0, request, most), 0);
    expect("a name with a zero byte", tftp_request(1, 1, TEXT("a\0b"), request, most), 0);
    expect("an ACK as a request", tftp_request(4, 1, name, 1, request, most), 0);
    expect("mail", tftp_request(1, 3, name, 1, request, most), 0);
    expect("a request that does not fit", tftp_request(1, 1, name, 1, request, 9), 0);
    expect("as many options as fit", tftp_add_option(500, name, 5, name, 5, request, most), TFTP_MAX_REQUEST);
    expect("one more byte", tftp_add_option(500, name, 5, name, 6, request, sizeof request), 0);
    expect("an option without a name", tftp_add_option(10, name, 0, name, 1, request, most), 0);
    expect("a value with a zero byte", tftp_add_option(10, name, 1, TEXT("\0"), request, most), 0);
    expect("used beyond the buffer", tftp_add_option(600, name, 1, name, 1, request, most), 0);

    expect("a wire length", tftp_wire_length(TEXT("a\nb\rc")), 7);
    expect_bytes("a wire text", text, tftp_to_wire(TEXT("a\nb\rc"), text, 7), "a\r\nb\r\0c", 7);
    expect("a wire text that does not fit", tftp_to_wire(TEXT("a\nb\rc"), text, 6), 0);
}

/* Each of these calls without memory. */
static void without_memory(void) {
    uint8_t out[TFTP_MAX_REQUEST];
    static const char oack[] = "\0\6a\0001";
    for (int i = 0; i < 6; i++) {
        asked = 0;
        refused = 1;
        size_t len = i == 0 ? tftp_option(TEXT("\0\6a\0001\0"), 0, out, sizeof out)
            : i == 1 ? tftp_find_option((const uint8_t *)oack, sizeof oack, TEXT("a"), out, sizeof out)
            : i == 2 ? tftp_request(1, 1, TEXT("a"), out, sizeof out)
            : i == 3 ? tftp_add_option(2, TEXT("a"), TEXT("1"), out, sizeof out)
            : i == 4 ? tftp_error(0, TEXT("a"), out, sizeof out) : tftp_to_wire(TEXT("a"), out, sizeof out);
        expect("a length without memory", len, 0);
    }
    refused = 0;
}

/* One step of a server: a datagram at its request port, and the fault. */
static uint8_t ask(struct tftp_server *server, uint16_t port, const uint8_t *datagram, size_t len, char *name,
                   uint8_t *reply, struct tftp_question *question) {
    struct tftp_endpoint from = {{10, 0, 0, 1}, port};
    struct tftp_question before;
    uint8_t path[TFTP_MAX_PATH + 1], exact[TFTP_MAX_PATH + 1];
    memset(&before, 0, sizeof before);
    before.wants = 77;
    memcpy(question, &before, sizeof before);
    memset(path, 0xEE, sizeof path);
    uint8_t fault = tftp_server_request(server, &from, datagram, len, path, sizeof path, reply, TFTP_MAX_REQUEST,
                                        question);
    if (fault) {
        expect("the fault of a question", fault, TFTP_FAULT_MEMORY);
        expect("the question after it", memcmp(question, &before, sizeof before), 0);
    } else {
        /* a zero byte is behind a path where there is room for it */
        if (question->wants) expect("behind a path", path[question->name_len], 0);
        memcpy(name, path, question->name_len);
        name[question->name_len] = 0;
        memset(exact, 0xEE, sizeof exact);
        if (question->wants && tftp_server_request(server, &from, datagram, len, exact, question->name_len, reply,
                                                   TFTP_MAX_REQUEST, question) == TFTP_OK) {
            expect("a path that fits alone", memcmp(exact, path, question->name_len), 0);
            expect("behind its buffer", exact[question->name_len], 0xEE);
        }
    }
    return fault;
}

#define EXPECT_ASKED(what, wanted, path, error)                                                              \
    do {                                                                                                     \
        expect("the wants of " what, question.wants, (wanted));                                              \
        expect("the path of " what, strcmp(name, (path)), 0);                                                \
        expect("the ERROR of " what, question.send_len ? reply[3] + 1u : 0, (error));                        \
    } while (0)

/* What the request port of a server asks and answers. */
static void request_port(void) {
    struct tftp_options options = OPTIONS(.max_file = 1000, .retries = 5);
    struct tftp_server server = {0};
    struct tftp_question question;
    struct tftp_endpoint from = {{10, 0, 0, 1}, 1};
    struct tftp_event event = {0};
    uint8_t reply[TFTP_MAX_REQUEST], out[TFTP_MIN_REPLY];
    char name[256];
    expect("a server with no transfers", tftp_server_open(&server, &options, 0), TFTP_FAULT_BAD_REQUEST);
    expect("one with too many", tftp_server_open(&server, &options, 65), TFTP_FAULT_BAD_REQUEST);
    expect("a closed server", tftp_server_timeout(&server, 1, out, sizeof out, &event), TFTP_FAULT_NOT_OPEN);
    expect("whether it gives up", tftp_server_give_up(&server, 1), 0);
    expect("a server", tftp_server_open(&server, &options, 2), TFTP_OK);

    ask(&server, 1, TEXT("\0\1/a/b\0octet\0"), name, reply, &question);
    EXPECT_ASKED("a read", TFTP_WANTS_OPEN, "a/b", 0);
    FIELD(question, mode, TFTP_MODE_OCTET);
    ask(&server, 1, TEXT("\0\1a\0NetASCII\0"), name, reply, &question);
    EXPECT_ASKED("a read of a text", TFTP_WANTS_OPEN, "a", 0);
    FIELD(question, mode, TFTP_MODE_NETASCII);
    ask(&server, 1, TEXT("\0\2a\0OCTET\0"), name, reply, &question);
    EXPECT_ASKED("a write", TFTP_WANTS_BEGIN, "a", 0);
    ask(&server, 1, TEXT("\0\2a\0octet\0tsize\0001001\0"), name, reply, &question);
    EXPECT_ASKED("a write that is too long", 0, "", 3 + 1);
    FIELD(question, mode, 0);
    uint8_t too_long = tftp_server_put(&server, 7, &from, TEXT("\0\2a\0octet\0tsize\0001001\0"), out, sizeof out, &event);
    expect("its transfer", too_long, TFTP_FAULT_OVER_LIMIT);
    ask(&server, 1, TEXT("\0\1../a\0octet\0"), name, reply, &question);
    EXPECT_ASKED("a name that is no path", 0, "", 2 + 1);
    ask(&server, 1, TEXT("\0\4\0\1"), name, reply, &question);
    EXPECT_ASKED("an ACK", 0, "", 4 + 1);
    ask(&server, 1, TEXT("\0\5\0\1\0"), name, reply, &question);
    EXPECT_ASKED("an ERROR", 0, "", 0);
    ask(&server, 0, TEXT("\0\1a\0octet\0"), name, reply, &question);
    EXPECT_ASKED("a read from port 0", 0, "", 0);
    ask(&server, 0, TEXT("\0\4\0\1"), name, reply, &question);
    EXPECT_ASKED("an ACK from port 0", 0, "", 0);

    static const char read[] = "\0\1a\0octet";
    const uint8_t *bytes = (const uint8_t *)read;
    uint8_t fault = tftp_server_get(&server, 7, &from, bytes, sizeof read, 3, TEXT("abc"), out, sizeof out, &event);
    expect("a transfer", fault, TFTP_OK);
    expect_bytes("its DATA", out, event.send_len, "\0\3\0\1abc", 7);
    ask(&server, 1, bytes, sizeof read, name, reply, &question);
    EXPECT_ASKED("a request that comes again", 0, "", 0);
    fault = tftp_server_get(&server, 8, &from, bytes, sizeof read, 3, TEXT("abc"), out, sizeof out, &event);
    expect("a transfer of it", fault, TFTP_FAULT_NO_TRANSFER);
    from.port = 2;
    fault = tftp_server_get(&server, 7, &from, bytes, sizeof read, 3, TEXT("abc"), out, sizeof out, &event);
    expect("a number in use", fault, TFTP_FAULT_IN_USE);
    fault = tftp_server_put(&server, 8, &from, bytes, sizeof read, out, sizeof out, &event);
    expect("a write of a read", fault, TFTP_FAULT_BAD_REQUEST);
    fault = tftp_server_get(&server, 8, &from, bytes, sizeof read, 3, TEXT("abc"), out, sizeof out, &event);
    expect("a second transfer", fault, TFTP_OK);
    ask(&server, 3, bytes, sizeof read, name, reply, &question);
    EXPECT_ASKED("a third one", 0, "", 0 + 1);

    uint8_t ack[] = {0, 4, 0, 1}, block[512];
    fault = tftp_server_receive(&server, 8, &from, ack, sizeof ack, block, sizeof block, out, sizeof out, &event);
    expect("the other side", fault, TFTP_FAULT_NO_TRANSFER);
    fault = tftp_server_send(&server, 8, &from, ack, sizeof ack, block, 0, out, sizeof out, &event);
    expect("the last ACK", fault, TFTP_OK);
    expect("whether all is acknowledged", event.complete, 1);
    expect("a timeout after it", tftp_server_timeout(&server, 8, out, sizeof out, &event), TFTP_FAULT_NO_TRANSFER);
    expect("a timeout of the other", tftp_server_timeout(&server, 7, out, sizeof out, &event), TFTP_OK);
    expect_bytes("what it sends again", out, event.send_len, "\0\3\0\1abc", 7);
    expect("whether it is given up", tftp_server_give_up(&server, 8), 1);
    expect("whether it was held still", tftp_server_give_up(&server, 8), 0);
    tftp_server_close(&server);
    tftp_server_close(&server);
}

/* A server that receives two blocks while the request for memory of this number is refused: the call that it refused
 * is made again. Whether it was. */
static int lacking_server(int number) {
    struct tftp_options options = OPTIONS(.max_file = 1000, .retries = 5);
    struct tftp_server server = {0};
    struct tftp_question question;
    struct tftp_endpoint from = {{10, 0, 0, 1}, 1};
    struct tftp_event event = {0};
    uint8_t reply[TFTP_MAX_REQUEST], block[8], file[16], data[] = "\0\3\0\1one\r\0two";
    char name[256];
    static const char write[] = "\0\2a\0netascii\0blksize\0008";
    const uint8_t *bytes = (const uint8_t *)write;
    size_t have = 0;
    asked = 0;
    refused = number;
    uint8_t fault = tftp_server_open(&server, &options, 1);
    if (fault == TFTP_FAULT_MEMORY) expect("a server without memory", server.is_open, 0);
    if (fault == TFTP_FAULT_MEMORY) fault = tftp_server_open(&server, &options, 1);
    expect("a server", fault, TFTP_OK);
    if (ask(&server, 1, bytes, sizeof write, name, reply, &question))
        expect("a question", ask(&server, 1, bytes, sizeof write, name, reply, &question), TFTP_OK);
    EXPECT_ASKED("a write", TFTP_WANTS_BEGIN, "a", 0);
    fault = tftp_server_put(&server, 1, &from, bytes, sizeof write, reply, sizeof reply, &event);
    if (fault == TFTP_FAULT_MEMORY)
        fault = tftp_server_put(&server, 1, &from, bytes, sizeof write, reply, sizeof reply, &event);
    expect("a transfer", fault, TFTP_OK);
    expect_bytes("its OACK", reply, event.send_len, "\0\6blksize\0008", 12);
    for (int i = 0; i < 2; i++) {
        size_t len = i ? 5 : 12;
        data[3] = (uint8_t)(i + 1);
        fault = tftp_server_receive(&server, 1, &from, data, len, block, sizeof block, reply, sizeof reply, &event);
        if (fault == TFTP_FAULT_MEMORY)
            fault = tftp_server_receive(&server, 1, &from, data, len, block, sizeof block, reply, sizeof reply, &event);
        expect("a DATA", fault, TFTP_OK);
        memcpy(file + have, block, event.file_len);
        have += event.file_len;
    }
    expect_bytes("the file", file, have, "one\rtwoo", 8);
    expect("whether it is whole", event.complete, 1);
    tftp_server_close(&server);
    return asked >= number;
}

/* Each struct that a call writes, with another value in each field, and what is behind it as it was. */
static void layout(void) {
    static const struct tftp_endpoint server = {{10, 0, 0, 1}, 69}, peer = {{10, 0, 0, 1}, 0x1234};
    struct { struct tftp_event it; uint8_t behind[64]; } event;
    struct { struct tftp_packet it; uint8_t behind[64]; } packet;
    struct { struct tftp_question it; uint8_t behind[64]; } question;
    struct { struct tftp_info it; uint8_t behind[64]; } info;
    struct { struct tftp_end it; uint8_t behind[64]; } end;
    struct { struct tftp_server it; uint8_t behind[64]; } held;
    uint8_t untouched[64], reply[TFTP_MIN_REPLY], file[600], name[TFTP_MAX_PATH];
    struct tftp_options options = OPTIONS(.max_file = 1 << 20, .blksize = 600, .timeout = 200, .retries = 5, .asks_tsize = true,
                                          .backoff = true);
    memset(untouched, 0xEE, sizeof untouched);
    memset(&event, 0xEE, sizeof event), memset(&packet, 0xEE, sizeof packet), memset(&question, 0xEE, sizeof question);
    memset(&info, 0xEE, sizeof info), memset(&end, 0xEE, sizeof end), memset(&held, 0xEE, sizeof held);
    memset(&event.it, 0, sizeof event.it), memset(&end.it, 0, sizeof end.it), memset(&held.it, 0, sizeof held.it);
    info.it = (struct tftp_info)TFTP_INFO_INIT;

    /* an event of a get of two blocks, the second of 300 bytes; its peer then sends an ERROR */
    uint8_t data[4 + 600] = {0, 3, 0, 1};
    expect("a get", tftp_get(&end.it, &server, TEXT("a"), &options, reply, sizeof reply, &event.it), TFTP_OK);
    FIELD(event.it, interval, 1);
    FIELD(event.it, block_size, 512);
    expect("an OACK", tftp_receive(&end.it, &peer, TEXT("\0\6tsize\00070000\0blksize\000599\0timeout\000200\0"), file, sizeof file,
                                   reply, sizeof reply, &event.it), TFTP_OK);
    expect("a DATA", tftp_receive(&end.it, &peer, data, 4 + 599, file, sizeof file, reply, sizeof reply, &event.it), TFTP_OK);
    FIELD(event.it, send_len, 4);
    FIELD(event.it, file_len, 599);
    for (int i = 0; i < 4; i++) expect("ip", event.it.to.ip[i], peer.ip[i]);
    FIELD(event.it.to, port, 0x1234);
    FIELD(event.it, peer_code, 0);
    FIELD(event.it, number, 1);
    FIELD(event.it, block_size, 599);
    FIELD(event.it, interval, 200);
    FIELD(event.it, outcome, 0);
    FIELD(event.it, progress, 1);
    FIELD(event.it, complete, 0);
    FIELD(event.it, no_room, 0);
    expect("a timeout", tftp_timeout(&end.it, reply, 3, &event.it), TFTP_OK);
    FIELD(event.it, send_len, 0);
    FIELD(event.it, progress, 0);
    FIELD(event.it, interval, 400);
    FIELD(event.it, no_room, 1);
    expect("an info", tftp_end_info(&end.it, &info.it), TFTP_OK);
    FIELD(info.it, length, 70000);
    FIELD(info.it, timeout, 200);
    FIELD(info.it, has_length, 1);
    FIELD(info.it, block_size, 599);
    data[3] = 2;
    expect("the last DATA", tftp_receive(&end.it, &peer, data, 4 + 3, file, sizeof file, reply, sizeof reply, &event.it), TFTP_OK);
    FIELD(event.it, complete, 1);
    expect("a get", tftp_get(&end.it, &server, TEXT("a"), &options, reply, sizeof reply, &event.it), TFTP_OK);
    expect("an ERROR", tftp_receive(&end.it, &peer, TEXT("\0\5\2\7no\0"), file, sizeof file, reply, sizeof reply, &event.it),
           TFTP_OK);
    FIELD(event.it, peer_code, 519);
    FIELD(event.it, outcome, TFTP_OUTCOME_PEER_ERROR);
    tftp_close(&end.it);

    expect("a packet", tftp_decode(TEXT("\0\1abc\0netascii\0o\0v\0"), &packet.it), 0);
    struct tftp_packet read = {.name_len = 3, .body_at = 15, .body_len = 4, .opcode = 1, .mode = 2};
    expect("its fields", memcmp(&packet.it, &read, sizeof read), 0);
    expect("a server", tftp_server_open(&held.it, &options, 1), TFTP_OK);
    expect("a question", tftp_server_request(&held.it, &peer, TEXT("\0\1abc\0netascii\0"), name, sizeof name, reply,
                                             sizeof reply, &question.it), TFTP_OK);
    FIELD(question.it, send_len, 0);
    FIELD(question.it, name_len, 3);
    FIELD(question.it, wants, TFTP_WANTS_OPEN);
    FIELD(question.it, mode, TFTP_MODE_NETASCII);
    tftp_server_close(&held.it);
    expect("behind the event", memcmp(event.behind, untouched, 64), 0);
    expect("behind the packet", memcmp(packet.behind, untouched, 64), 0);
    expect("behind the question", memcmp(question.behind, untouched, 64), 0);
    expect("behind the info", memcmp(info.behind, untouched, 64), 0);
    expect("behind the end", memcmp(end.behind, untouched, 64), 0);
    expect("behind the server", memcmp(held.behind, untouched, 64), 0);
    expect("max_file", offsetof(struct tftp_options, max_file), 8);
    expect("blksize", offsetof(struct tftp_options, blksize), 16);
    expect("timeout", offsetof(struct tftp_options, timeout), 18);
    expect("retries", offsetof(struct tftp_options, retries), 19);
    expect("asks_tsize", offsetof(struct tftp_options, asks_tsize), 20);
    expect("is_netascii", offsetof(struct tftp_options, is_netascii), 21);
    expect("backoff", offsetof(struct tftp_options, backoff), 24);
    expect("max_timeout", offsetof(struct tftp_options, max_timeout), 25);
    /* and the sizes, which the library has by a proof */
    expect("sizeof endpoint", sizeof(struct tftp_endpoint), 6);
    expect("sizeof options", sizeof(struct tftp_options), 32);
    expect("sizeof event", sizeof(struct tftp_event), 40);
    expect("sizeof packet", sizeof(struct tftp_packet), 40);
    expect("sizeof question", sizeof(struct tftp_question), 24);
    expect("sizeof info", sizeof(struct tftp_info), 24);
    expect("sizeof end", sizeof(struct tftp_end), 16);
    expect("sizeof server", sizeof(struct tftp_server), 16);
}

int main(void) {
    struct { struct tftp_endpoint it; } endpoint = {{{10, 0, 0, 1}, 69}};
    struct { struct tftp_event it; } event = {{0}};
    /* the numbers of faults: of a closed handle, of a request that is none, of the longest request and one more */
    struct tftp_end end = {0};
    uint8_t name[TFTP_MAX_REQUEST], bytes[TFTP_MAX_REQUEST], ack[4] = {0, 4, 0, 0};
    memset(name, 'a', sizeof name);
    struct tftp_options plain = OPTIONS(.retries = 0);
    const struct tftp_endpoint *at = &endpoint.it;
    struct tftp_event *told = &event.it;
    size_t most = sizeof bytes;
    expect("TFTP_FAULT_NOT_OPEN", tftp_timeout(&end, bytes, most, told), TFTP_FAULT_NOT_OPEN);
    expect("TFTP_FAULT_BAD_REQUEST", tftp_get(&end, at, name, 0, &plain, bytes, most, told), TFTP_FAULT_BAD_REQUEST);
    expect("TFTP_OK", tftp_get(&end, at, name, TFTP_MAX_REQUEST - 9, &plain, bytes, most, told), TFTP_OK);
    expect("TFTP_MAX_REQUEST", event.it.send_len, TFTP_MAX_REQUEST);
    expect("TFTP_FAULT_WRONG_SIDE", tftp_send(&end, at, ack, sizeof ack, name, 1, bytes, most, told), TFTP_FAULT_WRONG_SIDE);
    expect("a timeout", tftp_timeout(&end, bytes, most, told), TFTP_OK);
    expect("TFTP_OUTCOME_TIMED_OUT", event.it.outcome, TFTP_OUTCOME_TIMED_OUT);
    expect("TFTP_FAULT_CLOSED", tftp_timeout(&end, bytes, most, told), TFTP_FAULT_CLOSED);
    size_t longer = TFTP_MAX_REQUEST - 8;
    expect("a longer request", tftp_get(&end, at, name, longer, &plain, bytes, most, told), TFTP_FAULT_BAD_REQUEST);
    uint64_t large = 65535ull * TFTP_DEFAULT_BLOCK;
    expect("TFTP_FAULT_TOO_LARGE_FILE", tftp_put(&end, at, name, 1, large, &plain, bytes, most, told), TFTP_FAULT_TOO_LARGE_FILE);
    expect("a smaller file", tftp_put(&end, at, name, 1, large - 1, &plain, bytes, most, told), TFTP_OK);
    tftp_close(&end);
    tftp_close(&end);

    expect("the version", tftp_version(), TFTP_VERSION);
    layout();
    packets();
    faults_of_packets();
    stated();
    agreements();
    transfers_agree();
    rooms();
    waits();
    longest_timeouts();
    refusals();
    texts();
    without_memory();
    numbers();
    limits();
    sizes_of_options();
    openings_without_memory();
    aborts();
    nulls();
    for (int kind = 0; kind < 4; kind++) {
        blocks(kind & 1, kind & 2);
        served(kind & 1, kind & 2);
    }
    request_port();

    int number = 1;
    while (lacking(number)) number++;
    expect("whether there were requests for memory", number > 3, 1);
    number = 1;
    while (lacking_server(number)) number++;
    expect("whether a server had some", number > 3, 1);
    return wrong;
}
