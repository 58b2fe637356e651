/* TFTP for C99 and later: the ends of a transfer and the packets (RFC 1350; RFC 2347 to 2349), without IO. For
 * x86-64 and ARM64, on Linux, and by libtftp-bare.a on machines without a system. The objects need the ABI of C
 * of Linux there, and call tftp_alloc, tftp_realloc, tftp_free, memcpy, memmove, memset and memcmp alone: those of
 * glibc, of musl, or of a program that is linked with -nostdlib, as examples/c/alone_machine.c. The first three
 * are over malloc, unless the program has its own.
 *
 * The caller owns the socket, the clock and the file. It passes each datagram and each timeout in,
 * sends what a call writes to its buffer, and stores or reads the bytes of the file.
 *
 * Each call is proved to make the steps of the protocol and to report them as this header says, for every
 * datagram and every caller that keeps the rules below, and to read and write only what it is passed.
 * Nothing is proved of a caller in C, of this header (it is tested), of the compiler or of the system.
 *
 * What the caller owes, and what breaks without it:
 *
 * - A pointer to a struct or a number is not NULL: a call reads and writes through it. A buffer is NULL only
 *   where its length is 0, and the end or the server that is closed may be NULL.
 * - A buffer has the length that is passed: a call reads or writes up to there.
 * - The buffers and structs of one call do not overlap: a call would read what it has written.
 * - Every struct is initialised, options by TFTP_OPTIONS_INIT and any other as zeros, and a bool holds 0 or
 *   1: a call reads it.
 * - A struct tftp_end begins as zeros, is changed by these calls alone and is not copied while it is
 *   open: two copies would free one end twice. It may move if the old place is not used again.
 * - One call at a time uses an end, by one thread at a time: two would change it at once. The next call may
 *   be another thread's.
 * - tftp_close ends each use: without it the memory of the end is lost. Closing twice is allowed.
 * - tftp_alloc, tftp_realloc and tftp_free are of one allocator, for all threads that use an end: one frees
 *   what another gave, and the library uses no other. They align as they are asked: the fields of an end would
 *   be at addresses that no such field has. A null from them is reported as TFTP_FAULT_MEMORY, and nothing has
 *   changed, in no struct and no buffer, except that an opening closes what its end held before; a call that
 *   returns a length returns 0. An end has a block of 152 bytes, one for the datagram that it sent
 *   last, which a timeout sends again, and, if it sends a file or receives netascii, one for the block
 *   at hand. So tftp_get asks for memory twice and tftp_put three times, whatever the options are, and
 *   no later call of that end does, but a get in netascii at its first block, once. A server's end
 *   that sends asks at its first block, too, where it grows to what was agreed, and at none later; an
 *   opening that leaves a timeout out of its answer asks for the other options. A server has a block, a
 *   table that grows with its transfers, and for each of these its path, its request and the blocks of an
 *   end but the first. tftp_abort asks once, for its ERROR.
 * - No call is made from a signal handler, or from the child of a fork of a process with threads: malloc may
 *   not be.
 *
 * What the caller decides:
 *
 * - How long it waits. event.interval is the agreed timeout, or 1 second, and grows after timeouts if the
 *   options say so (`backoff`); the clock is the caller's, and an early or late timeout breaks nothing. Before
 *   the first answer the caller may well wait longer. A server that will not wait as long as a client asked
 *   for may call tftp_timeout early, or agree to no such timeout at all (`max_timeout`): 64 requests with
 *   `timeout=255` and 5 retries else fill a table for 1,530 seconds.
 * - How long a receiver stays after its last block. It is `complete` then, and goes on for two more timeouts,
 *   two seconds if nothing else was agreed, in which it acknowledges that block again if its peer has not
 *   had the ACK (RFC 1350, section 6). A caller that need not do so, as one whose server does not mind,
 *   sends the ACK and closes the end at once.
 * - Which datagrams it passes. One from port 0 can be given no answer: a server ignores it, and the caller
 *   of an end should not pass it on.
 * - What is longer than its buffer. A datagram that was cut is taken for a shorter one: have room for one
 *   byte more than the longest that may come, which is TFTP_HEADER and a block.
 *
 * struct tftp_options states its size, and may grow at its end in a later version, which takes the sizes of
 * earlier ones: a field that a caller does not have counts as 0. A size that is larger than the library's is
 * refused (TFTP_FAULT_LATER_STRUCT), and so is that of a struct tftp_info. All other structs keep their
 * sizes; what a later version has to say may come to stand in `reserved`, which no call reads today.
 */
#ifndef TFTP_H
#define TFTP_H
/* What the library is built for: C99 or later, or C++, and processors of 64 bits that are little-endian. */
#if !defined(__cplusplus) && (!defined(__STDC_VERSION__) || __STDC_VERSION__ < 199901L)
#error "tftp.h needs C99 or later: compile with -std=c99, -std=gnu99 or a later standard"
#elif defined(__ILP32__) || !(defined(__x86_64__) || defined(__AARCH64EL__))
#error "libtftp is built for x86-64 and for little-endian ARM64, with pointers of 64 bits, and for no other processor"
#else
#include <stdbool.h>
#include <stddef.h>
#include <stdint.h>
#ifdef __cplusplus
extern "C" {
#endif

/* The version of this header. tftp_version is that of the library, as one such number. */
#define TFTP_VERSION_MAJOR 0
#define TFTP_VERSION_MINOR 1
#define TFTP_VERSION_PATCH 0
#define TFTP_VERSION (TFTP_VERSION_MAJOR * 65536 + TFTP_VERSION_MINOR * 256 + TFTP_VERSION_PATCH)

/* Where a compiler can, it warns of NULL where it is refused, and of a fault that is not looked at. */
#if defined(__GNUC__)
#define TFTP_NONNULL(...) __attribute__((nonnull(__VA_ARGS__)))
#define TFTP_CHECKED __attribute__((warn_unused_result))
#else
#define TFTP_NONNULL(...)
#define TFTP_CHECKED
#endif

enum {
    TFTP_MAX_REQUEST = 512,    /* the longest request, OACK and ERROR, in bytes */
    TFTP_MIN_BLOCK = 8,
    TFTP_DEFAULT_BLOCK = 512,  /* the block size if none is agreed */
    TFTP_MAX_BLOCK = 65464,
    TFTP_HEADER = 4,           /* of a DATA: a datagram has at most this and a block */
    TFTP_MIN_REPLY = 516,      /* the room for what an end sends, where no block is longer than 512 bytes */
    TFTP_MAX_PATH = 255        /* the longest path that a server asks for, without a zero byte behind it */
};

/* The opcodes, the modes and the codes of an ERROR (RFC 1350, section 5 and appendix; RFC 2347). */
enum tftp_opcode {
    TFTP_OPCODE_READ = 1,
    TFTP_OPCODE_WRITE = 2,
    TFTP_OPCODE_DATA = 3,
    TFTP_OPCODE_ACK = 4,
    TFTP_OPCODE_ERROR = 5,
    TFTP_OPCODE_OACK = 6
};
enum tftp_mode {
    TFTP_MODE_OCTET = 1,
    TFTP_MODE_NETASCII = 2
};
enum tftp_error_code {
    TFTP_ERROR_UNDEFINED = 0,
    TFTP_ERROR_NOT_FOUND = 1,
    TFTP_ERROR_ACCESS = 2,
    TFTP_ERROR_DISK_FULL = 3,
    TFTP_ERROR_ILLEGAL = 4,
    TFTP_ERROR_UNKNOWN_ID = 5,
    TFTP_ERROR_EXISTS = 6,
    TFTP_ERROR_NO_USER = 7,
    TFTP_ERROR_OPTIONS = 8
};

/* What a call returns. tftp_decode returns a fault of the packet instead. */
enum tftp_fault {
    TFTP_OK = 0,
    TFTP_FAULT_NOT_OPEN = 1,        /* the handle is closed */
    TFTP_FAULT_BAD_REQUEST = 2,     /* the name is empty, has a zero byte or is too long, or an option or a
                                       number is out of range; or the request to serve is none; or an ERROR's
                                       text has a zero byte or more than 507 bytes */
    TFTP_FAULT_MEMORY = 3,          /* out of memory */
    TFTP_FAULT_CLOSED = 4,          /* the transfer is over: event.outcome of an earlier call says how */
    TFTP_FAULT_WRONG_SIDE = 5,      /* tftp_receive at an end that sends, or the other way round */
    TFTP_FAULT_TOO_LARGE_FILE = 6,  /* the file has more than 65,535 blocks */
    TFTP_FAULT_REFUSED_OPTIONS = 7, /* the options of the request are refused: answer TFTP_ERROR_OPTIONS */
    TFTP_FAULT_NO_SOURCE = 8,       /* `next` had fewer bytes than the first block */
    TFTP_FAULT_NO_TRANSFER = 9,     /* the server has no open transfer of this number that receives, or that
                                       sends; or the request opens none */
    TFTP_FAULT_IN_USE = 10,         /* the server has a transfer of this number */
    TFTP_FAULT_BAD_OPTIONS = 11,    /* the options or the info have no size: they did not begin as
                                       TFTP_OPTIONS_INIT or TFTP_INFO_INIT */
    TFTP_FAULT_NO_ROOM = 12,        /* the buffer of an opening is too short for its datagram, or for a DATA of
                                       the block size that would be agreed */
    TFTP_FAULT_OVER_LIMIT = 13,     /* a write states a length above max_file: answer TFTP_ERROR_DISK_FULL */
    TFTP_FAULT_LATER_STRUCT = 14    /* the options or the info are those of a later version: the library is
                                       older than the header that the caller was compiled with */
};

/* tftp_event.outcome. */
enum tftp_outcome {
    TFTP_OUTCOME_OPEN = 0,          /* the transfer goes on */
    TFTP_OUTCOME_COMPLETE = 1,      /* the whole file was stored, or acknowledged */
    TFTP_OUTCOME_TIMED_OUT = 2,     /* the peer did not answer; never success */
    TFTP_OUTCOME_PEER_ERROR = 3,    /* the peer sent an ERROR: event.peer_code; tftp_decode has its text */
    TFTP_OUTCOME_ILLEGAL = 4,       /* the peer sent what the protocol does not allow */
    TFTP_OUTCOME_REFUSED = 5,       /* the options that the server answered were not asked */
    TFTP_OUTCOME_TOO_LARGE = 6,     /* the stated length is more than max_file, or the file has more than
                                       65,535 blocks */
    TFTP_OUTCOME_STORE_FAULT = 7,   /* the block did not fit the buffer `file` */
    TFTP_OUTCOME_SOURCE_FAULT = 8,  /* `next` had fewer bytes than the block needs */
    TFTP_OUTCOME_NOT_NETASCII = 9,  /* the peer's text is not netascii */
    TFTP_OUTCOME_ABORTED = 10       /* tftp_abort ended it */
};

/* An IPv4 address in network order, and a UDP port in the host's order. */
struct tftp_endpoint {
    uint8_t ip[4];
    uint16_t port;
};

/* What a request asks, or how far a server goes. It begins as TFTP_OPTIONS_INIT: all bytes zero are refused
 * as TFTP_FAULT_BAD_OPTIONS. */
struct tftp_options {
    size_t size;               /* of this struct */
    uint64_t max_file;         /* the longest length that a peer may state (`tsize`). It bounds no other: a
                                  file whose length is not stated ends where the caller's room ends */
    uint16_t blksize;          /* 8 to 65464, or 0: not asked, blocks of 512 bytes; at a server: any block
                                  size, or up to this one (RFC 2348) */
    uint8_t timeout;           /* 1 to 255 seconds, or 0: not asked (RFC 2349) */
    uint8_t retries;           /* how many times in a row a datagram is sent again */
    bool asks_tsize;           /* whether the length of the file is asked, or stated (RFC 2349) */
    bool is_netascii;          /* tftp_put: then the file is wire text, which tftp_to_wire makes */
    uint8_t reserved[2];       /* no call reads it */
    bool backoff;              /* whether each timeout without progress doubles event.interval, up to eight
                                  times (RFC 1123, section 4.2.3.2) */
    uint8_t max_timeout;       /* at a server: the longest `timeout` that it agrees to, in seconds, or 0: any;
                                  a request that asks for more gets no answer to that option (RFC 2349) */
    uint8_t reserved_too[6];
};

/* No option, no limit, and a datagram is sent five times more. */
#define TFTP_OPTIONS_INIT \
    {sizeof(struct tftp_options), UINT64_MAX, 0, 0, 5, false, false, {0, 0}, false, 0, {0, 0, 0, 0, 0, 0}}

/* What a call did, and the state of the end after it. After a fault it is unchanged. */
struct tftp_event {
    size_t send_len;           /* the length of the datagram to send to `to`, or 0: none. It is never more
                                  than the buffer's */
    size_t file_len;           /* the bytes of the file that were stored in `file`, or taken from `next` */
    struct tftp_endpoint to;
    uint16_t peer_code;        /* of the peer's ERROR, for TFTP_OUTCOME_PEER_ERROR */
    uint16_t number;           /* the newest DATA of a sender, or how many blocks a receiver has stored */
    uint16_t block_size;       /* the agreed one; 512 while there is no peer */
    uint16_t interval;         /* seconds from the opening, the last progress or the last timeout to the next:
                                  the agreed timeout, or 1; with `backoff` up to eight times that */
    uint8_t outcome;           /* how the transfer ended, an enum tftp_outcome, or 0 */
    bool progress;             /* whether the call brought the transfer on: the timeout begins anew */
    bool complete;             /* whether the whole file was stored, or acknowledged. A receiver goes on
                                  until `outcome`, to repeat its last ACK if that was lost */
    bool no_room;              /* whether `reply` had no room for the datagram, of which nothing was written: it
                                  is lost, as in a network, and a timeout sends it again */
    uint8_t reserved[6];
};

/* What an end and its peer have agreed. It begins as TFTP_INFO_INIT: all bytes zero are refused as
 * TFTP_FAULT_BAD_OPTIONS. */
struct tftp_info {
    size_t size;               /* of this struct */
    uint64_t length;           /* the length of the file that was answered (`tsize`, RFC 2349), in bytes of wire
                                  text, or 0 */
    uint8_t timeout;           /* the agreed timeout in seconds (RFC 2349), or 0: none */
    bool has_length;           /* whether a length was answered: a file may have 0 bytes */
    uint16_t block_size;       /* the agreed block size in bytes (RFC 2348); 512 while there is no peer */
    uint8_t reserved[4];
};

#define TFTP_INFO_INIT {sizeof(struct tftp_info), 0, 0, false, 0, {0, 0, 0, 0}}

/* One end of a transfer. All bytes zero: closed. */
struct tftp_end {
    bool is_open;
    uint8_t reserved[7];
    void *opaque;
};

/* The version of the library: major * 65536 + minor * 256 + patch. */
uint32_t tftp_version(void);

/* The lengths of the buffers of each opening and each step:
 *
 * - `reply` and `request` of a client that gets, and of a server's end that receives: TFTP_MAX_REQUEST.
 * - `reply` of an end that sends: TFTP_HEADER and the longest block that may be agreed, at least
 *   TFTP_MIN_REPLY, since an answer without an option agrees to 512.
 * - `file` of an end that receives: the longest block that may be agreed, at least TFTP_DEFAULT_BLOCK. Less
 *   closes the transfer as TFTP_OUTCOME_STORE_FAULT.
 * - `next` of an end that sends: as many bytes as the agreed block, or all that is left. Less closes the
 *   transfer as TFTP_OUTCOME_SOURCE_FAULT.
 *
 * An opening whose datagram does not fit `request` or `reply` returns TFTP_FAULT_NO_ROOM. A server's end that
 * sends agrees to no block for which its opening's `reply` has no room behind a header. A later call with less
 * room than its datagram needs loses that, as a network may: event->no_room. So event->send_len is never more
 * than the buffer's length. */

/* Opens a client that gets a file, after closing what `end` held. The request is written to
 * `request`. Send it to event->to from a port of its own, and pass
 * all datagrams that arrive there to tftp_receive. After a fault `end` is closed.
 *
 * This call and the four others that take options are inline functions over symbols that take the size of
 * the options, too, which callers without this header pass: tftp_open_get is that of tftp_get. */
TFTP_CHECKED TFTP_NONNULL(1, 2, 5, 9)
uint8_t tftp_open_get(struct tftp_end *end, const struct tftp_endpoint *server, const uint8_t *name,
                      size_t name_len, const void *options, size_t options_size, uint8_t *request,
                      size_t request_len, struct tftp_event *event);
TFTP_CHECKED TFTP_NONNULL(1, 2, 5, 8)
static inline uint8_t tftp_get(struct tftp_end *end, const struct tftp_endpoint *server,
                               const uint8_t *name, size_t name_len,
                               const struct tftp_options *options, uint8_t *request,
                               size_t request_len, struct tftp_event *event) {
    return tftp_open_get(end, server, name, name_len, options, options->size, request, request_len, event);
}

/* Opens a client that puts a file of `length` bytes, as above. Pass all datagrams to tftp_send. */
TFTP_CHECKED TFTP_NONNULL(1, 2, 6, 10)
uint8_t tftp_open_put(struct tftp_end *end, const struct tftp_endpoint *server, const uint8_t *name,
                      size_t name_len, uint64_t length, const void *options, size_t options_size,
                      uint8_t *request, size_t request_len, struct tftp_event *event);
TFTP_CHECKED TFTP_NONNULL(1, 2, 6, 9)
static inline uint8_t tftp_put(struct tftp_end *end, const struct tftp_endpoint *server,
                               const uint8_t *name, size_t name_len, uint64_t length,
                               const struct tftp_options *options, uint8_t *request,
                               size_t request_len, struct tftp_event *event) {
    return tftp_open_put(end, server, name, name_len, length, options, options->size, request, request_len,
                         event);
}

/* Opens a server's end that sends the file of a read request, after closing what `end` held. The caller
 * has read the request by tftp_decode, which says the name, and has found the file: `length` bytes, of
 * which `next` has the first block of the file or more, or all. A name may be anything, `../` too: what a
 * path is, is the caller's rule. An end knows no other: a request that comes again, as one does whose answer
 * was late, opens a second end, unless the caller looks (a struct tftp_server looks at both).
 * The options of the request are answered up to options->blksize (0: any), the room of `reply`,
 * options->max_timeout and options->max_file; options->retries and options->backoff count, and no other of
 * its fields. The first datagram is written to `reply`: send it to
 * `client` from a port of its own, and pass all datagrams that arrive there to tftp_send. After a fault
 * `end` is closed. */
TFTP_CHECKED TFTP_NONNULL(1, 2, 8, 12)
uint8_t tftp_open_serve_get(struct tftp_end *end, const struct tftp_endpoint *client,
                            const uint8_t *request, size_t request_len, uint64_t length,
                            const uint8_t *next, size_t next_len, const void *options,
                            size_t options_size, uint8_t *reply, size_t reply_len,
                            struct tftp_event *event);
TFTP_CHECKED TFTP_NONNULL(1, 2, 8, 11)
static inline uint8_t tftp_serve_get(struct tftp_end *end, const struct tftp_endpoint *client,
                                     const uint8_t *request, size_t request_len, uint64_t length,
                                     const uint8_t *next, size_t next_len,
                                     const struct tftp_options *options, uint8_t *reply,
                                     size_t reply_len, struct tftp_event *event) {
    return tftp_open_serve_get(end, client, request, request_len, length, next, next_len, options,
                               options->size, reply, reply_len, event);
}

/* Opens a server's end that receives the file of a write request, as above. Pass all datagrams to
 * tftp_receive. */
TFTP_CHECKED TFTP_NONNULL(1, 2, 5, 9)
uint8_t tftp_open_serve_put(struct tftp_end *end, const struct tftp_endpoint *client,
                            const uint8_t *request, size_t request_len, const void *options,
                            size_t options_size, uint8_t *reply, size_t reply_len,
                            struct tftp_event *event);
TFTP_CHECKED TFTP_NONNULL(1, 2, 5, 8)
static inline uint8_t tftp_serve_put(struct tftp_end *end, const struct tftp_endpoint *client,
                                     const uint8_t *request, size_t request_len,
                                     const struct tftp_options *options, uint8_t *reply,
                                     size_t reply_len, struct tftp_event *event) {
    return tftp_open_serve_put(end, client, request, request_len, options, options->size, reply, reply_len,
                               event);
}

/* Handles a datagram at an end that receives. The next event.file_len bytes of the file are written to
 * `file`, and the datagram to send to `reply`. Store the bytes of the file before sending it: it
 * acknowledges them. After a fault the end and the event are unchanged. */
TFTP_CHECKED TFTP_NONNULL(1, 2, 9)
uint8_t tftp_receive(struct tftp_end *end, const struct tftp_endpoint *from,
                     const uint8_t *datagram, size_t datagram_len, uint8_t *file, size_t file_len,
                     uint8_t *reply, size_t reply_len, struct tftp_event *event);

/* Handles a datagram at an end that sends. `next` is the part of the file from where earlier calls
 * have taken it, and event.file_len bytes of it were taken. After a fault the end and the event are
 * unchanged. */
TFTP_CHECKED TFTP_NONNULL(1, 2, 9)
uint8_t tftp_send(struct tftp_end *end, const struct tftp_endpoint *from, const uint8_t *datagram,
                  size_t datagram_len, const uint8_t *next, size_t next_len, uint8_t *reply,
                  size_t reply_len, struct tftp_event *event);

/* Delivers a timeout: event.interval seconds after the opening, the last progress or the last timeout.
 * The datagram to send again is written to `reply`. */
TFTP_CHECKED TFTP_NONNULL(1, 4)
uint8_t tftp_timeout(struct tftp_end *end, uint8_t *reply, size_t reply_len,
                     struct tftp_event *event);

/* Ends a transfer that the caller cannot go on with, as when its disk is full, and closes `end`: an ERROR of
 * this code and text is written to `reply`, of TFTP_MAX_REQUEST bytes or more, for event->to. The event
 * says TFTP_OUTCOME_ABORTED, and `complete` is false: the peer of a receiver has no ACK of what was not stored. A
 * client without an answer has no peer yet, and event->send_len is 0. After a fault nothing has
 * changed: TFTP_FAULT_CLOSED says that the transfer was over. */
TFTP_CHECKED TFTP_NONNULL(1, 7)
uint8_t tftp_abort(struct tftp_end *end, uint16_t code, const uint8_t *text, size_t text_len,
                   uint8_t *reply, size_t reply_len, struct tftp_event *event);

/* Reports what the end and its peer have agreed: a client's from the answer that made its peer known, a
 * server's end's from its opening, also once the transfer is over. After a fault, which is
 * TFTP_FAULT_BAD_OPTIONS, TFTP_FAULT_LATER_STRUCT or TFTP_FAULT_NOT_OPEN, `info` is unchanged. */
TFTP_CHECKED TFTP_NONNULL(1, 2)
uint8_t tftp_end_info(const struct tftp_end *end, struct tftp_info *info);

/* tftp_close of an end that is not NULL: the symbol of the library, for callers without this header. */
TFTP_NONNULL(1)
void tftp_close_end(struct tftp_end *end);

/* Closes an end and frees its memory. NULL is allowed, as free allows it. */
static inline void tftp_close(struct tftp_end *end) {
    if (end) tftp_close_end(end);
}

/* A server: its request port, and a table of transfers over the caller's files. All bytes zero: closed.
 * What is owed for a struct tftp_end is owed for it, too, and tftp_server_close ends each use. A table has
 * at most 64 transfers; a caller with more has several servers, and gives each client's port always to the
 * same one (examples/c/shards.c). */
struct tftp_server {
    bool is_open;
    uint8_t reserved[7];
    void *opaque;
};

/* tftp_question.wants: what the caller is asked to do with a file. */
enum tftp_wants {
    TFTP_WANTS_NOTHING = 0,
    TFTP_WANTS_OPEN = 1,       /* find it, to be read: answer by tftp_server_get */
    TFTP_WANTS_BEGIN = 2       /* begin it, to be written: answer by tftp_server_put */
};

/* What a server asks for a datagram at its request port. */
struct tftp_question {
    size_t send_len;           /* the length of the ERROR to send to the datagram's sender, or 0 */
    size_t name_len;           /* the length of the file's path, also if it is more than the buffer's */
    uint8_t wants;             /* an enum tftp_wants, or 0: nothing */
    uint8_t mode;              /* of the request whose file is wanted, an enum tftp_mode, or 0: in netascii the
                                  caller passes wire text, which tftp_to_wire makes (RFC 1350, section 1) */
    uint8_t reserved[6];
};

/* Opens a server, after closing what `server` held. It has at most `transfers` at once, 1 to 64, closed
 * ones among them. The options of its requests are answered up to options->blksize (0: any),
 * options->max_timeout and options->max_file; options->retries, at most 10, and options->backoff count, and no
 * other of its fields. After a fault, which is TFTP_FAULT_BAD_OPTIONS, TFTP_FAULT_LATER_STRUCT,
 * TFTP_FAULT_BAD_REQUEST or TFTP_FAULT_MEMORY, `server` is closed. */
TFTP_CHECKED TFTP_NONNULL(1, 2)
uint8_t tftp_open_server(struct tftp_server *server, const void *options, size_t options_size,
                         uint8_t transfers);
TFTP_CHECKED TFTP_NONNULL(1, 2)
static inline uint8_t tftp_server_open(struct tftp_server *server,
                                       const struct tftp_options *options, uint8_t transfers) {
    return tftp_open_server(server, options, options->size, transfers);
}

/* Reads a datagram that came to the request port. It asks for a file, whose path is written to `name`,
 * of TFTP_MAX_PATH bytes or more: question->name_len says where it ends, and a zero byte is written behind it
 * where there is room, as there always is in TFTP_MAX_PATH + 1 bytes; question->mode is the mode of its
 * transfer. Or it writes the ERROR that answers the datagram to `reply`, of TFTP_MAX_REQUEST bytes or
 * more: for a packet that is no request, a name that is no path, refused options of a write, or as many
 * transfers as there may be; or neither: for an ERROR, a request whose transfer is open, or a sender at
 * port 0. A path has 1
 * to 8 parts of letters, digits, '.', '_' and '-', none of which begins with '.', with '/' between them.
 * The server is unchanged. The caller answers by one of the next two calls, or by an ERROR that
 * tftp_error writes. After a fault the question is unchanged. */
TFTP_CHECKED TFTP_NONNULL(1, 2, 9)
uint8_t tftp_server_request(const struct tftp_server *server, const struct tftp_endpoint *from,
                            const uint8_t *datagram, size_t datagram_len, uint8_t *name,
                            size_t name_len, uint8_t *reply, size_t reply_len,
                            struct tftp_question *question);

/* Opens the transfer of a read request, as tftp_serve_get. `tid` is the caller's number for it, as the
 * port that it sends from. After a fault the server is unchanged. */
TFTP_CHECKED TFTP_NONNULL(1, 3, 11)
uint8_t tftp_server_get(struct tftp_server *server, uint16_t tid, const struct tftp_endpoint *from,
                        const uint8_t *request, size_t request_len, uint64_t length,
                        const uint8_t *next, size_t next_len, uint8_t *reply, size_t reply_len,
                        struct tftp_event *event);

/* Opens the transfer of a write request, as tftp_serve_put. */
TFTP_CHECKED TFTP_NONNULL(1, 3, 8)
uint8_t tftp_server_put(struct tftp_server *server, uint16_t tid, const struct tftp_endpoint *from,
                        const uint8_t *request, size_t request_len, uint8_t *reply,
                        size_t reply_len, struct tftp_event *event);

/* The steps of the transfer of this number, as tftp_receive, tftp_send and tftp_timeout. After a fault
 * the server and the event are unchanged. */
TFTP_CHECKED TFTP_NONNULL(1, 3, 10)
uint8_t tftp_server_receive(struct tftp_server *server, uint16_t tid,
                            const struct tftp_endpoint *from, const uint8_t *datagram,
                            size_t datagram_len, uint8_t *file, size_t file_len, uint8_t *reply,
                            size_t reply_len, struct tftp_event *event);
TFTP_CHECKED TFTP_NONNULL(1, 3, 10)
uint8_t tftp_server_send(struct tftp_server *server, uint16_t tid, const struct tftp_endpoint *from,
                         const uint8_t *datagram, size_t datagram_len, const uint8_t *next,
                         size_t next_len, uint8_t *reply, size_t reply_len,
                         struct tftp_event *event);
TFTP_CHECKED TFTP_NONNULL(1, 5)
uint8_t tftp_server_timeout(struct tftp_server *server, uint16_t tid, uint8_t *reply,
                            size_t reply_len, struct tftp_event *event);

/* Ends the transfer of this number by an ERROR, as tftp_abort, and removes it: TFTP_FAULT_NO_TRANSFER if none is
 * open. */
TFTP_CHECKED TFTP_NONNULL(1, 8)
uint8_t tftp_server_abort(struct tftp_server *server, uint16_t tid, uint16_t code,
                          const uint8_t *text, size_t text_len, uint8_t *reply, size_t reply_len,
                          struct tftp_event *event);

/* Reports what the transfer of this number and its peer have agreed, open or over, as tftp_end_info:
 * TFTP_FAULT_NO_TRANSFER if there is none. */
TFTP_CHECKED TFTP_NONNULL(1, 3)
uint8_t tftp_server_info(const struct tftp_server *server, uint16_t tid, struct tftp_info *info);

/* Removes the transfer of this number, open or closed, and returns whether there was one. */
TFTP_NONNULL(1)
bool tftp_server_give_up(struct tftp_server *server, uint16_t tid);

/* tftp_server_close of a server that is not NULL, for callers without this header. */
TFTP_NONNULL(1)
void tftp_close_server(struct tftp_server *server);

/* Closes a server and its transfers, and frees their memory. NULL is allowed. */
static inline void tftp_server_close(struct tftp_server *server) {
    if (server) tftp_close_server(server);
}

/* What a datagram spells. Offsets are in the datagram. A field that the packet has not is 0, and all but the
 * first and the last are 0 after a fault. */
struct tftp_packet {
    size_t fault_at;           /* of the first fault */
    size_t name_len;           /* of a request's file name, whose offset is 2 */
    size_t body_at, body_len;  /* the data, the text of an ERROR, or the options: pairs of a name and a
                                  value, each ended by a zero byte */
    uint16_t opcode;           /* TFTP_OPCODE_READ to TFTP_OPCODE_OACK, or 0 for a fault */
    uint16_t number;           /* the block, or the code of an ERROR */
    uint8_t mode;              /* of a request: TFTP_MODE_OCTET or TFTP_MODE_NETASCII */
    uint8_t fault;             /* TFTP_DECODE_SHORT to TFTP_DECODE_EMPTY_OACK, or 0 */
    uint8_t reserved[2];
};

/* The faults of a datagram that is no packet. */
enum tftp_decode_fault {
    TFTP_DECODE_SHORT = 1,         /* it ends before its opcode or its number does */
    TFTP_DECODE_OPCODE = 2,        /* the opcode is not 1 to 6 */
    TFTP_DECODE_UNTERMINATED = 3,  /* a text has no zero byte after it */
    TFTP_DECODE_EMPTY_NAME = 4,    /* the file name is empty */
    TFTP_DECODE_MODE = 5,          /* the mode is neither netascii nor octet */
    TFTP_DECODE_NO_VALUE = 6,      /* it ends after the name of an option */
    TFTP_DECODE_EMPTY_OPTION = 7,  /* the name of an option is empty */
    TFTP_DECODE_TRAILING = 8,      /* bytes follow the packet */
    TFTP_DECODE_TOO_LONG = 9,      /* it is longer than the maximum of its kind */
    TFTP_DECODE_BLOCK_ZERO = 10,   /* a DATA has the number 0 */
    TFTP_DECODE_EMPTY_OACK = 11    /* an OACK has no option */
};

/* Reads a datagram, and returns 0 or its first fault, a TFTP_DECODE_ number. */
TFTP_NONNULL(3)
uint8_t tftp_decode(const uint8_t *datagram, size_t datagram_len, struct tftp_packet *packet);

/* Writes the option at this index, from 0, of the request or the OACK that a datagram spells: its name
 * and its value, each ended by a zero byte, so that both are C strings. Returns how many bytes they are,
 * or 0: there is none, or they do not fit, or out of memory. TFTP_MAX_REQUEST bytes are enough. */
size_t tftp_option(const uint8_t *datagram, size_t datagram_len, size_t index, uint8_t *text,
                   size_t text_len);

/* As tftp_option, the first option of this name, in any case. */
size_t tftp_find_option(const uint8_t *datagram, size_t datagram_len, const uint8_t *name,
                        size_t name_len, uint8_t *text, size_t text_len);

/* Whether a request or an OACK states the length of its file by `tsize` (RFC 2349), which is written to
 * `length`, in bytes of wire text: of an OACK that a client gets, what it will receive. If not, `length` is
 * unchanged. */
TFTP_NONNULL(3)
bool tftp_stated_length(const uint8_t *datagram, size_t datagram_len, uint64_t *length);

/* Writes a request without options, of opcode 1 (read) or 2 (write) and mode 1 (octet) or 2 (netascii),
 * and returns its length; or 0: it is none (the name is empty or has a zero byte), it is longer than
 * TFTP_MAX_REQUEST or the buffer, or out of memory. It opens no end. */
size_t tftp_request(uint16_t opcode, uint8_t mode, const uint8_t *name, size_t name_len,
                    uint8_t *datagram, size_t datagram_len);

/* Appends an option to a request or an OACK of `used` bytes, and returns its new length; or 0: the name
 * is empty, a text has a zero byte, the datagram would be longer than TFTP_MAX_REQUEST or the buffer, or
 * out of memory. */
size_t tftp_add_option(size_t used, const uint8_t *name, size_t name_len, const uint8_t *value,
                       size_t value_len, uint8_t *datagram, size_t datagram_len);

/* How long a text of the host is in netascii, with CR LF for LF and CR NUL for CR: the lengths of the
 * pieces of a text add up. */
uint64_t tftp_wire_length(const uint8_t *text, size_t text_len);

/* Writes a text of the host, or a piece of it, in netascii, and returns its length; or 0: it does not
 * fit, or out of memory. A file that is put, or served to a netascii read, is passed so. */
size_t tftp_to_wire(const uint8_t *text, size_t text_len, uint8_t *wire, size_t wire_len);

/* Writes an ERROR, as a server answers a request that it does not serve, and returns its length; or 0 if
 * `text` has a zero byte, or the ERROR is longer than TFTP_MAX_REQUEST or the buffer, or without memory. */
size_t tftp_error(uint16_t code, const uint8_t *text, size_t text_len, uint8_t *datagram,
                  size_t datagram_len);

/* ---- texts, for a person: each is a C string that is never freed, in English. */

/* The code of the ERROR that answers a request which an opening has refused by this fault. */
static inline uint16_t tftp_error_of(uint8_t fault) {
    switch (fault) {
    case TFTP_FAULT_REFUSED_OPTIONS: return TFTP_ERROR_OPTIONS;
    case TFTP_FAULT_OVER_LIMIT: return TFTP_ERROR_DISK_FULL;
    default: return TFTP_ERROR_UNDEFINED;
    }
}

/* Why a call did nothing. */
static inline const char *tftp_strfault(uint8_t fault) {
    switch (fault) {
    case TFTP_OK: return "success";
    case TFTP_FAULT_NOT_OPEN: return "the handle is closed";
    case TFTP_FAULT_BAD_REQUEST: return "the request is not allowed";
    case TFTP_FAULT_MEMORY: return "out of memory";
    case TFTP_FAULT_CLOSED: return "the transfer is over";
    case TFTP_FAULT_WRONG_SIDE: return "the end does not go this way";
    case TFTP_FAULT_TOO_LARGE_FILE: return "the file has more than 65,535 blocks";
    case TFTP_FAULT_REFUSED_OPTIONS: return "the options of the request are refused";
    case TFTP_FAULT_NO_SOURCE: return "the first block is not there";
    case TFTP_FAULT_NO_TRANSFER: return "no such transfer is open";
    case TFTP_FAULT_IN_USE: return "a transfer has this number";
    case TFTP_FAULT_BAD_OPTIONS: return "the options or the info have no size";
    case TFTP_FAULT_NO_ROOM: return "the buffer is too short for the datagram";
    case TFTP_FAULT_OVER_LIMIT: return "the stated length is above the limit";
    case TFTP_FAULT_LATER_STRUCT: return "the library is older than the caller's header";
    default: return "unknown fault";
    }
}

/* How a transfer ended. */
static inline const char *tftp_stroutcome(uint8_t outcome) {
    switch (outcome) {
    case TFTP_OUTCOME_OPEN: return "open";
    case TFTP_OUTCOME_COMPLETE: return "complete";
    case TFTP_OUTCOME_TIMED_OUT: return "timed out";
    case TFTP_OUTCOME_PEER_ERROR: return "peer's error";
    case TFTP_OUTCOME_ILLEGAL: return "illegal packet";
    case TFTP_OUTCOME_REFUSED: return "options refused";
    case TFTP_OUTCOME_TOO_LARGE: return "too large";
    case TFTP_OUTCOME_STORE_FAULT: return "store fault";
    case TFTP_OUTCOME_SOURCE_FAULT: return "source fault";
    case TFTP_OUTCOME_NOT_NETASCII: return "not netascii";
    case TFTP_OUTCOME_ABORTED: return "aborted";
    default: return "unknown outcome";
    }
}

/* What the code of an ERROR means, as event.peer_code (RFC 1350, appendix; RFC 2347). */
static inline const char *tftp_strerror(uint16_t code) {
    switch (code) {
    case TFTP_ERROR_UNDEFINED: return "not defined";
    case TFTP_ERROR_NOT_FOUND: return "file not found";
    case TFTP_ERROR_ACCESS: return "access violation";
    case TFTP_ERROR_DISK_FULL: return "disk full or allocation exceeded";
    case TFTP_ERROR_ILLEGAL: return "illegal TFTP operation";
    case TFTP_ERROR_UNKNOWN_ID: return "unknown transfer ID";
    case TFTP_ERROR_EXISTS: return "file already exists";
    case TFTP_ERROR_NO_USER: return "no such user";
    case TFTP_ERROR_OPTIONS: return "options refused";
    default: return "unknown code";
    }
}

/* Why a datagram is no packet. */
static inline const char *tftp_strdecode(uint8_t fault) {
    switch (fault) {
    case 0: return "a packet";
    case TFTP_DECODE_SHORT: return "the datagram is too short";
    case TFTP_DECODE_OPCODE: return "the opcode is unknown";
    case TFTP_DECODE_UNTERMINATED: return "a text has no zero byte after it";
    case TFTP_DECODE_EMPTY_NAME: return "the file name is empty";
    case TFTP_DECODE_MODE: return "the mode is neither netascii nor octet";
    case TFTP_DECODE_NO_VALUE: return "an option has no value";
    case TFTP_DECODE_EMPTY_OPTION: return "an option has no name";
    case TFTP_DECODE_TRAILING: return "bytes follow the packet";
    case TFTP_DECODE_TOO_LONG: return "the datagram is too long";
    case TFTP_DECODE_BLOCK_ZERO: return "a DATA has the number 0";
    case TFTP_DECODE_EMPTY_OACK: return "an OACK has no option";
    default: return "unknown fault";
    }
}

/* The heap: the library asks for memory by these three alone. Those of libtftp.a call malloc, realloc and free. A program
 * that defines all three is linked with its own in their place, and without malloc; libtftp-bare.a has none. (Those of
 * libtftp.so.1 are its own.) All threads that use an end have one heap. */
/* A block of `size` bytes, which are not 0, at a multiple of `align`, which divides 16; or NULL. */
void *tftp_alloc(size_t size, size_t align);
/* Makes a block one of `size` bytes, whose first `kept` are as they were; or NULL, and then the block is as it was. */
void *tftp_realloc(void *block, size_t kept, size_t size, size_t align);
/* Frees a block that either of them gave. */
void tftp_free(void *block);

#ifdef __cplusplus
}
#endif
#endif /* what the library is built for */
#endif
