/* Serves files in memory by TFTP: serve ADDR PORT NAME=PATH..
 *
 * A read gets one of the files, and a write makes a new one, which is read under its name once it is
 * complete. It ends by SIGTERM. */
#include "udp.h"
#include "files.h"
#include <signal.h>

/* `max_file` bounds the length that a write states; this bounds the one that arrives, too */
enum { AT_ONCE = 16, LONGEST = 1 << 30 };

struct transfer {
    bool is_open;
    int fd;                     /* a port of its own: the transfer identifier (RFC 1350, section 4) */
    struct file file;           /* of a read the served one, of a write the one that grows */
    size_t at;
    bool writes, owns;          /* whether the bytes are the transfer's own: of a new file, or a text as it is sent */
    double due;
};

static struct tftp_server server;
static struct transfer transfers[AT_ONCE]; /* its place here is a transfer's number in the server */
static uint8_t datagram[TFTP_HEADER + TFTP_MAX_BLOCK + 1], reply[TFTP_HEADER + TFTP_MAX_BLOCK];
static struct tftp_endpoint own; /* a port of 0 for the transfers */
static int requests;
static volatile sig_atomic_t ended;

static uint16_t number(const struct transfer *it) { return (uint16_t)(it - transfers); }

static void shut(struct transfer *it) {
    tftp_server_give_up(&server, number(it));
    close(it->fd);
    if (it->owns) free(it->file.bytes);
    it->is_open = false;
}

static void report(const struct transfer *it, const struct tftp_event *event) {
    printf("%s %s: %zu bytes, outcome %d\n", it->writes ? "write" : "read", it->file.name, it->at, event->outcome);
    fflush(stdout);
}

/* Ends a transfer whose file has failed: its client is told why, and does not wait. */
static void fail(struct transfer *it, uint16_t code) {
    const char *why = tftp_strerror(code);
    struct tftp_event event = {0};
    if (tftp_server_abort(&server, number(it), code, (const uint8_t *)why, strlen(why), reply, sizeof reply, &event) == TFTP_OK)
        udp_send(it->fd, &event.to, reply, event.send_len);
    report(it, &event);
    shut(it);
}

static void answer(struct transfer *it, const struct tftp_event *event, bool timed_out) {
    /* before the last ACK, which says that the file is stored */
    if (it->writes && event->complete && it->owns && (it->owns = !publish(&it->file))) {
        fail(it, find(it->file.name) ? TFTP_ERROR_EXISTS : TFTP_ERROR_DISK_FULL);
        return;
    }
    udp_send(it->fd, &event->to, reply, event->send_len);
    if (timed_out || event->progress) it->due = now() + event->interval;
    if (!event->outcome) return;
    report(it, event);
    shut(it);
}

/* Opens the transfer of a request, or says why not: with the code of an ERROR and its text. */
static const char *open_for(struct transfer *it, const struct tftp_endpoint *from, size_t len,
                            uint8_t mode, struct tftp_event *event, uint16_t *code) {
    struct file *file = find(it->file.name);
    *code = it->writes ? TFTP_ERROR_EXISTS : TFTP_ERROR_NOT_FOUND;
    if (it->writes == (file != NULL)) return tftp_strerror(*code);
    *code = TFTP_ERROR_UNDEFINED;
    if (file) it->file = *file;
    if (file && mode == TFTP_MODE_NETASCII && !(it->owns = wire_copy(file, &it->file))) return "out of memory";
    uint8_t fault = it->writes
        ? tftp_server_put(&server, number(it), from, datagram, len, reply, sizeof reply, event)
        : tftp_server_get(&server, number(it), from, datagram, len, it->file.len, it->file.bytes, it->file.len, reply,
                          sizeof reply, event);
    *code = tftp_error_of(fault);
    return fault == TFTP_OK ? NULL : tftp_strfault(fault);
}

/* A datagram at the request port: the server reads it, and asks for the file. */
static void request(size_t len, const struct tftp_endpoint *from) {
    struct tftp_question question = {0};
    struct tftp_event event = {0};
    struct transfer *it = transfers, new = {0};
    uint16_t code;
    if (tftp_server_request(&server, from, datagram, len, (uint8_t *)new.file.name, sizeof new.file.name, reply,
                            sizeof reply, &question)) /* a zero byte ends the name: the buffer has room for it */
        return; /* out of memory: the client sends again */
    udp_send(requests, from, reply, question.send_len);
    if (!question.wants) return;
    while (it->is_open) it++; /* one is free: the server asks for no file if it has as many as there may be */
    new.writes = new.owns = question.wants == TFTP_WANTS_BEGIN;
    *it = new;
    const char *why = open_for(it, from, len, question.mode, &event, &code);
    if (why) {
        if (it->owns) free(it->file.bytes);
        udp_send(requests, from, reply, tftp_error(code, (const uint8_t *)why, strlen(why), reply, sizeof reply));
        return;
    }
    it->is_open = true;
    it->fd = udp_socket(own);
    it->at = event.file_len;
    answer(it, &event, true);
}

static void step(struct transfer *it, ssize_t len, const struct tftp_endpoint *from) {
    struct tftp_event event = {0};
    uint8_t fault;
    if (len >= 0 && it->writes && (it->file.len > LONGEST || !grow(&it->file, TFTP_MAX_BLOCK))) {
        fail(it, TFTP_ERROR_DISK_FULL);
        return;
    }
    if (len < 0)
        fault = tftp_server_timeout(&server, number(it), reply, sizeof reply, &event);
    else if (it->writes)
        fault = tftp_server_receive(&server, number(it), from, datagram, (size_t)len, it->file.bytes + it->at,
                                    it->file.room - it->at, reply, sizeof reply, &event);
    else
        fault = tftp_server_send(&server, number(it), from, datagram, (size_t)len, it->file.bytes + it->at,
                                 it->file.len - it->at, reply, sizeof reply, &event);
    if (fault) return; /* nothing has changed: the client sends again */
    it->at += event.file_len;
    if (it->writes) it->file.len = it->at;
    answer(it, &event, len < 0);
}

static void end(int signal) { (void)signal, ended = 1; }

int main(int argc, char **argv) {
    struct tftp_options options = TFTP_OPTIONS_INIT;
    options.max_file = LONGEST;
    options.backoff = true;
    options.max_timeout = 10; /* else a client that asks for 255 seconds and leaves holds its place for half an hour */
    if (argc < 3 || tftp_server_open(&server, &options, AT_ONCE)) return 2;
    signal(SIGTERM, end);
    own = udp_endpoint(argv[1], argv[2]);
    requests = udp_socket(own);
    own.port = 0;
    for (int i = 3; i < argc && i - 3 < FILES; i++) {
        char *path = strchr(argv[i], '=');
        struct file *file = &files[i - 3];
        if (!path || path - argv[i] >= (long)sizeof file->name) return 2;
        memcpy(file->name, argv[i], (size_t)(path - argv[i]));
        file->bytes = read_file(path + 1, &file->len);
    }
    puts("serving");
    fflush(stdout);
    while (!ended) {
        struct pollfd ready[AT_ONCE + 1] = {{.fd = requests, .events = POLLIN}};
        for (int i = 0; i < AT_ONCE; i++)
            ready[i + 1] = (struct pollfd){.fd = transfers[i].is_open ? transfers[i].fd : -1, .events = POLLIN};
        poll(ready, AT_ONCE + 1, 50);
        struct tftp_endpoint from = {0};
        ssize_t len = ready[0].revents ? udp_receive(requests, 0, &from, datagram, sizeof datagram) : -1;
        if (len >= 0) request((size_t)len, &from);
        for (int i = 0; i < AT_ONCE; i++) {
            struct transfer *it = &transfers[i];
            if (!it->is_open || ready[i + 1].fd < 0) continue;
            len = ready[i + 1].revents ? udp_receive(it->fd, 0, &from, datagram, sizeof datagram) : -1;
            if (len >= 0) step(it, len, &from);
            else if (now() >= it->due) step(it, -1, &from);
        }
    }
    for (int i = 0; i < AT_ONCE; i++)
        if (transfers[i].is_open) shut(&transfers[i]);
    for (int i = 0; i < FILES; i++) free(files[i].bytes);
    tftp_server_close(&server);
    close(requests);
}
