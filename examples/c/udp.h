/* What the examples share: a UDP socket, a clock and the arguments. */
#ifndef UDP_H
#define UDP_H
#define _POSIX_C_SOURCE 200809L
#include "tftp.h"
#include <arpa/inet.h>
#include <poll.h>
#include <stdio.h>
#include <stdlib.h>
#include <string.h>
#include <sys/socket.h>
#include <time.h>
#include <unistd.h>

static inline double now(void) {
    struct timespec t;
    clock_gettime(CLOCK_MONOTONIC, &t);
    return (double)t.tv_sec + (double)t.tv_nsec / 1e9;
}

/* A socket at this endpoint; zeros are for any address and any port. */
static inline int udp_socket(struct tftp_endpoint own) {
    int fd = socket(AF_INET, SOCK_DGRAM, 0);
    struct sockaddr_in at = {.sin_family = AF_INET, .sin_port = htons(own.port)};
    memcpy(&at.sin_addr, own.ip, 4);
    if (fd < 0 || bind(fd, (struct sockaddr *)&at, sizeof at)) {
        perror("socket");
        exit(2);
    }
    return fd;
}

static inline void udp_send(int fd, const struct tftp_endpoint *to, const uint8_t *bytes, size_t len) {
    struct sockaddr_in at = {.sin_family = AF_INET, .sin_port = htons(to->port)};
    memcpy(&at.sin_addr, to->ip, 4);
    if (len && sendto(fd, bytes, len, 0, (struct sockaddr *)&at, sizeof at) < 0)
        perror("sendto"); /* as a datagram that was lost */
}

/* Ends a transfer whose file has failed: its peer is told why, and does not wait. */
static inline void abort_transfer(int fd, struct tftp_end *end, uint16_t code, const char *text) {
    uint8_t error[TFTP_MAX_REQUEST];
    struct tftp_event event = {0};
    if (tftp_abort(end, code, (const uint8_t *)text, strlen(text), error, sizeof error, &event) == TFTP_OK)
        udp_send(fd, &event.to, error, event.send_len);
}

/* Waits for a datagram until `due`, and returns its length, or -1 for a timeout. */
static inline ssize_t udp_receive(int fd, double due, struct tftp_endpoint *from, uint8_t *bytes, size_t room) {
    for (;;) {
        double left = due - now();
        struct pollfd ready = {.fd = fd, .events = POLLIN};
        int some = poll(&ready, 1, left > 0 ? (int)(left * 1000) + 1 : 0);
        if (some == 0) return -1;
        struct sockaddr_in source = {0};
        socklen_t size = sizeof source;
        ssize_t len = some < 0 ? -1 : recvfrom(fd, bytes, room, 0, (struct sockaddr *)&source, &size);
        if (len < 0) continue; /* an ICMP error, or a signal */
        memset(from, 0, sizeof *from);
        memcpy(from->ip, &source.sin_addr, 4);
        from->port = ntohs(source.sin_port);
        return len;
    }
}

/* A whole file in memory of malloc. */
static inline uint8_t *read_file(const char *path, size_t *len) {
    FILE *file = fopen(path, "rb");
    uint8_t *bytes = NULL;
    long size = file && !fseek(file, 0, SEEK_END) ? ftell(file) : -1;
    if (size >= 0 && (bytes = malloc((size_t)size + 1))) {
        rewind(file);
        *len = fread(bytes, 1, (size_t)size, file);
    }
    if (!bytes || *len != (size_t)size) {
        perror(path);
        exit(2);
    }
    fclose(file);
    return bytes;
}

static inline struct tftp_endpoint udp_endpoint(const char *ip, const char *port) {
    struct tftp_endpoint at = {.port = (uint16_t)atoi(port)};
    if (inet_pton(AF_INET, ip, at.ip) != 1) {
        fprintf(stderr, "no IPv4 address: %s\n", ip);
        exit(2);
    }
    return at;
}

/* The text of the peer's ERROR, which is the last datagram that a call handled, and ends with a NUL. */
static inline void print_outcome(const struct tftp_event *event, const uint8_t *datagram) {
    printf("%s", tftp_stroutcome(event->outcome));
    if (event->outcome == TFTP_OUTCOME_PEER_ERROR) printf(" %d (%s)", event->peer_code, (const char *)datagram + TFTP_HEADER);
    printf(", block %d of %d bytes\n", event->number, event->block_size);
}
#endif
