/* A server and a client that only exchange the datagrams of TFTP, as a floor for the others:
     floor serve ADDRESS PORT ROOT each|all
     floor get|put ADDRESS PORT NAME LOCAL BLOCK
   Blocks are sent from a file that is mapped to memory, and what is written is counted and thrown away: a file has its
   length, and no bytes. Nothing is checked or sent again. The server has a process for each transfer, which waits in
   `recv` alone (each), or one for all, with epoll (all). */
#define _GNU_SOURCE
#include <arpa/inet.h>
#include <fcntl.h>
#include <signal.h>
#include <stdio.h>
#include <stdlib.h>
#include <string.h>
#include <sys/epoll.h>
#include <sys/mman.h>
#include <sys/prctl.h>
#include <sys/socket.h>
#include <sys/stat.h>
#include <sys/uio.h>
#include <unistd.h>

enum { AT_ONCE = 64, LONGEST = 65468 };

struct transfer {
    int socket, is_put;
    unsigned number;
    size_t block, length, bytes;
    const unsigned char *file;
    char path[600];
};

static unsigned char bytes[LONGEST];

static void fail(const char *what) {
    perror(what);
    exit(2);
}

static void map(struct transfer *transfer, const char *path) {
    struct stat stat;
    int file = open(path, O_RDONLY);
    if (file < 0 || fstat(file, &stat))
        fail(path);
    transfer->length = stat.st_size;
    transfer->file = mmap(0, transfer->length + 1, PROT_READ, MAP_SHARED | MAP_POPULATE, file, 0);
    close(file);
}

/* A file of the length of what was written. */
static void stand_in(const char *path, size_t length) {
    int file = open(path, O_WRONLY | O_CREAT | O_TRUNC, 0666);
    if (file < 0 || ftruncate(file, length))
        fail(path);
    close(file);
}

static void send_block(struct transfer *transfer) {
    size_t from = (transfer->number - 1) * transfer->block, left = transfer->length - from;
    unsigned char head[4] = {0, 3, transfer->number >> 8 & 255, transfer->number & 255};
    size_t length = left < transfer->block ? left : transfer->block;
    struct iovec parts[2] = {{head, 4}, {(void *)(transfer->file + from), length}};
    writev(transfer->socket, parts, 2);
}

static void send_ack(struct transfer *transfer) {
    unsigned char head[4] = {0, 4, transfer->number >> 8 & 255, transfer->number & 255};
    send(transfer->socket, head, 4, 0);
}

/* A datagram of the peer. Returns whether the transfer is over. */
static int step(struct transfer *transfer, ssize_t length, int sends) {
    if (length < 2 || bytes[1] == 5)
        return 1;
    if (sends) {
        if (transfer->number > transfer->length / transfer->block)
            return 1;
        transfer->number++;
        send_block(transfer);
        return 0;
    }
    transfer->number = bytes[1] == 6 ? 0 : transfer->number + 1;
    transfer->bytes += bytes[1] == 6 ? 0 : length - 4;
    send_ack(transfer);
    return bytes[1] != 6 && (size_t)length < 4 + transfer->block;
}

/* Opens a transfer by its request, and sends the first answer. Returns whether it is one. */
static int open_transfer(struct transfer *transfer, struct sockaddr_in *own, struct sockaddr_in *peer,
                         const char *root) {
    const char *name = (char *)bytes + 2, *mode = name + strlen(name) + 1, *option = mode + strlen(mode) + 1;
    struct stat stat_;
    memset(transfer, 0, sizeof *transfer);
    transfer->is_put = bytes[1] == 2, transfer->block = 512;
    snprintf(transfer->path, sizeof transfer->path, "%.300s/%.250s", root, name);
    own->sin_port = 0;
    transfer->socket = socket(AF_INET, SOCK_DGRAM, 0);
    bind(transfer->socket, (struct sockaddr *)own, sizeof *own);
    connect(transfer->socket, (struct sockaddr *)peer, sizeof *peer);
    if (!transfer->is_put && stat(transfer->path, &stat_)) {
        send(transfer->socket, "\0\5\0\1\0", 5, 0);
        close(transfer->socket);
        return 0;
    }
    if (!transfer->is_put)
        map(transfer, transfer->path);
    if (!strcasecmp(option, "blksize")) {
        char oack[64] = "\0\6blksize";
        transfer->block = atoi(option + 8);
        send(transfer->socket, oack, 11 + sprintf(oack + 10, "%zu", transfer->block), 0);
    } else if (transfer->is_put)
        send_ack(transfer);
    else
        transfer->number = 1, send_block(transfer);
    return 1;
}

static void close_transfer(struct transfer *transfer) {
    if (transfer->is_put)
        stand_in(transfer->path, transfer->bytes);
    else
        munmap((void *)transfer->file, transfer->length + 1);
    close(transfer->socket);
}

static void serve(char **words) {
    struct sockaddr_in own = {.sin_family = AF_INET, .sin_port = htons(atoi(words[3]))}, peer;
    int requests = socket(AF_INET, SOCK_DGRAM, 0), ready = epoll_create1(0), is_each = !strcmp(words[5], "each");
    struct epoll_event event = {.events = EPOLLIN}, events[AT_ONCE];
    inet_pton(AF_INET, words[2], &own.sin_addr);
    if (bind(requests, (struct sockaddr *)&own, sizeof own))
        fail("bind");
    signal(SIGCHLD, SIG_IGN);
    epoll_ctl(ready, EPOLL_CTL_ADD, requests, &event);
    for (;;) {
        int found = is_each ? 1 : epoll_wait(ready, events, AT_ONCE, -1);
        for (int at = 0; at < found; at++) {
            struct transfer *transfer = is_each ? 0 : events[at].data.ptr;
            if (transfer) {
                if (step(transfer, recv(transfer->socket, bytes, sizeof bytes, 0), !transfer->is_put))
                    close_transfer(transfer), free(transfer);
                continue;
            }
            socklen_t size = sizeof peer;
            ssize_t length = recvfrom(requests, bytes, sizeof bytes - 1, 0, (struct sockaddr *)&peer, &size);
            bytes[length < 0 ? 0 : length] = 0;
            if (length < 4 || bytes[1] > 2)
                continue;
            if (is_each && fork())
                continue;
            if (is_each)
                prctl(PR_SET_PDEATHSIG, SIGKILL);
            transfer = malloc(sizeof *transfer);
            if (!open_transfer(transfer, &own, &peer, words[4])) {
                if (is_each)
                    exit(0);
                free(transfer);
                continue;
            }
            event.data.ptr = transfer;
            if (!is_each) {
                epoll_ctl(ready, EPOLL_CTL_ADD, transfer->socket, &event);
                continue;
            }
            while (!step(transfer, recv(transfer->socket, bytes, sizeof bytes, 0), !transfer->is_put))
                ;
            close_transfer(transfer);
            exit(0);
        }
    }
}

static int transfer_once(char **words) {
    struct sockaddr_in server = {.sin_family = AF_INET, .sin_port = htons(atoi(words[3]))}, peer;
    struct transfer transfer = {.is_put = !strcmp(words[1], "put"), .block = 512};
    socklen_t size = sizeof peer;
    inet_pton(AF_INET, words[2], &server.sin_addr);
    transfer.socket = socket(AF_INET, SOCK_DGRAM, 0);
    if (transfer.is_put)
        map(&transfer, words[5]);
    size_t length = 2;
    bytes[1] = transfer.is_put ? 2 : 1;
    length += sprintf((char *)bytes + length, "%s", words[4]) + 1;
    length += sprintf((char *)bytes + length, "octet") + 1;
    if (strcmp(words[6], "512")) {
        length += sprintf((char *)bytes + length, "blksize") + 1;
        length += sprintf((char *)bytes + length, "%s", words[6]) + 1;
    }
    transfer.block = atoi(words[6]);
    sendto(transfer.socket, bytes, length, 0, (struct sockaddr *)&server, sizeof server);
    ssize_t got = recvfrom(transfer.socket, bytes, sizeof bytes, 0, (struct sockaddr *)&peer, &size);
    connect(transfer.socket, (struct sockaddr *)&peer, sizeof peer);
    while (!step(&transfer, got, transfer.is_put))
        got = recv(transfer.socket, bytes, sizeof bytes, 0);
    if (bytes[1] == 5)
        return 1;
    if (!transfer.is_put)
        stand_in(words[5], transfer.bytes);
    return 0;
}

int main(int count, char **words) {
    if (count == 6 && !strcmp(words[1], "serve"))
        serve(words);
    return count == 7 ? transfer_once(words) : 2;
}
