/* The machine of bare.c on Linux: SERVER, PORT and NAME are in the environment, LOCAL is where the image goes. */
#define _POSIX_C_SOURCE 200809L
#include "tftp.h"
#include <arpa/inet.h>
#include <fcntl.h>
#include <stdio.h>
#include <stdlib.h>
#include <string.h>
#include <sys/socket.h>
#include <time.h>
#include <unistd.h>

extern size_t arena_most;
static int port = -1;

void machine_send(const struct tftp_endpoint *to, const uint8_t *bytes, size_t len) {
    struct sockaddr_in at = {.sin_family = AF_INET, .sin_port = htons(to->port)};
    memcpy(&at.sin_addr, to->ip, 4);
    if (sendto(port, bytes, len, 0, (struct sockaddr *)&at, sizeof at) < 0) return; /* lost */
}

size_t machine_receive(struct tftp_endpoint *from, uint8_t *bytes, size_t room) {
    struct sockaddr_in source = {0};
    socklen_t size = sizeof source;
    ssize_t len = recvfrom(port, bytes, room, MSG_DONTWAIT, (struct sockaddr *)&source, &size);
    if (len < 0) return SIZE_MAX;
    memcpy(from->ip, &source.sin_addr, 4);
    from->port = ntohs(source.sin_port);
    return (size_t)len;
}

uint32_t machine_clock(void) {
    struct timespec t;
    clock_gettime(CLOCK_MONOTONIC, &t);
    return (uint32_t)t.tv_sec * 1000u + (uint32_t)(t.tv_nsec / 1000000);
}

void machine_server(struct tftp_endpoint *server, char *name, size_t room) {
    struct sockaddr_in any = {.sin_family = AF_INET};
    const char *ip = getenv("SERVER"), *number = getenv("PORT"), *asked = getenv("NAME");
    port = socket(AF_INET, SOCK_DGRAM, 0);
    if (!ip || !number || !asked || strlen(asked) >= room || inet_pton(AF_INET, ip, server->ip) != 1 ||
        bind(port, (struct sockaddr *)&any, sizeof any))
        _exit(2);
    server->port = (uint16_t)strtol(number, NULL, 10);
    memcpy(name, asked, strlen(asked) + 1);
}

/* without stdio, which would take its buffers from the arena */
void machine_boot(const uint8_t *image, size_t len, const struct tftp_event *event) {
    const char *local = getenv("LOCAL");
    int file = local ? open(local, O_WRONLY | O_CREAT | O_TRUNC, 0644) : -1;
    if (file < 0 || write(file, image, len) != (ssize_t)len || close(file)) _exit(2);
    char line[80];
    int size = snprintf(line, sizeof line, "outcome %d complete %zu arena %zu\n", event->outcome, len, arena_most);
    if (write(1, line, (size_t)size) != size) _exit(2);
}
