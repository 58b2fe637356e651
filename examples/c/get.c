/* Gets a file by TFTP: get ADDR PORT NAME LOCAL [BLKSIZE [netascii]] */
#include "udp.h"

static uint8_t datagram[TFTP_HEADER + TFTP_MAX_BLOCK + 1], block[TFTP_MAX_BLOCK], reply[TFTP_MAX_REQUEST];

int main(int argc, char **argv) {
    if (argc < 5) return 2;
    struct tftp_endpoint server = udp_endpoint(argv[1], argv[2]), from;
    struct tftp_options options = TFTP_OPTIONS_INIT;
    options.asks_tsize = true;
    options.backoff = true; /* the waits grow, as RFC 1123 asks for */
    if (argc > 5) options.blksize = (uint16_t)atoi(argv[5]);
    options.is_netascii = argc > 6; /* LF is stored for CR LF */
    struct tftp_end end = {0};
    struct tftp_event event = {0};
    int fd = udp_socket((struct tftp_endpoint){0});

    uint8_t fault = tftp_get(&end, &server, (const uint8_t *)argv[3], strlen(argv[3]), &options, reply,
                             sizeof reply, &event);
    if (fault) {
        fprintf(stderr, "the request cannot be sent: %s\n", tftp_strfault(fault));
        return 2;
    }
    FILE *local = fopen(argv[4], "wb");
    if (!local) {
        perror(argv[4]);
        tftp_close(&end);
        return 2;
    }
    udp_send(fd, &event.to, reply, event.send_len);
    double due = now() + event.interval;
    size_t total = 0;
    /* The file is whole once event.complete. What follows are two more seconds, in which the last ACK is sent again
     * if it was lost (RFC 1350, section 6). A caller that need not stay so long leaves the loop at event.complete,
     * after the ACK is sent, as bare.c does. */
    while (!event.outcome) {
        ssize_t len = udp_receive(fd, due, &from, datagram, sizeof datagram);
        if (len >= 0)
            fault = tftp_receive(&end, &from, datagram, (size_t)len, block, sizeof block, reply, sizeof reply, &event);
        else
            fault = tftp_timeout(&end, reply, sizeof reply, &event);
        if (fault == TFTP_FAULT_MEMORY) continue; /* nothing has changed: the peer sends again */
        if (fault) break;
        if (fwrite(block, 1, event.file_len, local) != event.file_len || (event.complete && fflush(local))) {
            perror(argv[4]); /* not acknowledged, so that the server does not take it for stored */
            abort_transfer(fd, &end, TFTP_ERROR_DISK_FULL, "file not stored");
            event.complete = false;
            break;
        }
        total += event.file_len;
        udp_send(fd, &event.to, reply, event.send_len);
        if (len < 0 || event.progress) due = now() + event.interval;
    }
    print_outcome(&event, datagram);
    bool good = fclose(local) == 0 && event.complete;
    printf("%s %zu\n", good ? "complete" : "failed", total);
    tftp_close(&end);
    close(fd);
    return good ? 0 : 1;
}
