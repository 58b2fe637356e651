/* Puts a file by TFTP: put ADDR PORT LOCAL NAME [BLKSIZE [netascii]] */
#include "udp.h"

static uint8_t datagram[TFTP_MAX_REQUEST + 1], reply[TFTP_HEADER + TFTP_MAX_BLOCK];

int main(int argc, char **argv) {
    if (argc < 5) return 2;
    struct tftp_endpoint server = udp_endpoint(argv[1], argv[2]), from;
    size_t length = 0, taken = 0; /* the calls take each block from where the last one ended */
    uint8_t *file = read_file(argv[3], &length);
    struct tftp_options options = TFTP_OPTIONS_INIT;
    options.asks_tsize = true;
    options.backoff = true; /* the waits grow, as RFC 1123 asks for */
    if (argc > 5) options.blksize = (uint16_t)atoi(argv[5]);
    if (argc > 6) { /* a text is sent with CR LF and CR NUL */
        uint8_t *text = file, *wire = malloc(tftp_wire_length(text, length) + 1);
        if (!wire) return 2;
        file = wire;
        length = tftp_to_wire(text, length, wire, tftp_wire_length(text, length));
        options.is_netascii = true;
        free(text);
    }
    struct tftp_end end = {0};
    struct tftp_event event = {0};
    int fd = udp_socket((struct tftp_endpoint){0});

    uint8_t fault = tftp_put(&end, &server, (const uint8_t *)argv[4], strlen(argv[4]), length, &options,
                             reply, sizeof reply, &event);
    if (fault) {
        fprintf(stderr, "the request cannot be sent: %s\n", tftp_strfault(fault));
        free(file);
        return 2;
    }
    udp_send(fd, &event.to, reply, event.send_len);
    double due = now() + event.interval;
    while (!event.outcome) {
        ssize_t len = udp_receive(fd, due, &from, datagram, sizeof datagram);
        if (len >= 0)
            fault = tftp_send(&end, &from, datagram, (size_t)len, file + taken, length - taken, reply,
                              sizeof reply, &event);
        else
            fault = tftp_timeout(&end, reply, sizeof reply, &event);
        if (fault == TFTP_FAULT_MEMORY) continue; /* nothing has changed: the timeout comes */
        if (fault) break;
        taken += event.file_len;
        udp_send(fd, &event.to, reply, event.send_len);
        if (len < 0 || event.progress) due = now() + event.interval;
    }
    print_outcome(&event, datagram);
    printf("%s %zu\n", event.complete ? "complete" : "failed", taken);
    tftp_close(&end);
    close(fd);
    free(file);
    return event.complete ? 0 : 1;
}
