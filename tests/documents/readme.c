/* The get of README.md in a program that has what the page leaves to its reader: a socket, a clock and a place for the file. */
#include "udp.h"

static bool store(const uint8_t *bytes, size_t len) { return fwrite(bytes, 1, len, stdout) == len && !fflush(stdout); }

int main(int argc, char **argv) {
    static uint8_t datagram[TFTP_HEADER + TFTP_DEFAULT_BLOCK + 1], block[TFTP_DEFAULT_BLOCK], reply[TFTP_MAX_REQUEST];
    if (argc < 4) return 2;
    struct tftp_endpoint server = udp_endpoint(argv[1], argv[2]), from;
    struct tftp_event event = {0};
    const uint8_t *name = (const uint8_t *)argv[3], *why = (const uint8_t *)"file not stored";
    size_t name_len = strlen(argv[3]), why_len = 15;
    int fd = udp_socket((struct tftp_endpoint){0});
@GET@
    return is_good ? 0 : 1;
}
