/* A put and a get of BLOCKS blocks of 512 bytes, in memory: what callgrind counts in tftp_send and in tftp_receive. */
#include "tftp.h"
#include <stdlib.h>

enum { MOST = 60000, BLOCK = TFTP_DEFAULT_BLOCK };

static const struct tftp_endpoint there = {{127, 0, 0, 1}, 1024};
static const struct tftp_options options = {.size = sizeof options, .max_file = UINT64_MAX, .retries = 5};
static uint8_t file[BLOCK], datagram[TFTP_HEADER + BLOCK], reply[TFTP_MIN_REPLY];
static struct tftp_end end;
static struct tftp_event event;

static void has(uint8_t opcode, int number) {
    datagram[1] = opcode, datagram[2] = (uint8_t)(number >> 8), datagram[3] = (uint8_t)number;
}

int main(int argc, char **argv) {
    int blocks = argc > 1 ? atoi(argv[1]) : 0;
    if (tftp_put(&end, &there, (const uint8_t *)"a", 1, (uint64_t)MOST * BLOCK, &options, reply, sizeof reply, &event))
        return 2;
    for (int number = 0; number < blocks; number++) {
        has(TFTP_OPCODE_ACK, number);
        if (tftp_send(&end, &there, datagram, TFTP_HEADER, file, sizeof file, reply, sizeof reply, &event)
            || event.send_len != sizeof datagram)
            return 1;
    }
    tftp_close(&end);
    if (tftp_get(&end, &there, (const uint8_t *)"a", 1, &options, reply, sizeof reply, &event)) return 2;
    for (int number = 1; number <= blocks; number++) {
        has(TFTP_OPCODE_DATA, number);
        if (tftp_receive(&end, &there, datagram, sizeof datagram, file, sizeof file, reply, sizeof reply, &event)
            || event.send_len != TFTP_HEADER)
            return 1;
    }
    tftp_close(&end);
    return 0;
}
