/* Copies a file in memory block by block into one buffer. Words: block size, bytes of the file, how often. */
#include <stdio.h>
#include <stdlib.h>
#include <string.h>

int main(int argc, char **argv) {
    if (argc != 4) return 2;
    size_t size = strtoul(argv[1], NULL, 10), length = strtoul(argv[2], NULL, 10);
    unsigned long rounds = strtoul(argv[3], NULL, 10), sum = 0;
    unsigned char *file = malloc(length), *buffer = malloc(size);
    if (!file || !buffer) return 2;
    memset(file, 0, length);
    for (unsigned long round = 0; round < rounds; round++)
        for (size_t at = 0; at < length; at += size) {
            memcpy(buffer, file + at, length - at < size ? length - at : size);
            __asm__ volatile("" : : "r"(buffer) : "memory");
            sum += buffer[0];
        }
    printf("%lu\n", sum);
    return 0;
}
