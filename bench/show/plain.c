/* A plain reader of the same lines, for comparison: it prints the packet's line or `fault`. */
#include <stdio.h>
#include <stdlib.h>
#include <string.h>
#include <sys/types.h>

static int digit(int c) {
    if (c >= '0' && c <= '9') return c - '0';
    if (c >= 'a' && c <= 'f') return c - 'a' + 10;
    if (c >= 'A' && c <= 'F') return c - 'A' + 10;
    return -1;
}

static void shown(const unsigned char *s, int message) {
    for (; *s; s++) {
        if (*s > 32 && *s < 127 && *s != '%' && (*s != '=' || message)) putchar(*s);
        else if (message && *s == ' ') putchar(' ');
        else printf("%%%02x", *s);
    }
}

static int words(const unsigned char *b, size_t n, size_t at) {
    while (at < n) {
        const unsigned char *zero = memchr(b + at, 0, n - at);
        if (!zero || zero == b + at) return 0;
        const unsigned char *value = zero + 1;
        const unsigned char *end = memchr(value, 0, n - (value - b));
        if (!end) return 0;
        putchar(' ');
        shown(b + at, 0);
        putchar('=');
        shown(value, 0);
        at = end + 1 - b;
    }
    return 1;
}

int main(void) {
    char *line = NULL;
    size_t room = 0;
    ssize_t len;
    int status = 0;
    while ((len = getline(&line, &room, stdin)) > 0) {
        unsigned char *b = (unsigned char *)line;
        if (line[len - 1] == '\n') len--;
        size_t n = len / 2;
        int bad = len % 2;
        for (size_t i = 0; i < n && !bad; i++) {
            int high = digit(line[2 * i]), low = digit(line[2 * i + 1]);
            if (high < 0 || low < 0) bad = 1;
            else b[i] = high << 4 | low;
        }
        if (bad) { puts("not hex"); status = 1; continue; }
        if (n >= 4 && b[0] == 0 && b[1] == 3) printf("DATA %u %zu", b[2] << 8 | b[3], n - 4);
        else if (n == 4 && b[0] == 0 && b[1] == 4) printf("ACK %u", b[2] << 8 | b[3]);
        else if (n > 4 && b[0] == 0 && b[1] == 5 && memchr(b + 4, 0, n - 4) == b + n - 1) {
            printf("ERROR %u (", b[2] << 8 | b[3]);
            shown(b + 4, 1);
            putchar(')');
        } else if (n > 2 && b[0] == 0 && b[1] == 1 && b[n - 1] == 0) {
            size_t mode = 2 + strlen((char *)b + 2) + 1;
            printf("RRQ ");
            shown(b + 2, 0);
            printf(" %s", (char *)b + mode);
            words(b, n, mode + strlen((char *)b + mode) + 1);
        } else { printf("fault"); status = 1; }
        putchar('\n');
    }
    return status;
}
