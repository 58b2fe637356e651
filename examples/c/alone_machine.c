/* The machine of bare.c on x86-64 Linux without a C library: what it asks of the system it asks by system calls. Link it
 * with -nostdlib. SERVER, PORT and NAME are in the environment, and LOCAL is where the image goes, as for host_machine.c. */
#include "tftp.h"

int main(void);
extern size_t arena_most;

/* system calls */
enum { SYS_WRITE = 1, SYS_OPEN = 2, SYS_SOCKET = 41, SYS_SENDTO = 44, SYS_RECVFROM = 45, SYS_BIND = 49, SYS_EXIT = 60,
       SYS_CLOCK = 228 };
enum { INET = 2, DATAGRAMS = 2, DO_NOT_WAIT = 0x40, WRITE_ANEW = 01 | 0100 | 01000, MONOTONIC = 1 };

struct address { /* struct sockaddr_in */
    uint16_t family;
    uint8_t port[2], ip[4], zeros[8];
};

static char **environment;
static int port = -1;

static long ask(long number, long a, long b, long c, long d, long e, long f) {
    register long fourth __asm__("r10") = d, fifth __asm__("r8") = e, sixth __asm__("r9") = f;
    long answer;
    __asm__ volatile("syscall" : "=a"(answer) : "a"(number), "D"(a), "S"(b), "d"(c), "r"(fourth), "r"(fifth), "r"(sixth)
                     : "rcx", "r11", "memory");
    return answer;
}

/* What the library and bare.c call of <string.h>: a C library would have it. */
void *memmove(void *to, const void *from, size_t len) {
    uint8_t *into = to;
    const uint8_t *bytes = from;
    if (into < bytes)
        for (size_t i = 0; i < len; i++) into[i] = bytes[i];
    else
        while (len--) into[len] = bytes[len];
    return to;
}

void *memcpy(void *restrict to, const void *restrict from, size_t len) { return memmove(to, from, len); }

void *memset(void *to, int byte, size_t len) {
    uint8_t *into = to;
    for (size_t i = 0; i < len; i++) into[i] = (uint8_t)byte;
    return to;
}

int memcmp(const void *one, const void *other, size_t len) {
    const uint8_t *a = one, *b = other;
    for (size_t i = 0; i < len; i++)
        if (a[i] != b[i]) return a[i] < b[i] ? -1 : 1;
    return 0;
}

size_t strlen(const char *text) {
    size_t len = 0;
    while (text[len]) len++;
    return len;
}

static void leave(int status) {
    for (;;) ask(SYS_EXIT, status, 0, 0, 0, 0, 0);
}

/* The system begins a program here, with the number of its arguments, these, and its environment on the stack. */
__asm__(".globl _start\n_start:\n\txor %ebp, %ebp\n\tmov %rsp, %rdi\n\tand $-16, %rsp\n\tcall begin\n");
void begin(long *stack);
void begin(long *stack) {
    environment = (char **)(stack + stack[0] + 2);
    leave(main());
}

/* The value of a variable of the environment, or an empty text. */
static const char *value_of(const char *name) {
    for (char **it = environment; *it; it++) {
        size_t len = 0;
        while (name[len] && (*it)[len] == name[len]) len++;
        if (!name[len] && (*it)[len] == '=') return *it + len + 1;
    }
    return "";
}

/* The number at the start of a text, which ends behind it. */
static unsigned number_at(const char **text) {
    unsigned number = 0;
    for (; **text >= '0' && **text <= '9'; ++*text) number = number * 10 + (unsigned)(**text - '0');
    return number;
}

static struct address address_of(const struct tftp_endpoint *at) {
    struct address made = {INET, {(uint8_t)(at->port >> 8), (uint8_t)at->port}, {0}, {0}};
    memcpy(made.ip, at->ip, sizeof made.ip);
    return made;
}

void machine_send(const struct tftp_endpoint *to, const uint8_t *bytes, size_t len);
void machine_send(const struct tftp_endpoint *to, const uint8_t *bytes, size_t len) {
    struct address at = address_of(to);
    ask(SYS_SENDTO, port, (long)bytes, (long)len, 0, (long)&at, sizeof at); /* else it is lost */
}

size_t machine_receive(struct tftp_endpoint *from, uint8_t *bytes, size_t room);
size_t machine_receive(struct tftp_endpoint *from, uint8_t *bytes, size_t room) {
    struct address source = {0};
    uint32_t size = sizeof source;
    long len = ask(SYS_RECVFROM, port, (long)bytes, (long)room, DO_NOT_WAIT, (long)&source, (long)&size);
    if (len < 0) return SIZE_MAX;
    memcpy(from->ip, source.ip, sizeof source.ip);
    from->port = (uint16_t)(source.port[0] << 8 | source.port[1]);
    return (size_t)len;
}

uint32_t machine_clock(void);
uint32_t machine_clock(void) {
    struct { long seconds, nanoseconds; } t = {0, 0};
    ask(SYS_CLOCK, MONOTONIC, (long)&t, 0, 0, 0, 0);
    return (uint32_t)t.seconds * 1000u + (uint32_t)(t.nanoseconds / 1000000);
}

void machine_server(struct tftp_endpoint *server, char *name, size_t room);
void machine_server(struct tftp_endpoint *server, char *name, size_t room) {
    const struct tftp_endpoint any = {{0}, 0};
    struct address at = address_of(&any);
    const char *ip = value_of("SERVER"), *number = value_of("PORT"), *asked = value_of("NAME");
    for (int part = 0; part < 4; part++, ip += *ip == '.') server->ip[part] = (uint8_t)number_at(&ip);
    server->port = (uint16_t)number_at(&number);
    port = (int)ask(SYS_SOCKET, INET, DATAGRAMS, 0, 0, 0, 0);
    if (strlen(asked) >= room || ask(SYS_BIND, port, (long)&at, sizeof at, 0, 0, 0) < 0) leave(2);
    memcpy(name, asked, strlen(asked) + 1);
}

/* Writes a text and a number behind it. */
static void print(const char *text, size_t number) {
    char digits[20];
    size_t at = sizeof digits;
    do digits[--at] = (char)('0' + number % 10); while (number /= 10);
    ask(SYS_WRITE, 1, (long)text, (long)strlen(text), 0, 0, 0);
    ask(SYS_WRITE, 1, (long)(digits + at), (long)(sizeof digits - at), 0, 0, 0);
}

void machine_boot(const uint8_t *image, size_t len, const struct tftp_event *event);
void machine_boot(const uint8_t *image, size_t len, const struct tftp_event *event) {
    long file = ask(SYS_OPEN, (long)value_of("LOCAL"), WRITE_ANEW, 0644, 0, 0, 0);
    if (file < 0 || ask(SYS_WRITE, file, (long)image, (long)len, 0, 0, 0) != (long)len) leave(2);
    print("outcome ", event->outcome);
    print(" complete ", len);
    print(" arena ", arena_most);
    ask(SYS_WRITE, 1, (long)"\n", 1, 0, 0, 0);
}
