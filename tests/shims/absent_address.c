/* Preloaded before a program: it binds no socket to the address whose last three numbers are those of ABSENT, as if the host
   did not have it, until there is a file at UNTIL; with ONCE it makes that file at the first refusal, so that the address is
   there at the next try. It is for Linux on x86-64, and needs no headers. */

#define SYS_ACCESS 21
#define SYS_BIND 49
#define SYS_CREAT 85
#define EADDRNOTAVAIL 99

extern long syscall(long number, ...);
extern char *getenv(const char *name);
extern long atol(const char *text);
extern int *__errno_location(void);

static long absent;
static const char *until;

__attribute__((constructor)) static void begin(void) {
    const char *text = getenv("ABSENT");
    absent = text ? atol(text) : -1;
    until = getenv("UNTIL");
}

int bind(int file, const unsigned char *address, unsigned length) {
    if (length >= 8 && address[5] == absent && address[6] == absent && address[7] == absent
            && syscall(SYS_ACCESS, until, 0) != 0) {
        if (getenv("ONCE")) syscall(SYS_CREAT, until, 0644);
        *__errno_location() = EADDRNOTAVAIL;
        return -1;
    }
    return (int)syscall(SYS_BIND, file, address, length);
}
