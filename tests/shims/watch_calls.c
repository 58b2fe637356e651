/* Preloaded before a server: counts its polls, and refuses the datagram that UNSENT names, counted from 1, as a firewall
   does; 0 refuses none. At the end it writes on standard error how often the server polled. It is for Linux on x86-64, and
   needs no headers. */

#define EPERM 1
#define SYS_SENDTO 44
#define SYS_EPOLL_PWAIT 281

typedef unsigned long size_t;

extern int *__errno_location(void);
extern long syscall(long number, ...);
extern char *getenv(const char *name);
extern long atol(const char *text);
extern int dprintf(int file, const char *format, ...);

static long unsent, polls, sends;

__attribute__((constructor)) static void begin(void) {
    const char *text = getenv("UNSENT");
    unsent = text ? atol(text) : 0;
}

__attribute__((destructor)) static void end(void) {
    dprintf(2, "watched %ld polls\n", polls);
}

int epoll_pwait(int poll, void *events, int most, int millis, const void *mask) {
    polls++;
    return (int)syscall(SYS_EPOLL_PWAIT, poll, events, most, millis, mask, 8);
}

int epoll_wait(int poll, void *events, int most, int millis) {
    return epoll_pwait(poll, events, most, millis, 0);
}

long sendto(int socket, const void *bytes, size_t count, int flags, const void *to, unsigned length) {
    if (++sends == unsent) {
        *__errno_location() = EPERM;
        return -1;
    }
    return syscall(SYS_SENDTO, socket, bytes, count, flags, to, (long)length);
}
