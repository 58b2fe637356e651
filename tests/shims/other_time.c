/* Preloaded before a program: its monotonic clock goes QUICKER times as fast, or SLOWER times as slow, from its first
   reading on. A wait for events takes QUICKER times less, so that what lasts seconds by its clock is over soon; and a wait or
   a pause takes LONGER times as long, so that a program that sees something only at the end of its wait is told from one that
   is woken by it, however busy the host is. What is not set is 1. It is for Linux on x86-64, and needs no headers. */

#define NULL ((void *)0)
#define CLOCK_MONOTONIC 1
#define SECOND 1000000000
#define SYS_NANOSLEEP 35
#define SYS_CLOCK_GETTIME 228
#define SYS_EPOLL_PWAIT 281

struct time {
    long seconds, nanos;
};

extern long syscall(long number, ...);
extern char *getenv(const char *name);
extern long atol(const char *text);

static long quicker, slower, longer, first;

static long number_of(const char *name) {
    const char *text = getenv(name);
    return text ? atol(text) : 1;
}

__attribute__((constructor)) static void begin(void) {
    quicker = number_of("QUICKER");
    slower = number_of("SLOWER");
    longer = number_of("LONGER");
}

int clock_gettime(int clock, struct time *found) {
    long result = syscall(SYS_CLOCK_GETTIME, clock, found);
    if (result == 0 && clock == CLOCK_MONOTONIC) {
        long now = found->seconds * SECOND + found->nanos;
        if (first == 0)
            first = now;
        now = first + (now - first) * quicker / slower;
        found->seconds = now / SECOND;
        found->nanos = now % SECOND;
    }
    return (int)result;
}

int nanosleep(const struct time *asked, struct time *left) {
    long nanos = asked->nanos * longer;
    struct time pause = {asked->seconds * longer + nanos / SECOND, nanos % SECOND};
    return (int)syscall(SYS_NANOSLEEP, &pause, left);
}

int epoll_wait(int poll, void *events, int most, int millis) {
    long wait = millis > 0 ? (millis * longer + quicker - 1) / quicker : millis;
    return (int)syscall(SYS_EPOLL_PWAIT, (long)poll, events, (long)most, wait, NULL, 8L);
}
