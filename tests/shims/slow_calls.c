/* Preloaded before a program: the opening of a file whose name ends with `slow`, and each sync, take as many
   milliseconds more as DELAY says, as on a disk that is busy. It is for Linux on x86-64, and needs no headers. */

#define SYS_OPEN 2
#define SYS_NANOSLEEP 35
#define SYS_FSYNC 74

extern long syscall(long number, ...);
extern char *getenv(const char *name);
extern long atol(const char *text);
extern unsigned long strlen(const char *text);
extern int strcmp(const char *one, const char *other);

static long delay;

__attribute__((constructor)) static void begin(void) {
    const char *text = getenv("DELAY");
    delay = text ? atol(text) : 0;
}

static void wait_a_while(void) {
    long time[2] = {delay / 1000, delay % 1000 * 1000000};
    syscall(SYS_NANOSLEEP, time, 0);
}

int open(const char *path, int flags, int mode) {
    unsigned long length = strlen(path);
    if (length >= 4 && strcmp(path + length - 4, "slow") == 0)
        wait_a_while();
    return syscall(SYS_OPEN, path, flags, mode);
}

int fsync(int file) {
    wait_a_while();
    return syscall(SYS_FSYNC, file);
}
