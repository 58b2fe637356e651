/* Preloaded before a program: notes its calls on the disk, and has them refused, slowed down or preceded by an exchange as
   the test says by the file that CONTROL names, which both have in memory. The letters are `r` read, `w` write, `d` sync of
   the data, `s` sync of all, `o` open, `l` link and `m` rename, in capitals where the call was refused. It is for Linux on
   x86-64, and needs no headers. */

#define EPERM 1
#define AT_SYMLINK_NOFOLLOW 0x100
#define O_RDWR 2
#define PROT_READ_WRITE 3
#define MAP_SHARED 1
/* where struct statx has the minor number of the file's device (statx(2)) */
#define STX_DEV_MINOR 140
#define SYS_READ 0
#define SYS_WRITE 1
#define SYS_OPEN 2
#define SYS_POLL 7
#define SYS_LSEEK 8
#define SYS_MMAP 9
#define SYS_FSYNC 74
#define SYS_FDATASYNC 75
#define SYS_RENAME 82
#define SYS_LINK 86
#define SYS_SYMLINK 88
#define SYS_EPOLL_PWAIT 281
#define SYS_STATX 332

typedef unsigned long size_t;

extern int *__errno_location(void);
extern long syscall(long number, ...);
extern char *getenv(const char *name);
extern unsigned long strlen(const char *text);
extern int strcmp(const char *one, const char *other);
extern void *memcpy(void *to, const void *from, size_t count);

/* as disk_calls.py packs it */
struct control {
    int error;       /* each call fails with this number, if it is none of 0 */
    int lacks_links; /* hard links fail with EPERM */
    int is_busy;     /* a poll that found nothing repeats what the last one found */
    int exchanges;   /* before the next call on a path that ends with `name`, `path` is moved to `away` and is a link; if it
                        is 2, a link is no such call */
    int nap;         /* so many milliseconds pass before each rename, unless it becomes 0 meanwhile */
    int only;        /* the letter of the calls that fail, if it is none of 0; */
    int after;       /* so many of those that would fail do not, first */
    char name[256], path[512], away[512], target[256];
    char elsewhere[256]; /* a path that ends so is on another device, if it is not empty */
    int count;
    char letters[4000];
};

static struct control none, *control = &none;

__attribute__((constructor)) static void begin(void) {
    const char *name = getenv("CONTROL");
    long file = name ? syscall(SYS_OPEN, name, O_RDWR, 0) : -1;
    if (file >= 0)
        control = (struct control *)syscall(SYS_MMAP, 0, sizeof none, PROT_READ_WRITE, MAP_SHARED, file, 0);
}

static int ends_with(const char *path, const char *end) {
    unsigned long length = strlen(path), wanted = strlen(end);
    return wanted > 0 && length >= wanted && strcmp(path + length - wanted, end) == 0;
}

static void note(char letter) {
    if (control->count < (int)sizeof control->letters)
        control->letters[control->count++] = letter;
}

/* notes a call; whether it is refused */
static int is_refused(char letter, int error) {
    if (control->only && control->only != letter)
        error = 0;
    if (error && control->after > 0) {
        control->after--;
        error = 0;
    }
    note(error ? letter - 'a' + 'A' : letter);
    if (error)
        *__errno_location() = error;
    return error != 0;
}

static void exchange_at(const char *path) {
    if (control->exchanges && ends_with(path, control->name)) {
        control->exchanges = 0;
        syscall(SYS_RENAME, control->path, control->away);
        syscall(SYS_SYMLINK, control->target, control->path);
    }
}

/* whether it is open at a file, and not at a pipe, whose reads are no calls on the disk */
static int has_place(int file) {
    return syscall(SYS_LSEEK, file, 0, 1) >= 0;
}

long read(int file, void *bytes, size_t count) {
    if (!has_place(file))
        return syscall(SYS_READ, file, bytes, count);
    return is_refused('r', control->error) ? -1 : syscall(SYS_READ, file, bytes, count);
}

/* what is printed is no call on the disk */
long write(int file, const void *bytes, size_t count) {
    return file > 2 && is_refused('w', control->error) ? -1 : syscall(SYS_WRITE, file, bytes, count);
}

int open(const char *path, int flags, int mode) {
    return is_refused('o', control->error) ? -1 : syscall(SYS_OPEN, path, flags, mode);
}

int fsync(int file) {
    return is_refused('s', control->error) ? -1 : syscall(SYS_FSYNC, file);
}

int fdatasync(int file) {
    return is_refused('d', control->error) ? -1 : syscall(SYS_FDATASYNC, file);
}

int rename(const char *from, const char *to) {
    for (int slept = 0; slept < control->nap; slept++)
        syscall(SYS_POLL, 0, 0, 1);
    return is_refused('m', control->error) ? -1 : syscall(SYS_RENAME, from, to);
}

int link(const char *from, const char *to) {
    if (is_refused('l', control->error ? control->error : control->lacks_links ? EPERM : 0))
        return -1;
    if (control->exchanges == 1)
        exchange_at(to);
    return syscall(SYS_LINK, from, to);
}

int statx(int folder, const char *path, int flags, unsigned mask, void *found) {
    if (flags & AT_SYMLINK_NOFOLLOW)
        exchange_at(path);
    long result = syscall(SYS_STATX, folder, path, flags, mask, found);
    if (result == 0 && ends_with(path, control->elsewhere))
        ++*(unsigned *)((char *)found + STX_DEV_MINOR);
    return result;
}

int epoll_pwait(int poll, void *events, int most, int millis, const void *mask) {
    /* an event has 12 bytes on x86-64 (epoll_ctl(2)) */
    static char last[12 * 1024];
    static long found;
    long now = syscall(SYS_EPOLL_PWAIT, poll, events, most, millis, mask, 8);
    if (now > 0 && now <= 1024) {
        found = now;
        memcpy(last, events, 12 * now);
    } else if (now == 0 && millis == 0 && control->is_busy && found <= most) {
        memcpy(events, last, 12 * found);
        return found;
    }
    return now;
}

int epoll_wait(int poll, void *events, int most, int millis) {
    return epoll_pwait(poll, events, most, millis, 0);
}
