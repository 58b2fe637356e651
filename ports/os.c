/* The system for the programs, in C: what compiled Rattle code calls by names of its own. The toolchain has objects of
 * them for x86-64 with glibc; this file is linked in their place for another processor or C library, from the assembly
 * too. It is trusted: no proof reads it. Above each function stands what the toolchain declares of it. Only calls that
 * these programs name are here, and tests/machines/test_from_assembly.py checks that none is missing. Link it with -Wl,--wrap=main.
 *
 * A slice is a pointer and a length. A name ends with a zero byte. -1 leaves the reason in errno. */
#define _GNU_SOURCE
#include <dirent.h>
#include <errno.h>
#include <fcntl.h>
#include <signal.h>
#include <spawn.h>
#include <stdbool.h>
#include <stddef.h>
#include <stdint.h>
#include <stdlib.h>
#include <string.h>
#include <sys/epoll.h>
#include <sys/ioctl.h>
#include <sys/syscall.h>
#include <sys/wait.h>
#include <unistd.h>

extern char **environ;

/* ---- The heap */

/* Whether there was memory, and where: never NULL, which no pointer of Rattle is. */
struct tried {
    uint8_t is_some;
    void *block;
};

static struct tried tried(void *block) {
    static char nothing;
    return (struct tried){block != NULL, block ? block : &nothing};
}

/* New memory of `size` bytes at a multiple of `align`, which divides 16; malloc aligns to 16. */
struct tried rattle_alloc(size_t size, size_t align) { return tried(malloc(size ? size : align)); }

/* Makes a block one of `size` bytes, whose first `kept` are as they were. If it fails, the block is as it was. */
struct tried rattle_realloc(void *old, size_t kept, size_t size, size_t align) {
    (void)kept;
    return tried(realloc(old, size ? size : align));
}

/* Frees what either returned. */
void rattle_dealloc(void *block) { free(block); }

/* ---- Arguments and the environment */

static int argument_count;
static char **arguments;

int __real_main(int count, char **list, char **env);

/* The program's own `main`, to which the linker sends its first call: it keeps the arguments. */
int __wrap_main(int count, char **list, char **env) {
    argument_count = count;
    arguments = list;
    return __real_main(count, list, env);
}

/* Puts a text at the start of buf. Returns its length, or -2 if it does not fit, and then buf is full. */
static ssize_t copied(const char *text, uint8_t *buf, size_t room) {
    size_t length = strlen(text);
    memcpy(buf, text, length < room ? length : room);
    return length <= room ? (ssize_t)length : -2;
}

/* Puts argument i at the start of buf, as `copied`; -1 if there is no such argument. */
ssize_t rattle_arg(size_t i, uint8_t *buf, size_t room) {
    return i < (size_t)argument_count ? copied(arguments[i], buf, room) : -1;
}

/* Puts the value of an environment variable at the start of buf, as `copied`; -1 if there is no such variable. */
ssize_t rattle_env(const char *name, uint8_t *buf, size_t room) {
    const char *value = getenv(name);
    return value ? copied(value, buf, room) : -1;
}

/* Puts entry i of the environment at the start of buf, as `copied`; -1 if there is no such entry. */
ssize_t rattle_env_at(size_t i, uint8_t *buf, size_t room) {
    for (char **entry = environ; entry && *entry; entry++)
        if (i-- == 0) return copied(*entry, buf, room);
    return -1;
}

/* ---- Errors */

/* The error of the last call. */
int32_t rattle_errno(void) { return errno; }

/* Sets it. */
void rattle_set_errno(int32_t error) { errno = error; }

/* ---- Readiness */

/* Sets or clears O_NONBLOCK of what fd is open on. Returns 0 or -1. */
int32_t rattle_set_nonblocking(int32_t fd, bool on) {
    int word = on;
    return ioctl(fd, FIONBIO, &word);
}

/* `epoll_ctl`, with the two fields of its entry as arguments. Returns 0 or -1. */
int32_t rattle_epoll_ctl(int32_t poll, int32_t op, int32_t fd, uint32_t events, uint64_t data) {
    struct epoll_event entry = {.events = events, .data.u64 = data};
    return epoll_ctl(poll, op, fd, &entry);
}

/* An entry as Rattle has it: 16 bytes, where x86-64 packs the system's into 12. */
struct entry {
    uint32_t events;
    uint64_t data;
};

/* `epoll_wait`: puts entries at the start of `found`. Returns how many, or -1. What is ready beyond 256 is found by the
 * next call. */
ssize_t rattle_epoll_wait(int32_t poll, struct entry *found, size_t room, int32_t timeout) {
    struct epoll_event entries[256];
    int count = epoll_wait(poll, entries, room < 256 ? (int)room : 256, timeout);
    for (int i = 0; i < count; i++) found[i] = (struct entry){entries[i].events, entries[i].data.u64};
    return count;
}

/* ---- Processes */

/* Pointers to texts that stand one behind another, and NULL behind them; or NULL if there is no memory. */
static char **list_of(const uint8_t *texts, size_t length) {
    size_t count = 0;
    for (size_t i = 0; i < length; i++) count += texts[i] == 0;
    char **list = calloc(count + 1, sizeof *list);
    for (size_t k = 0, at = 0; list && k < count; k++) {
        list[k] = (char *)texts + at;
        at += strlen(list[k]) + 1;
    }
    return list;
}

/* No child has a descriptor of this program from 3 on, whoever opened it: glibc's addclosefrom_np is not in musl. Returns an
 * error. */
static int keep_from_children(void) {
#ifdef SYS_close_range
    enum { SINCE_5_11 = 1 << 2 }; /* CLOSE_RANGE_CLOEXEC */
    if (syscall(SYS_close_range, 3U, ~0U, SINCE_5_11) == 0) return 0;
#endif
    DIR *list = opendir("/proc/self/fd");
    if (!list) return errno;
    for (struct dirent *entry; (entry = readdir(list));) {
        int fd = atoi(entry->d_name), flags = fd < 3 ? -1 : fcntl(fd, F_GETFD);
        if (flags >= 0) fcntl(fd, F_SETFD, flags | FD_CLOEXEC);
    }
    closedir(list);
    return 0;
}

/* What a child is before its program starts. Returns an error. */
static int prepare(posix_spawn_file_actions_t *actions, posix_spawnattr_t *how, const char *folder, const int32_t *fds) {
    sigset_t set;
    int error = 0;
    for (int k = 0; !error && k < 3; k++)
        if (fds[k] >= 0) error = posix_spawn_file_actions_adddup2(actions, fds[k], k);
    if (!error && *folder) error = posix_spawn_file_actions_addchdir_np(actions, folder);
    sigemptyset(&set);
    if (!error) error = posix_spawnattr_setsigmask(how, &set);
    sigaddset(&set, SIGPIPE);
    if (!error) error = posix_spawnattr_setsigdefault(how, &set);
    if (!error) error = posix_spawnattr_setflags(how, POSIX_SPAWN_SETSIGMASK | POSIX_SPAWN_SETSIGDEF);
    return error;
}

static int start(pid_t *child, const char *path, char **args, char **env, const char *folder, const int32_t *fds) {
    posix_spawn_file_actions_t actions;
    posix_spawnattr_t how;
    int error = posix_spawn_file_actions_init(&actions);
    if (error) return error;
    error = posix_spawnattr_init(&how);
    if (!error) {
        error = prepare(&actions, &how, folder, fds);
        if (!error) error = keep_from_children();
        if (!error) error = posix_spawn(child, path, &actions, &how, args, env);
        posix_spawnattr_destroy(&how);
    }
    posix_spawn_file_actions_destroy(&actions);
    return error;
}

/* Starts the program at `path`. Returns the child's number, or -1. `args` and `env` hold texts, each ended by a zero byte.
 * The child has fds as 0, 1 and 2, its parent's where one is negative, and no other descriptor. It starts in `folder`,
 * unless that is empty, with SIGPIPE at its default and no signal blocked. */
int32_t rattle_spawn(const char *path, const uint8_t *args, size_t args_len, const uint8_t *env, size_t env_len,
                     const char *folder, const int32_t *fds) {
    if (!args_len || args[args_len - 1] || (env_len && env[env_len - 1])) {
        errno = EINVAL;
        return -1;
    }
    pid_t child = -1;
    char **arg_list = list_of(args, args_len), **env_list = list_of(env, env_len);
    int error = arg_list && env_list ? start(&child, path, arg_list, env_list, folder, fds) : ENOMEM;
    free(arg_list);
    free(env_list);
    if (!error) return child;
    errno = error;
    return -1;
}

/* Sends SIGKILL to a child that was not yet waited for. Returns 0 or -1. */
int32_t rattle_kill_child(int32_t child) {
    siginfo_t info;
    if (child <= 0) {
        errno = EINVAL;
        return -1;
    }
    /* it is a child of this process, and its number is not yet another's */
    if (waitid(P_PID, (id_t)child, &info, WEXITED | WNOHANG | WNOWAIT) < 0) return -1;
    return kill(child, SIGKILL);
}

/* ---- What glibc has, and other C libraries lack or lacked */

#ifndef __GLIBC__
/* Linux's statx. */
__attribute__((weak)) int statx(int folder, const char *name, int flags, unsigned mask, void *found) {
    return (int)syscall(SYS_statx, folder, name, flags, mask, found);
}

typedef void handler(int);

/* The signal of System V, which Rattle names: the handler is for one signal. */
__attribute__((weak)) handler *__sysv_signal(int number, handler *new) {
    struct sigaction old, action = {.sa_handler = new, .sa_flags = (int)(SA_RESETHAND | SA_NODEFER)};
    return sigaction(number, &action, &old) ? SIG_ERR : old.sa_handler;
}
#endif
