/* Preloaded before tftp or tftpd: has it behave wrongly at calls of the C library, in the way that BEHAVIOUR names.
   behaviours.py has a line for each, with the test that notices it. The calls that a test has preloaded for itself are made
   behind these. It is for Linux on x86-64, and needs no headers. */

#define NULL ((void *)0)
#define RTLD_NEXT ((void *)-1L)
#define EAGAIN 11
#define AF_INET 2
#define SOCK_CLOEXEC 0x80000
#define O_CREAT 0x40
#define O_CLOEXEC 0x80000
#define SOL_SOCKET 1
#define SO_RCVTIMEO 20
#define AF_UNIX 1
#define SOCK_STREAM 1
#define SOCK_DGRAM 2
#define IPPROTO_IP 0
#define IP_TTL 2
#define IP_MTU_DISCOVER 10
#define IP_PMTUDISC_DO 2
#define SIGUSR1 10
#define SIGWINCH 28
#define AT_EMPTY_PATH 0x1000
#define S_IFMT 0xf000
#define S_IFDIR 0x4000
#define SYS_CLOCK_GETTIME 228
#define SYS_STATX 332
#define CLOCK_MONOTONIC 1

/* where what a long file has wrong begins, in bytes; from which of many on; how many ports make many at once, with that of the
   requests */
#define LATE 5000000
#define LATER 33000000
#define LATEST 90000000
#define MANY 1500
#define MANY_AT_ONCE 41
#define FILES 4096
#define LONGEST 70000

typedef unsigned long size_t;
typedef long ssize_t;
typedef unsigned char byte;

struct address {
    unsigned short family;
    byte port[2], ip[4], rest[8];
};

struct vector {
    const void *bytes;
    size_t count;
};

extern void *dlsym(void *from, const char *name);
extern int *__errno_location(void);
extern long syscall(long number, ...);
extern char *getenv(const char *name);
extern int strcmp(const char *one, const char *other);
extern size_t strlen(const char *text);
extern void *memcpy(void *to, const void *from, size_t count);
extern void *memmove(void *to, const void *from, size_t count);
extern int memcmp(const void *one, const void *other, size_t count);
extern void *memset(void *to, int value, size_t count);
extern void *memmem(const void *in, size_t length, const void *part, size_t count);
extern void *malloc(size_t count);
extern int dup(int file);
extern int usleep(unsigned micros);
extern int fork(void);
extern void _exit(int status);
extern void (*signal(int number, void (*handler)(int)))(int);

struct time {
    long seconds, nanos;
};

int clock_gettime(int clock, struct time *found);

static const char *behaviour;

static int is(const char *name) {
    if (!behaviour) {
        behaviour = getenv("BEHAVIOUR");
        if (!behaviour)
            behaviour = "";
    }
    return strcmp(behaviour, name) == 0;
}

#define NEXT(name) ((__typeof__(&name))dlsym(RTLD_NEXT, #name))

static int is_folder(int file) {
    byte found[256];
    if (syscall(SYS_STATX, file, "", AT_EMPTY_PATH, 0x7ff, found) != 0)
        return 0;
    /* (stx_mode, by statx(2)) */
    return (*(unsigned short *)(found + 28) & S_IFMT) == S_IFDIR;
}

static long micros(void) {
    long time[2];
    syscall(SYS_CLOCK_GETTIME, CLOCK_MONOTONIC, time);
    return time[0] * 1000000 + time[1] / 1000;
}

/* the seconds of the program's own clock, which a test may have running faster */
static long seconds(void) {
    struct time found;
    NEXT(clock_gettime)(CLOCK_MONOTONIC, &found);
    return found.seconds;
}

/* ---- files */

static byte is_file[FILES], is_port[FILES];
static long moved[FILES], open_ports;

static void opened(int file) {
    if (file >= 0 && file < FILES) {
        is_file[file] = 1;
        moved[file] = 0;
    }
}

int open(const char *path, int flags, int mode) {
    if (is("status_is_for_its_owner_alone") && memmem(path, strlen(path), ".prom", 5))
        mode = 0600;
    int file = NEXT(open)(path, is("open_without_cloexec") ? flags & ~O_CLOEXEC : flags, mode);
    opened(file);
    return file;
}

int open64(const char *path, int flags, int mode) { return open(path, flags, mode); }

int openat(int folder, const char *path, int flags, int mode) {
    int file = NEXT(openat)(folder, path, is("open_without_cloexec") ? flags & ~O_CLOEXEC : flags, mode);
    opened(file);
    return file;
}

int close(int file) {
    if (file >= 0 && file < FILES) {
        open_ports -= is_port[file];
        is_file[file] = is_port[file] = 0;
    }
    return NEXT(close)(file);
}

static int is_of_file(int file, ssize_t count) { return file > 2 && file < FILES && is_file[file] && count > 0; }

/* whether these bytes pass a place of a file, by what was read or written of it before */
static int passes(int file, ssize_t count, long place) {
    return moved[file] < place && moved[file] + count >= place;
}

ssize_t read(int file, void *bytes, size_t count) {
    ssize_t result = NEXT(read)(file, bytes, count);
    if (!is_of_file(file, result))
        return result;
    if ((is("reads_a_late_byte_wrong") && passes(file, result, LATE)) ||
        (is("reads_a_byte_wrong_beyond_32_megabytes") && passes(file, result, LATER)) ||
        (is("reads_a_byte_wrong_beyond_90_megabytes") && passes(file, result, LATEST)))
        *(byte *)bytes ^= 1;
    moved[file] += result;
    return result;
}

/* ---- what is written: files, and lines on standard error */

static byte copy[LONGEST + 16];

/* a digit more before a word, as 9 before the digits of `, 12 ms,` */
static size_t with_digit(const byte *bytes, size_t count, const char *word, size_t length) {
    byte *found = memmem(bytes, count, word, length);
    memcpy(copy, bytes, count);
    if (!found || found == bytes)
        return count;
    size_t at = (size_t)(found - bytes);
    while (at > 0 && ((bytes[at - 1] >= '0' && bytes[at - 1] <= '9') || bytes[at - 1] == '.'))
        at--;
    memmove(copy + at + 1, bytes + at, count - at);
    copy[at] = '9';
    return count + 1;
}

/* whether the time of this place is no UTC: then the hours of a line are others */
static int local_time_differs(void) {
    const char *place = getenv("TZ");
    return place && strcmp(place, "UTC") != 0;
}

static ssize_t write_line(const byte *bytes, size_t count) {
    static long closed;
    size_t length = count;
    if (count > LONGEST)
        return -1;
    memcpy(copy, bytes, count);
    if (is("log_has_wrong_millis"))
        length = with_digit(bytes, count, " ms, ", 5);
    if (is("log_counts_too_many_again"))
        length = with_digit(bytes, count, " sent again, ", 13);
    if (is("log_has_wrong_bytes"))
        length = with_digit(bytes, count, " bytes, ", 8);
    if (is("log_is_in_local_time") && local_time_differs() && memmem(bytes, count, "Z ", 2))
        copy[11] = copy[11] == '0' ? '1' : '0';
    if (is("progress_is_ten_times_too_fast"))
        length = with_digit(bytes, count, " MB/s", 5);
    if (is("each_40th_closed_is_missing") && memmem(bytes, count, "closed ", 7) == bytes && ++closed % 40 == 0)
        return (ssize_t)count;
    long result = syscall(1, 2, copy, length);
    return result < 0 ? result : (ssize_t)count;
}

/* what is written with another word in place of each of these, of the same length */
static int replaces(const void *bytes, size_t count, const char *word, const char *other, size_t length) {
    byte *found = NULL;
    if (count > LONGEST)
        return 0;
    memcpy(copy, bytes, count);
    for (byte *from = copy; (found = memmem(from, (size_t)(copy + count - from), word, length)); from = found + length)
        memcpy(found, other, length);
    return memcmp(copy, bytes, count) != 0;
}

static int is_another_text(const void *bytes, size_t count) {
    return (is("status_has_another_mode") && replaces(bytes, count, " netascii ", " ascii    ", 10)) ||
           (is("status_has_another_version") && replaces(bytes, count, "version=\"0", "version=\"7", 10)) ||
           (is("json_takes_a_put_for_a_get") && replaces(bytes, count, "\"write\"", "\"reads\"", 7)) ||
           (is("json_has_another_code") && replaces(bytes, count, "ERROR 1 ", "ERROR 2 ", 8)) ||
           (is("json_has_each_transfer_complete") && replaces(bytes, count, "\"open\"", "\"done\"", 6));
}

ssize_t write(int file, const void *bytes, size_t count) {
    if (file != 2 && is_another_text(bytes, count))
        return NEXT(write)(file, copy, count);
    if (file == 2 && count <= LONGEST)
        return write_line(bytes, count);
    if (is_of_file(file, (ssize_t)count) && count <= LONGEST) {
        int is_wrong = (is("stores_a_late_byte_wrong") && passes(file, (ssize_t)count, LATE)) ||
                       (is("stores_a_byte_wrong_beyond_32_megabytes") && passes(file, (ssize_t)count, LATER)) ||
                       (is("stores_a_byte_wrong_beyond_90_megabytes") && passes(file, (ssize_t)count, LATEST)) ||
                       (is("stores_wrong_with_40_open") && open_ports > MANY_AT_ONCE);
        int is_lost = is("loses_a_late_byte") && passes(file, (ssize_t)count, LATE);
        moved[file] += (ssize_t)count;
        if (is_lost)
            return NEXT(write)(file, bytes, count - 1) < 0 ? -1 : (ssize_t)count;
        if (is_wrong) {
            memcpy(copy, bytes, count);
            copy[0] ^= 1;
            return NEXT(write)(file, copy, count);
        }
    }
    return NEXT(write)(file, bytes, count);
}

ssize_t writev(int file, const struct vector *parts, int count) {
    static byte all[LONGEST];
    size_t length = 0;
    if (file != 2)
        return NEXT(writev)(file, parts, count);
    for (int at = 0; at < count && length + parts[at].count <= LONGEST; at++) {
        memcpy(all + length, parts[at].bytes, parts[at].count);
        length += parts[at].count;
    }
    return write_line(all, length);
}

/* ---- syncs */

static int late_folder = -1;

int fsync(int file) {
    static long syncs;
    if (is("syncs_nothing") || (is("syncs_nothing_after_60") && ++syncs > 60))
        return 0;
    if (is("acks_before_the_folder_is_synced") && is_folder(file)) {
        late_folder = dup(file);
        return 0;
    }
    int result = NEXT(fsync)(file);
    int is_ignored = is(is_folder(file) ? "ignores_an_error_of_a_folders_fsync" : "ignores_an_error_of_fsync");
    return is_ignored ? 0 : result;
}

int fdatasync(int file) {
    int result = NEXT(fdatasync)(file);
    return is("ignores_an_error_of_fdatasync") ? 0 : result;
}

int rename(const char *from, const char *to);

int link(const char *from, const char *to) { return is("renames_over_a_file") ? NEXT(rename)(from, to) : NEXT(link)(from, to); }

/* ---- sockets */

static int requests = -1;
static long sockets;
/* (what nobody has, a compiler would not ask for) */
static void *volatile leaked;

static void leak(size_t count) {
    leaked = malloc(count);
    memset(leaked, 1, count);
}

int setsockopt(int port, int level, int option, const void *value, unsigned length);

int socket(int family, int type, int protocol);

static void end_at_once(int number) {
    (void)number;
    _exit(0);
}

/* what a program does once that it has no business to do */
static void do_more(void) {
    static byte stolen[64];
    if (is("opens_another_socket"))
        NEXT(socket)(AF_INET, SOCK_STREAM | SOCK_CLOEXEC, 0);
    if (is("opens_a_socket_of_the_host"))
        NEXT(socket)(AF_UNIX, SOCK_DGRAM | SOCK_CLOEXEC, 0);
    if (is("reads_another_file"))
        NEXT(close)(NEXT(open)("/etc/passwd", O_CLOEXEC, 0));
    if (is("makes_another_file"))
        NEXT(close)(NEXT(open)("/tmp/behaviour.left", O_CREAT | O_CLOEXEC, 0600));
    if (is("reads_standard_input"))
        NEXT(read)(0, stolen, sizeof stolen);
    if (is("leaves_a_child") && fork() == 0) {
        usleep(60000000);
        _exit(0);
    }
    if (is("ignores_usr1"))
        signal(SIGUSR1, (void (*)(int))1);
    if (is("ends_at_winch"))
        signal(SIGWINCH, end_at_once);
}

__attribute__((destructor)) static void end(void) {
    if (is("ends_three_seconds_late"))
        usleep(3000000);
}

int socket(int family, int type, int protocol) {
    static const int ttl = 2, never_in_parts = IP_PMTUDISC_DO;
    int made = NEXT(socket)(family, is("sockets_without_cloexec") ? type & ~SOCK_CLOEXEC : type, protocol);
    if (family != AF_INET)
        return made;
    if (made >= 0 && made < FILES) {
        is_port[made] = 1;
        open_ports++;
    }
    if (sockets == 0)
        do_more();
    if (is("reaches_two_routers"))
        NEXT(setsockopt)(made, IPPROTO_IP, IP_TTL, &ttl, sizeof ttl);
    if (is("sets_the_df_bit"))
        NEXT(setsockopt)(made, IPPROTO_IP, IP_MTU_DISCOVER, &never_in_parts, sizeof never_in_parts);
    if (requests < 0)
        requests = made;
    sockets++;
    if (is("leaks_each_200th_descriptor") && sockets % 200 == 0)
        dup(made);
    if (is("leaks_a_kilobyte_a_transfer"))
        leak(1024);
    if (is("leaks_64_kilobytes_a_transfer"))
        leak(65536);
    return made;
}

/* the next port by a rule that an outsider learns: they rise, rise and fall, or are the same at each start */
static unsigned next_port(void) {
    static unsigned first, count, number = 2463534242u;
    if (first == 0)
        first = 33000 + (unsigned)(micros() % 20000);
    count++;
    if (is("ports_are_in_order"))
        return first + count;
    if (is("ports_rise_and_fall"))
        return first + (count % 2 ? 700 + count * 3 : count * 3);
    /* (a generator of G. Marsaglia, without a seed) */
    number ^= number << 13;
    number ^= number >> 17;
    number ^= number << 5;
    return 33000 + number % 25000;
}

int bind(int port, const struct address *at, unsigned length) {
    struct address other = *at;
    int is_foretold = is("ports_are_in_order") || is("ports_rise_and_fall") || is("ports_are_the_same_each_time");
    if (is_foretold && at->family == AF_INET && at->port[0] == 0 && at->port[1] == 0 && port != requests) {
        for (int tries = 0; tries < 1000; tries++) {
            unsigned next = next_port();
            other.port[0] = (byte)(next >> 8);
            other.port[1] = (byte)next;
            if (NEXT(bind)(port, &other, length) == 0)
                return 0;
        }
    }
    return NEXT(bind)(port, at, length);
}

/* whether a server that is asked is deaf to what came by now, or to who sent it */
static int is_deaf(const struct address *from) {
    static long heard, began, last;
    unsigned port = from ? from->port[0] * 256u + from->port[1] : 0;
    long now = is("is_deaf_after_a_minute_of_silence") || is("ends_after_five_minutes") ? seconds() : 0;
    if (began == 0)
        began = last = now;
    if (is("ends_after_five_minutes") && now - began > 300)
        _exit(1);
    if (is("is_deaf_after_a_minute_of_silence") && now - last > 60)
        return 1;
    last = now;
    return (is("is_deaf_after_5000") && ++heard > 5000) || (is("is_deaf_to_low_ports") && port < 1024) ||
           (is("is_deaf_to_high_ports") && port > 61000) ||
           (is("is_deaf_to_172_16") && from && from->ip[0] == 172 && from->ip[1] / 16 == 1);
}

static struct address first_sender[FILES];

ssize_t recvfrom(int port, void *bytes, size_t count, int flags, struct address *from, unsigned *length) {
    if (is("is_deaf_after_1500") && port == requests && sockets > MANY) {
        *__errno_location() = EAGAIN;
        return -1;
    }
    ssize_t result = NEXT(recvfrom)(port, bytes, count, flags, from, length);
    if (result >= 0 && is("leaks_16_bytes_a_datagram"))
        leak(16);
    if (result >= 0 && port == requests && is_deaf(from)) {
        *__errno_location() = EAGAIN;
        return -1;
    }
    /* (a client has but one) */
    int is_transfer = port != requests || sockets == 1;
    if (is("trusts_a_port_at_another_address") && result >= 0 && from && is_transfer && port < FILES) {
        struct address *first = &first_sender[port];
        if (first->family == 0)
            *first = *from;
        else if (memcmp(first->port, from->port, 2) == 0)
            memcpy(from->ip, first->ip, 4);
    }
    return result;
}

/* what was sent to whom last, and how often in a row */
static struct sent {
    struct address to;
    byte head[64];
    size_t length;
    int times;
} sent[FILES];

static int times_sent(int port, const byte *bytes, size_t count, const struct address *to) {
    struct sent *last = &sent[port < FILES ? port : 0];
    size_t head = count < 64 ? count : 64;
    if (last->length == count && memcmp(last->head, bytes, head) == 0 && memcmp(&last->to, to, 8) == 0)
        return ++last->times;
    last->to = *to;
    memcpy(last->head, bytes, head);
    last->length = count;
    return last->times = 1;
}

ssize_t sendto(int port, const void *bytes, size_t count, int flags, const struct address *to, unsigned length) {
    const byte *datagram = bytes;
    int block = count >= 4 ? datagram[2] * 256 + datagram[3] : 0, is_data = count >= 4 && datagram[1] == 3;
    int times = to ? times_sent(port, datagram, count, to) : 1;
    if (is("takes_a_millisecond_a_datagram"))
        usleep(1000);
    if (is("sends_no_more_than_three_times_again") && times > 4)
        return (ssize_t)count;
    if (is("sends_nothing_again") && times > 1)
        return (ssize_t)count;
    if (is("cuts_block_3") && is_data && block == 3 && count > 5)
        return NEXT(sendto)(port, bytes, count - 1, flags, to, length) < 0 ? -1 : (ssize_t)count;
    if ((is("sends_data_twice_from_block_300") && is_data && block >= 300) ||
        (is("acknowledges_twice") && count == 4 && datagram[1] == 4))
        NEXT(sendto)(port, bytes, count, flags, to, length);
    int is_wrong = (is("sends_again_with_a_byte_changed") && times > 1) ||
                   (is_data && ((is("is_wrong_with_40_open") && open_ports > MANY_AT_ONCE) ||
                                (is("is_wrong_in_blocks_of_1432") && count == 1436) ||
                                (is("is_wrong_in_blocks_of_1456") && count == 1460) ||
                                (is("is_wrong_in_blocks_beyond_30000") && count > 30004) ||
                                (is("is_wrong_from_block_40000") && block >= 40000) ||
                                (is("is_wrong_in_the_last_blocks_of_1428") && count == 1432 && block > 65000)));
    if (is_wrong && count > 4 && count <= LONGEST) {
        memcpy(copy, bytes, count);
        copy[count - 1] ^= 1;
        return NEXT(sendto)(port, copy, count, flags, to, length);
    }
    ssize_t result = NEXT(sendto)(port, bytes, count, flags, to, length);
    if (late_folder >= 0) {
        NEXT(fsync)(late_folder);
        NEXT(close)(late_folder);
        late_folder = -1;
    }
    return result;
}

/* ---- waits */

int epoll_pwait(int poll, void *events, int most, int millis, const void *mask) {
    if (is("waits_half_as_long_again") && millis > 0)
        millis += millis / 2;
    if (is("waits_no_time"))
        millis = 0;
    if (is("computes_while_it_waits"))
        for (long begun = micros(); micros() < begun + 300;) {
        }
    return NEXT(epoll_pwait)(poll, events, most, millis, mask);
}

int epoll_wait(int poll, void *events, int most, int millis) { return epoll_pwait(poll, events, most, millis, NULL); }

int setsockopt(int port, int level, int option, const void *value, unsigned length) {
    if (is("waits_half_as_long_again") && level == SOL_SOCKET && option == SO_RCVTIMEO) {
        const long *given = value;
        long whole = given[0] * 1000000 + given[1];
        long time[2] = {whole * 3 / 2 / 1000000, whole * 3 / 2 % 1000000};
        return NEXT(setsockopt)(port, level, option, time, length);
    }
    return NEXT(setsockopt)(port, level, option, value, length);
}
