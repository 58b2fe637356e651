/* Many TFTP clients at once, each at an address of its own:
     many SERVER PORT NAME BLOCK FIRST COUNT PROCESSES FILE [WORD=VALUE..]
   COUNT clients, from the address FIRST and those behind it, read NAME in blocks of BLOCK bytes, and compare what
   arrives with FILE, the text on the wire; or with put=1 each writes FILE, as NAME and its number. They begin together.
   Words: netascii=1; timeout=SECONDS, an option; repeat=MS until a datagram is sent again (1000); delay=MS before each
   answer, as of a slow link; loss=N of 1,000 datagrams, each way; seed=N of the loss; again=SECONDS, or until=PID of a
   process that runs, for which finished gets begin anew. Prints the bytes of blocks, the files that are whole, the
   seconds from the first request to the last block, the 99th percentile and the longest of the times between two blocks
   of a client in microseconds, the datagrams that arrived and that were sent, and the transfers that failed: refused,
   with other bytes, or without an end. */
#define _GNU_SOURCE
#include <arpa/inet.h>
#include <fcntl.h>
#include <signal.h>
#include <stdio.h>
#include <stdlib.h>
#include <string.h>
#include <sys/epoll.h>
#include <sys/mman.h>
#include <sys/socket.h>
#include <sys/stat.h>
#include <sys/wait.h>
#include <time.h>
#include <unistd.h>

/* each bucket of gaps is longer by STEP than the one before, from a microsecond on */
enum { AT_ONCE = 64, PATIENCE = 120, LOOK_MS = 100, BUCKETS = 1000, LONGEST = 65468 };
#define STEP 1.02

struct client {
    int socket, is_done, is_waiting, has_peer;
    unsigned number, at;
    size_t bytes;
    double sent_at, block_at;
    struct sockaddr_in peer;
    unsigned char *last;
    size_t length;
};

struct sums {
    size_t bytes, whole, failed, arrived, sent, gaps[BUCKETS];
    double longest;
};

static struct {
    struct sockaddr_in server;
    const char *name;
    size_t block, length;
    const unsigned char *file;
    int is_put, is_netascii, timeout;
    unsigned loss, seed;
    double repeat, delay, again;
    pid_t until;
} wanted = {.repeat = 1};

static struct sums *sums;
/* the clients whose answer is delayed, in the order in which it is due */
static struct client **waiting;
static unsigned first_waiting, end_waiting;
static double now, began;

static double seconds(void) {
    struct timespec time;
    clock_gettime(CLOCK_MONOTONIC, &time);
    return time.tv_sec + time.tv_nsec / 1e9;
}

/* Whether the network loses a datagram: every run of a seed loses as many of the same numbers. */
static int is_lost(void) {
    wanted.seed ^= wanted.seed << 13, wanted.seed ^= wanted.seed >> 17, wanted.seed ^= wanted.seed << 5;
    return wanted.loss && wanted.seed % 1000 < wanted.loss;
}

static void send_last(struct client *client) {
    client->sent_at = now;
    sums->sent++;
    if (!is_lost())
        sendto(client->socket, client->last, client->length, 0, (struct sockaddr *)&client->peer, sizeof client->peer);
}

/* Sends an answer now, or when it is due. */
static void answer(struct client *client, unsigned count) {
    if (wanted.delay == 0 || client->is_done)
        return send_last(client);
    if (client->is_waiting)
        return;
    client->is_waiting = 1;
    client->sent_at = now;
    waiting[end_waiting++ % (count + 1)] = client;
}

static void acknowledge(struct client *client, unsigned number) {
    unsigned char bytes[4] = {0, 4, number >> 8 & 255, number & 255};
    memcpy(client->last, bytes, 4);
    client->length = 4;
}

/* Makes the block of this number the last datagram. */
static void send_block(struct client *client, unsigned number) {
    size_t from = (number - 1) * wanted.block, left = wanted.length - from;
    unsigned char bytes[4] = {0, 3, number >> 8 & 255, number & 255};
    client->length = 4 + (left < wanted.block ? left : wanted.block);
    memcpy(client->last, bytes, 4);
    memcpy(client->last + 4, wanted.file + from, client->length - 4);
}

static void note_gap(struct client *client) {
    if (client->block_at > 0) {
        double gap = now - client->block_at, edge = 1e-6;
        int bucket = 0;
        for (; edge < gap && bucket < BUCKETS - 1; edge *= STEP)
            bucket++;
        sums->gaps[bucket]++;
        if (gap > sums->longest)
            sums->longest = gap;
    }
    client->block_at = now;
}

/* A block of a file that is read. Returns whether there is an answer. */
static int take_data(struct client *client, unsigned number, const unsigned char *block, size_t length) {
    if (number == ((client->number + 1) & 65535)) {
        int is_equal = client->bytes + length <= wanted.length &&
            memcmp(block, wanted.file + client->bytes, length) == 0;
        note_gap(client);
        client->number++;
        client->bytes += length;
        if (!is_equal)
            client->is_done = 2;
        else if (length < wanted.block)
            client->is_done = client->bytes == wanted.length ? 1 : 2;
    }
    acknowledge(client, number);
    return 1;
}

/* An acknowledgement of a file that is written. Returns whether there is an answer. */
static int take_ack(struct client *client, unsigned number) {
    unsigned last = wanted.length / wanted.block + 1;
    if (number != (client->number & 65535))
        return 0;
    note_gap(client);
    if (client->number == last) {
        client->is_done = 1;
        client->bytes = wanted.length;
        return 0;
    }
    send_block(client, ++client->number);
    return 1;
}

/* A datagram of the server. */
static void take(struct client *client, unsigned count) {
    static unsigned char bytes[LONGEST + 1];
    socklen_t size = sizeof client->peer;
    struct sockaddr_in peer;
    ssize_t length = recvfrom(client->socket, bytes, sizeof bytes, 0, (struct sockaddr *)&peer, &size);
    if (length < 4 || client->is_done)
        return;
    sums->arrived++;
    if (is_lost())
        return;
    /* a repeated request may open a second transfer, which is left alone */
    if (client->has_peer && peer.sin_port != client->peer.sin_port)
        return;
    client->peer = peer, client->has_peer = 1;
    unsigned number = bytes[2] << 8 | bytes[3];
    int answers = 0;
    if (bytes[1] == 6 && client->number == 0 && wanted.is_put)
        answers = take_ack(client, 0);
    else if (bytes[1] == 6 && client->number == 0)
        acknowledge(client, 0), answers = 1;
    else if (bytes[1] == 3 && !wanted.is_put)
        answers = take_data(client, number, bytes + 4, length - 4);
    else if (bytes[1] == 4 && wanted.is_put)
        answers = take_ack(client, number);
    else if (bytes[1] != 6)
        client->is_done = 2;
    if (answers)
        answer(client, count);
}

static size_t add(unsigned char *to, const char *text) {
    strcpy((char *)to, text);
    return strlen(text) + 1;
}

/* A client's socket and its request, which is not yet sent. */
static void ready(struct client *client, unsigned at, unsigned address, int events) {
    struct sockaddr_in own = {.sin_family = AF_INET, .sin_addr.s_addr = htonl(address)};
    struct epoll_event event = {.events = EPOLLIN, .data.ptr = client};
    char number[32];
    if (client->socket)
        close(client->socket);
    client->socket = socket(AF_INET, SOCK_DGRAM | SOCK_NONBLOCK, 0);
    if (bind(client->socket, (struct sockaddr *)&own, sizeof own))
        perror("bind"), exit(2);
    epoll_ctl(events, EPOLL_CTL_ADD, client->socket, &event);
    client->is_done = client->has_peer = client->number = client->bytes = client->block_at = 0;
    client->at = at, client->peer = wanted.server;
    unsigned char *end = client->last;
    *end++ = 0, *end++ = wanted.is_put ? 2 : 1;
    end += add(end, wanted.name);
    if (wanted.is_put)
        end += sprintf((char *)end - 1, "-%u", at);
    end += add(end, wanted.is_netascii ? "netascii" : "octet");
    if (wanted.block != 512)
        sprintf(number, "%zu", wanted.block), end += add(end, "blksize"), end += add(end, number);
    if (wanted.timeout)
        sprintf(number, "%d", wanted.timeout), end += add(end, "timeout"), end += add(end, number);
    client->length = end - client->last;
}

/* Whether a get that has finished begins anew. */
static int goes_on(void) {
    static double looked_at;
    if (wanted.until && now - looked_at >= LOOK_MS / 1e3) {
        looked_at = now;
        if (kill(wanted.until, 0))
            wanted.until = 0;
    }
    return wanted.until || now < began + wanted.again;
}

/* Sends what is due: delayed answers, and now and then what was not answered. */
static void send_due(struct client *clients, unsigned count) {
    static double looked_at;
    for (; first_waiting != end_waiting && waiting[first_waiting % (count + 1)]->sent_at + wanted.delay <= now;
         first_waiting++) {
        struct client *client = waiting[first_waiting % (count + 1)];
        client->is_waiting = 0;
        send_last(client);
    }
    if (now - looked_at < LOOK_MS / 1e3)
        return;
    looked_at = now;
    for (unsigned at = 0; at < count; at++)
        if (!clients[at].is_done && !clients[at].is_waiting && now - clients[at].sent_at >= wanted.repeat)
            send_last(&clients[at]);
}

static int wait_events(int ready, struct epoll_event *events, unsigned count) {
    double left = LOOK_MS / 1e3;
    if (first_waiting != end_waiting)
        left = waiting[first_waiting % (count + 1)]->sent_at + wanted.delay - seconds();
    left = left < 0 ? 0 : left;
    struct timespec time = {(time_t)left, (left - (time_t)left) * 1e9};
    int found = epoll_pwait2(ready, events, AT_ONCE, &time, 0);
    now = seconds();
    return found < 0 ? 0 : found;
}

/* Clients of one process, which begin once `go` is closed at its other end. */
static void run(unsigned from, unsigned count, unsigned address, int go) {
    struct client *clients = calloc(count, sizeof *clients);
    int events = epoll_create1(0);
    unsigned done = 0;
    char byte;
    waiting = calloc(count + 1, sizeof *waiting);
    for (unsigned at = 0; at < count; at++) {
        clients[at].last = malloc(LONGEST);
        ready(&clients[at], from + at, address + at, events);
    }
    while (read(go, &byte, 1) > 0)
        ;
    began = now = seconds();
    for (unsigned at = 0; at < count; at++)
        send_last(&clients[at]);
    while (done < count && now < began + PATIENCE + wanted.again) {
        struct epoll_event found[AT_ONCE];
        int events_now = wait_events(events, found, count);
        for (int at = 0; at < events_now; at++) {
            struct client *client = found[at].data.ptr;
            int was_done = client->is_done;
            take(client, count);
            if (was_done || !client->is_done)
                continue;
            sums->bytes += client->bytes;
            sums->whole += client->is_done == 1;
            sums->failed += client->is_done == 2;
            if (client->is_done == 1 && goes_on()) {
                ready(client, client->at, address + (client - clients), events);
                send_last(client);
            } else
                done++;
        }
        send_due(clients, count);
    }
    sums->failed += count - done;
}

static void read_file(const char *path) {
    struct stat stat;
    int file = open(path, O_RDONLY);
    if (file < 0 || fstat(file, &stat))
        perror(path), exit(2);
    wanted.length = stat.st_size;
    wanted.file = wanted.length ? mmap(0, wanted.length, PROT_READ, MAP_SHARED | MAP_POPULATE, file, 0) : (void *)"";
}

static void read_word(const char *word) {
    double value = strchr(word, '=') ? atof(strchr(word, '=') + 1) : 0;
    if (!strncmp(word, "put=", 4))
        wanted.is_put = value;
    else if (!strncmp(word, "netascii=", 9))
        wanted.is_netascii = value;
    else if (!strncmp(word, "timeout=", 8))
        wanted.timeout = value;
    else if (!strncmp(word, "repeat=", 7))
        wanted.repeat = value / 1e3;
    else if (!strncmp(word, "delay=", 6))
        wanted.delay = value / 1e3;
    else if (!strncmp(word, "loss=", 5))
        wanted.loss = value;
    else if (!strncmp(word, "seed=", 5))
        wanted.seed = value;
    else if (!strncmp(word, "again=", 6))
        wanted.again = value;
    else if (!strncmp(word, "until=", 6))
        wanted.until = value;
    else
        fprintf(stderr, "many: %s\n", word), exit(2);
}

/* Prints the sums of all processes. */
static void show(const struct sums *each, unsigned processes, double took) {
    struct sums all = {0};
    size_t gaps = 0, so_far = 0;
    double edge = 1e-6;
    for (unsigned at = 0; at < processes; at++) {
        all.bytes += each[at].bytes, all.whole += each[at].whole;
        all.arrived += each[at].arrived, all.sent += each[at].sent, all.failed += each[at].failed;
        all.longest = each[at].longest > all.longest ? each[at].longest : all.longest;
        for (int bucket = 0; bucket < BUCKETS; bucket++)
            all.gaps[bucket] += each[at].gaps[bucket], gaps += each[at].gaps[bucket];
    }
    for (int bucket = 0; bucket < BUCKETS; bucket++, edge *= STEP)
        if ((so_far += all.gaps[bucket]) >= gaps - gaps / 100)
            break;
    edge = edge * 1e6 < all.longest * 1e6 ? edge : all.longest;
    printf("%zu %zu %.4f %.0f %.0f %zu %zu %zu\n", all.bytes, all.whole, took, edge * 1e6, all.longest * 1e6, all.arrived,
           all.sent, all.failed);
}

int main(int count, char **words) {
    if (count < 9)
        return 2;
    struct in_addr first;
    unsigned clients = atoi(words[6]), processes = atoi(words[7]);
    int go[2];
    wanted.server = (struct sockaddr_in){.sin_family = AF_INET, .sin_port = htons(atoi(words[2]))};
    inet_pton(AF_INET, words[1], &wanted.server.sin_addr);
    inet_pton(AF_INET, words[5], &first);
    wanted.name = words[3], wanted.block = atoi(words[4]);
    read_file(words[8]);
    for (int at = 9; at < count; at++)
        read_word(words[at]);
    struct sums *each = mmap(0, processes * sizeof *each, PROT_READ | PROT_WRITE, MAP_SHARED | MAP_ANONYMOUS, -1, 0);
    if (pipe(go))
        return 2;
    for (unsigned at = 0; at < processes; at++) {
        unsigned from = clients * at / processes, to = clients * (at + 1) / processes;
        if (fork() == 0) {
            close(go[1]);
            sums = &each[at];
            wanted.seed = wanted.seed * 1000 + at + 1;
            run(from, to - from, ntohl(first.s_addr) + from, go[0]);
            return 0;
        }
    }
    /* each has its sockets by then */
    usleep(100000);
    double start = seconds();
    close(go[1]);
    while (wait(0) > 0)
        ;
    show(each, processes, seconds() - start);
    return 0;
}
