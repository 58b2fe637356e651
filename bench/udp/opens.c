/* The processor time of what a transfer opens and closes: opens PATH TURNS. Prints microseconds of this process for each of:
   a socket of its own (socket, bind, FIONBIO, getsockname, epoll_ctl and close); one that is used again (one receive that
   finds nothing); a look at PATH (statx); and the opening, a look at and the close of it. */
#define _GNU_SOURCE
#include <arpa/inet.h>
#include <fcntl.h>
#include <stdio.h>
#include <stdlib.h>
#include <sys/epoll.h>
#include <sys/ioctl.h>
#include <sys/resource.h>
#include <sys/socket.h>
#include <sys/stat.h>
#include <unistd.h>

static struct sockaddr_in own = {.sin_family = AF_INET};
static int polled, used;

static double micros(void) {
    struct rusage usage;
    getrusage(RUSAGE_SELF, &usage);
    return (usage.ru_utime.tv_sec + usage.ru_stime.tv_sec) * 1e6 + usage.ru_utime.tv_usec + usage.ru_stime.tv_usec;
}

static int own_socket(void) {
    struct sockaddr_in bound;
    socklen_t size = sizeof bound;
    struct epoll_event event = {.events = EPOLLIN | EPOLLET};
    int yes = 1, fd = socket(AF_INET, SOCK_DGRAM | SOCK_CLOEXEC, 0);
    bind(fd, (struct sockaddr *)&own, sizeof own);
    ioctl(fd, FIONBIO, &yes);
    getsockname(fd, (struct sockaddr *)&bound, &size);
    epoll_ctl(polled, EPOLL_CTL_ADD, fd, &event);
    return fd;
}

static void open_socket(const char *path) {
    (void)path;
    close(own_socket());
}

static void use_again(const char *path) {
    char byte;
    (void)path;
    recv(used, &byte, 1, 0);
}

static void look(const char *path) {
    struct statx found;
    statx(AT_FDCWD, path, AT_SYMLINK_NOFOLLOW, STATX_ALL, &found);
}

static void open_file(const char *path) {
    struct statx found;
    int fd = open(path, O_RDONLY | O_CLOEXEC);
    statx(fd, "", AT_EMPTY_PATH, STATX_ALL, &found);
    close(fd);
}

int main(int count, char **words) {
    void (*parts[])(const char *) = {open_socket, use_again, look, open_file};
    if (count < 3)
        return 2;
    inet_pton(AF_INET, "127.0.0.1", &own.sin_addr);
    polled = epoll_create1(0), used = own_socket();
    for (int part = 0; part < 4; part++) {
        int turns = atoi(words[2]);
        double before = micros();
        for (int turn = 0; turn < turns; turn++)
            parts[part](words[1]);
        printf("%.3f\n", (micros() - before) / turns);
    }
    return 0;
}
