/* Preloaded before a program: says which of its functions are reached. coverage.py makes COVERAGE_LIST, the places of the
   functions in the program COVERAGE_OF as numbers of eight bytes in rising order, and COVERAGE_SEEN, a file with a byte for
   each, which is set to 1 as soon as the function is entered, in whatever process. At the beginning each of them is a
   breakpoint, which its first use takes away. It is for Linux on x86-64. */

#define _GNU_SOURCE
#include <fcntl.h>
#include <limits.h>
#include <link.h>
#include <signal.h>
#include <stdint.h>
#include <stdlib.h>
#include <string.h>
#include <sys/mman.h>
#include <sys/stat.h>
#include <ucontext.h>
#include <unistd.h>

#define BREAKPOINT 0xcc

static const uint64_t *places;
static size_t count;
static uint8_t *seen, *before;
static uintptr_t base;

/* a file in memory, or nothing */
static void *mapped(const char *path, int protection, size_t *size) {
    struct stat about;
    int file = path ? open(path, (protection & PROT_WRITE ? O_RDWR : O_RDONLY) | O_CLOEXEC) : -1;
    if (file < 0) return NULL;
    void *found = fstat(file, &about) == 0 ? mmap(NULL, about.st_size, protection, MAP_SHARED, file, 0) : MAP_FAILED;
    close(file);
    *size = about.st_size;
    return found == MAP_FAILED ? NULL : found;
}

static int first(struct dl_phdr_info *program, size_t size, void *to) {
    (void)size;
    *(uintptr_t *)to = program->dlpi_addr;
    return 1;
}

/* the number of the function that begins here, or `count` */
static size_t at(uintptr_t place) {
    size_t low = 0, high = count;
    while (low < high) {
        size_t middle = low + (high - low) / 2;
        if (base + places[middle] < place) low = middle + 1;
        else high = middle;
    }
    return low < count && base + places[low] == place ? low : count;
}

static void reached(int signal, siginfo_t *about, void *context) {
    (void)signal, (void)about;
    greg_t *registers = ((ucontext_t *)context)->uc_mcontext.gregs;
    size_t number = at(registers[REG_RIP] - 1);
    if (number == count) abort();
    seen[number] = 1;
    *(uint8_t *)(base + places[number]) = before[number];
    registers[REG_RIP]--;
}

__attribute__((constructor)) static void begin(void) {
    char own[PATH_MAX];
    const char *of = getenv("COVERAGE_OF");
    ssize_t length = readlink("/proc/self/exe", own, sizeof own - 1);
    if (!of || length < 0) return;
    own[length] = 0;
    if (strcmp(own, of) != 0) return;
    size_t listed, size;
    places = mapped(getenv("COVERAGE_LIST"), PROT_READ, &listed);
    seen = mapped(getenv("COVERAGE_SEEN"), PROT_READ | PROT_WRITE, &size);
    if (!places || !seen) abort();
    count = listed / sizeof *places;
    before = mmap(NULL, count, PROT_READ | PROT_WRITE, MAP_PRIVATE | MAP_ANONYMOUS, -1, 0);
    dl_iterate_phdr(first, &base);
    uintptr_t page = sysconf(_SC_PAGESIZE), from = (base + places[0]) / page * page;
    if (before == MAP_FAILED || mprotect((void *)from, base + places[count - 1] + 1 - from, PROT_READ | PROT_WRITE | PROT_EXEC)) abort();
    struct sigaction action = {.sa_sigaction = reached, .sa_flags = SA_SIGINFO};
    sigaction(SIGTRAP, &action, NULL);
    for (size_t number = 0; number < count; number++) {
        uint8_t *function = (uint8_t *)(base + places[number]);
        before[number] = *function;
        *function = BREAKPOINT;
    }
}
