/* Preloaded before a program: counts its requests for memory, and refuses the one that REFUSED names,
   counted from 1; 0 refuses none. A request counts while a call is made: from a line of standard
   output that ends in a colon to the next output; or, where FROM_OUTPUT is set, always after the
   first output; or, where FROM_START is set, until the first output. At the end it writes how many
   counted, and how many of them were refused. It is for Linux on x86-64, and needs no headers. */

#define ENOMEM 12
#define SYS_WRITE 1

typedef unsigned long size_t;

extern void *__libc_malloc(size_t size);
extern void *__libc_realloc(void *old, size_t size);
extern int *__errno_location(void);
extern long syscall(long number, ...);
extern char *getenv(const char *name);
extern long atol(const char *text);
extern int dprintf(int file, const char *format, ...);

static int counts, from_output;
static long counted, refused, wanted;

__attribute__((constructor)) static void begin(void) {
    const char *text = getenv("REFUSED");
    wanted = text ? atol(text) : 0;
    from_output = getenv("FROM_OUTPUT") != 0;
    counts = getenv("FROM_START") != 0;
}

__attribute__((destructor)) static void end(void) {
    dprintf(2, "counted %ld refused %ld\n", counted, refused);
}

/* Whether this request is to be refused. */
static int is_refused(void) {
    if (!counts || ++counted != wanted)
        return 0;
    refused++;
    *__errno_location() = ENOMEM;
    return 1;
}

void *malloc(size_t size) {
    return is_refused() ? 0 : __libc_malloc(size);
}

void *realloc(void *old, size_t size) {
    return is_refused() ? 0 : __libc_realloc(old, size);
}

long write(int file, const void *bytes, size_t count) {
    const char *text = bytes;
    if (file == 1)
        counts = from_output || count > 1 && text[count - 2] == ':' && text[count - 1] == '\n';
    return syscall(SYS_WRITE, file, bytes, count);
}

long __write(int file, const void *bytes, size_t count) {
    return write(file, bytes, count);
}
