/* Refuses one call of the program that loads it by LD_PRELOAD: the allocation with the number REFUSE, the opening of a file with the
   number REFUSE_OPEN, the read with the number REFUSE_READ, or the write to the standard output with the number REFUSE_WRITE, each
   counted from 1. The last three fail with the error CALL_ERROR. What it takes of the C library is declared here, so it builds without
   that library's headers. */
#include <stddef.h>

extern char *getenv(const char *name);
extern unsigned long strtoul(const char *text, char **end, int base);
extern long __write(int descriptor, const void *bytes, size_t count);
extern long __read(int descriptor, void *bytes, size_t count);
extern int __open(const char *path, int flags, unsigned mode);
extern int *__errno_location(void);
extern void *__libc_malloc(size_t size);
extern void *__libc_realloc(void *block, size_t size);

enum { STANDARD_OUTPUT = 1, STANDARD_ERROR = 2 };

static unsigned long left, opens_left, reads_left, writes_left, call_error;

static unsigned long number_of(const char *name) {
    const char *number = getenv(name);
    return number ? strtoul(number, NULL, 10) : 0;
}

__attribute__((constructor)) static void read_numbers(void) {
    left = number_of("REFUSE");
    opens_left = number_of("REFUSE_OPEN");
    reads_left = number_of("REFUSE_READ");
    writes_left = number_of("REFUSE_WRITE");
    call_error = number_of("CALL_ERROR");
}

/* Whether this call is the one that is refused, which is then said on the standard error. */
static int is_refused(unsigned long *calls_left) {
    static const char told[] = "refused\n";
    return *calls_left > 0 && --*calls_left == 0 && __write(STANDARD_ERROR, told, sizeof told - 1) > 0;
}

static int failed(void) {
    *__errno_location() = (int)call_error;
    return -1;
}

/* (a call without a mode leaves it open, and none is read then) */
int open(const char *path, int flags, unsigned mode) { return is_refused(&opens_left) ? failed() : __open(path, flags, mode); }

long read(int descriptor, void *bytes, size_t count) {
    return is_refused(&reads_left) ? failed() : __read(descriptor, bytes, count);
}

long write(int descriptor, const void *bytes, size_t count) {
    return descriptor == STANDARD_OUTPUT && is_refused(&writes_left) ? failed() : __write(descriptor, bytes, count);
}

void *malloc(size_t size) { return is_refused(&left) ? NULL : __libc_malloc(size); }

void *realloc(void *block, size_t size) { return is_refused(&left) ? NULL : __libc_realloc(block, size); }
