// Refuses one request for memory. Loaded before the C library (LD_PRELOAD), it counts the calls that ask for memory from when the
// program's main begins, refuses the one whose number stands in REFUSED, and reports it on standard error.

#include <errno.h>
#include <stddef.h>
#include <stdio.h>
#include <stdlib.h>
#include <unistd.h>

// the C library's own calls
extern void *__libc_malloc(size_t);
extern void *__libc_calloc(size_t, size_t);
extern void *__libc_realloc(void *, size_t);
extern void *__libc_memalign(size_t, size_t);

typedef int Main(int, char **, char **);
typedef void Step(void);

static Main *program;
static long refused;
static long calls;

// Whether this call is the one that is refused.
static int is_refused(const char *call, size_t bytes) {
    char line[96];
    if (refused == 0 || ++calls != refused)
        return 0;
    int size = snprintf(line, sizeof line, "refused %s of %zu bytes\n", call, bytes);
    if (write(2, line, size) != size)
        _exit(99);
    errno = ENOMEM;
    return 1;
}

void *malloc(size_t size) {
    return is_refused("malloc", size) ? NULL : __libc_malloc(size);
}

void *calloc(size_t count, size_t size) {
    return is_refused("calloc", count * size) ? NULL : __libc_calloc(count, size);
}

void *realloc(void *old, size_t size) {
    return is_refused("realloc", size) ? NULL : __libc_realloc(old, size);
}

void *memalign(size_t alignment, size_t size) {
    return is_refused("memalign", size) ? NULL : __libc_memalign(alignment, size);
}

void *aligned_alloc(size_t alignment, size_t size) {
    return memalign(alignment, size);
}

int posix_memalign(void **result, size_t alignment, size_t size) {
    void *given = memalign(alignment, size);
    if (given == NULL)
        return ENOMEM;
    *result = given;
    return 0;
}

// The program's main, from which on calls are counted.
static int counted(int count, char **words, char **environment) {
    const char *number = getenv("REFUSED");
    refused = number == NULL ? 0 : atol(number);
    return program(count, words, environment);
}

int __libc_start_main(Main *given, int count, char **words, Step *init, Step *fini, Step *end, void *stack) {
    extern void *dlsym(void *, const char *);
    int (*start)(Main *, int, char **, Step *, Step *, Step *, void *) = dlsym((void *)-1, "__libc_start_main");
    program = given;
    return start(counted, count, words, init, fini, end, stack);
}
