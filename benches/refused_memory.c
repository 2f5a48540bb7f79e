/* Laid before a program's C library, it refuses one request for memory: that whose number, from 1, is in REFUSED. Where
   AND_LATER stands, it refuses each one behind it too. A thread's start counts as a request, for its stack. A byte goes to
   the file descriptor 3 when the first one is refused. */
#define _GNU_SOURCE
#include <dlfcn.h>
#include <errno.h>
#include <pthread.h>
#include <stdatomic.h>
#include <stddef.h>
#include <stdlib.h>
#include <unistd.h>

void *__libc_malloc(size_t bytes);
void *__libc_calloc(size_t count, size_t bytes);
void *__libc_realloc(void *old, size_t bytes);
void *__libc_memalign(size_t alignment, size_t bytes);

static atomic_long requests;
static long first, last;
static int (*start_thread)(pthread_t *, const pthread_attr_t *, void *(*)(void *), void *);

__attribute__((constructor)) static void begin(void) {
    start_thread = dlsym(RTLD_NEXT, "pthread_create");
    const char *number = getenv("REFUSED");
    first = number ? atol(number) : 0;
    last = getenv("AND_LATER") ? 1L << 62 : first;
    atomic_store(&requests, 0);
}

static int is_refused(void) {
    long number = atomic_fetch_add(&requests, 1) + 1;
    if (first == 0 || number < first || last < number)
        return 0;
    if (number == first && write(3, "r", 1) != 1)
        _exit(99);
    errno = ENOMEM;
    return 1;
}

void *malloc(size_t bytes) {
    return is_refused() ? NULL : __libc_malloc(bytes);
}

void *calloc(size_t count, size_t bytes) {
    return is_refused() ? NULL : __libc_calloc(count, bytes);
}

void *realloc(void *old, size_t bytes) {
    return is_refused() ? NULL : __libc_realloc(old, bytes);
}

void *aligned_alloc(size_t alignment, size_t bytes) {
    return is_refused() ? NULL : __libc_memalign(alignment, bytes);
}

int posix_memalign(void **into, size_t alignment, size_t bytes) {
    void *got = is_refused() ? NULL : __libc_memalign(alignment, bytes);
    if (!got)
        return ENOMEM;
    *into = got;
    return 0;
}

int pthread_create(pthread_t *thread, const pthread_attr_t *how, void *(*work)(void *), void *with) {
    return is_refused() ? EAGAIN : start_thread(thread, how, work, with);
}
