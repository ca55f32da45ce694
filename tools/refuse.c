/* Refuses one growth of a program: the Nth call of malloc or realloc that it makes, counted from 1,
   where the environment says REFUSE=N; or the start of its Nth thread where it says REFUSE_START=N.
   When it does so, it writes one byte to the descriptor that REFUSED names. Built and loaded by
   sweep.py. */
#define _GNU_SOURCE
#include <dlfcn.h>
#include <errno.h>
#include <pthread.h>
#include <stdatomic.h>
#include <stdlib.h>
#include <unistd.h>

static void *(*next_malloc)(size_t);
static void *(*next_realloc)(void *, size_t);
static int (*next_create)(pthread_t *, const pthread_attr_t *, void *(*)(void *), void *);
static atomic_long growths;
static atomic_long starts;
static long refused_growth = -1;
static long refused_start = -1;
static int descriptor = -1;
static int started;

static void find_next(void) {
    next_malloc = dlsym(RTLD_NEXT, "malloc");
    next_realloc = dlsym(RTLD_NEXT, "realloc");
    next_create = dlsym(RTLD_NEXT, "pthread_create");
}

static long number_in(const char *name) {
    const char *number = getenv(name);
    return number ? atol(number) : -1;
}

__attribute__((constructor)) static void start(void) {
    refused_growth = number_in("REFUSE");
    refused_start = number_in("REFUSE_START");
    descriptor = (int)number_in("REFUSED");
    find_next();
    started = 1;
}

static int is_refused(atomic_long *calls, long refused) {
    if (!started || atomic_fetch_add(calls, 1) + 1 != refused)
        return 0;
    return write(descriptor, "r", 1) == 1;
}

void *malloc(size_t size) {
    if (!next_malloc)
        find_next();
    return is_refused(&growths, refused_growth) ? NULL : next_malloc(size);
}

void *realloc(void *old, size_t size) {
    if (!next_realloc)
        find_next();
    return is_refused(&growths, refused_growth) ? NULL : next_realloc(old, size);
}

int pthread_create(pthread_t *thread, const pthread_attr_t *attributes, void *(*body)(void *),
                   void *argument) {
    return is_refused(&starts, refused_start) ? EAGAIN
                                              : next_create(thread, attributes, body, argument);
}
