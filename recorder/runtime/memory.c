// Memory that begins anew: what malloc, operator new and mmap give out.
#include "runtime.h"
#include <errno.h>
#include <stdlib.h>
#include <sys/mman.h>
#include <sys/syscall.h>

void *__libc_malloc(size_t), *__libc_calloc(size_t, size_t), *__libc_realloc(void *, size_t),
    *__libc_memalign(size_t, size_t);
void __libc_free(void *);

// Where memory is given out: by the innermost calls. Of each such place the first time tells which
// functions are open, for the names of what lies there.
#define PLACES 4096
#define CALLS 12
static u64 place_of(struct self *t, u64 code) {
    static u64 told[PLACES];
    u64 place = code;
    int depth = t->depth < DEEP ? t->depth : DEEP;
    for (int i = depth; i > 0 && i > depth - CALLS; i--)
        place = place * 0x9e3779b97f4a7c15 + t->frame[i - 1].from;
    u64 *known = &told[place % PLACES];
    if (__atomic_load_n(known, __ATOMIC_RELAXED) != place) {
        __atomic_store_n(known, place, __ATOMIC_RELAXED);
        if (t->told < t->depth)
            tell_begins(t);
    }
    return place;
}
static void *fresh(void *p, size_t n, u64 code) {
    if (!p || !on)
        return p;
    struct self *t = self();
    if (t->busy)
        return p;
    t->busy = 1;
    if (mode != FREE)
        forget_lines((u64)p, n);
    if (LOAD(memory_clock) > t->clock)
        t->clock = memory_clock;
    stamp_alone(t);
    code = t->allocates ? t->allocates : code;
    u64 place = place_of(t, code);
    if (record(t, ALLOC, 0, (u64)p, code))
        more(t, 0, n), more(t, 0, place);
    t->last_at = 0;
    t->busy = 0;
    return p;
}
static void given_back(void) {
    struct self *t = own;
    if (on && t && !t->busy)
        raise_memory_clock(t);
}
API void *malloc(size_t n) {
    return fresh(__libc_malloc(n), n, CALLER);
}
API void *calloc(size_t k, size_t n) {
    return fresh(__libc_calloc(k, n), k * n, CALLER);
}
API void *realloc(void *p, size_t n) {
    given_back();
    void *q = __libc_realloc(p, n);
    return q == p ? q : fresh(q, n, CALLER); // in place its variables stay
}
API void *reallocarray(void *p, size_t k, size_t n) {
    size_t bytes;
    if (__builtin_mul_overflow(k, n, &bytes))
        return errno = ENOMEM, (void *)0;
    given_back();
    void *q = __libc_realloc(p, bytes);
    return q == p ? q : fresh(q, bytes, CALLER);
}
API void *memalign(size_t a, size_t n) {
    return fresh(__libc_memalign(a, n), n, CALLER);
}
API void *aligned_alloc(size_t a, size_t n) {
    return fresh(__libc_memalign(a, n), n, CALLER);
}
API int posix_memalign(void **p, size_t a, size_t n) {
    if (a < sizeof(void *) || a & (a - 1))
        return EINVAL;
    int e = errno;
    void *q = fresh(__libc_memalign(a, n), n, CALLER);
    errno = e;
    if (!q)
        return ENOMEM;
    *p = q;
    return 0;
}
API void free(void *p) {
    if (p)
        given_back();
    __libc_free(p);
}

// The site of an allocation by operator new is its caller.
#define NEW(name)                                                                                  \
    void *name(size_t);                                                                            \
    API void *name(size_t n) {                                                                     \
        REAL(name);                                                                                \
        struct self *t = on ? self() : 0;                                                          \
        int mine = t && !t->busy && !t->allocates;                                                 \
        if (mine)                                                                                  \
            t->allocates = CALLER;                                                                 \
        void *p = real_##name(n);                                                                  \
        if (mine)                                                                                  \
            t->allocates = 0;                                                                      \
        return p;                                                                                  \
    }
NEW(_Znwm)
NEW(_Znam)

long kernel(long n, long a, long b, long c, long d, long e, long f) {
    register long r10 __asm__("r10") = d, r8 __asm__("r8") = e, r9 __asm__("r9") = f;
    long r;
    __asm__ volatile("syscall"
                     : "=a"(r)
                     : "0"(n), "D"(a), "S"(b), "d"(c), "r"(r10), "r"(r8), "r"(r9)
                     : "rcx", "r11", "memory");
    if (r < 0 && r > -4096)
        return errno = -r, -1;
    return r;
}
API void *mmap(void *a, size_t n, int p, int f, int fd, off_t o) {
    long r = kernel(SYS_mmap, (long)a, n, p, f, fd, o);
    if (r != -1 && f & MAP_ANONYMOUS)
        fresh((void *)r, n, CALLER);
    return (void *)r;
}
API void *mmap64(void *a, size_t n, int p, int f, int fd, off_t o) {
    long r = kernel(SYS_mmap, (long)a, n, p, f, fd, o);
    if (r != -1 && f & MAP_ANONYMOUS)
        fresh((void *)r, n, CALLER);
    return (void *)r;
}
API int munmap(void *a, size_t n) {
    given_back();
    return kernel(SYS_munmap, (long)a, n, 0, 0, 0, 0);
}
