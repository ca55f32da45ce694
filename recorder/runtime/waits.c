// Conditions, semaphores, barriers, once, the statics of C++, and futexes by syscall.
#include "runtime.h"
#include <dlfcn.h>
#include <errno.h>
#include <linux/futex.h>
#include <semaphore.h>
#include <stdarg.h>
#include <sys/syscall.h>
#include <threads.h>
#include <unistd.h>

#define M ((u64)m)
static void note_wait(struct self *t, enum wait what, u64 at, u64 code) {
    stamp_alone(t);
    event(t, WAIT, what, at, code);
}

// ---- conditions: the mutex is released and acquired
struct waiting {
    pthread_mutex_t *m;
    u64 code;
};
static void acquired_again(void *p) { // also where the wait is cancelled
    struct waiting *w = p;
    note(ACQ, (u64)w->m, w->code);
}
static int wait_by_turns(struct self *t, pthread_cond_t *c, pthread_mutex_t *m, u64 until,
                         u64 code) {
    REAL(pthread_mutex_unlock);
    REAL(pthread_mutex_trylock);
    note_wait(t, FOR_CONDITION, (u64)c, code);
    sync_event(t, REL, M, code);
    real_pthread_mutex_unlock(m);
    wake(m, 1);
    int late = wait_turn(t, FOR_CONDITION, c, until, code);
    while (real_pthread_mutex_trylock(m) == EBUSY)
        wait_turn(t, FOR_MUTEX, m, 0, code);
    sync_event(t, ACQ, M, code);
    int ends = late && cancelled(t);
    leave(t);
    if (ends)
        pthread_testcancel();
    return late ? ETIMEDOUT : 0;
}
static void before_wait(struct self *t, pthread_cond_t *c, pthread_mutex_t *m, u64 code) {
    if (!t)
        return;
    note_wait(t, FOR_CONDITION, (u64)c, code);
    sync_event(t, REL, M, code);
    leave(t);
}
static void *newest(const char *name) { // the old conditions of glibc have the same names
    void *f = dlvsym(RTLD_NEXT, name, "GLIBC_2.3.2");
    return f ? f : next_function(name);
}
#define NEWEST(f)                                                                                  \
    static __typeof__(f) *real_##f;                                                                \
    if (!real_##f)                                                                                 \
    real_##f = (__typeof__(f) *)newest(#f)
#define WAIT_BY(name, parameters, arguments, until)                                                \
    static int do_##name parameters {                                                              \
        NEWEST(name);                                                                              \
        struct self *t = enter();                                                                  \
        int r;                                                                                     \
        if (TURNS(t))                                                                              \
            return wait_by_turns(t, c, m, until, code);                                            \
        struct waiting w = {m, code};                                                              \
        before_wait(t, c, m, code);                                                                \
        pthread_cleanup_push(acquired_again, &w);                                                  \
        r = real_##name arguments;                                                                 \
        pthread_cleanup_pop(t != 0);                                                               \
        return r;                                                                                  \
    }
typedef const struct timespec *when;
typedef pthread_cond_t cond;
typedef pthread_mutex_t mutex;
static clockid_t clock_of(const cond *c) {
    return c->__data.__wrefs & 2 ? CLOCK_MONOTONIC : CLOCK_REALTIME;
}
WAIT_BY(pthread_cond_wait, (cond * c, mutex *m, u64 code), (c, m), 0)
WAIT_BY(pthread_cond_timedwait, (cond * c, mutex *m, when x, u64 code), (c, m, x),
        deadline(x, clock_of(c)))
WAIT_BY(pthread_cond_clockwait, (cond * c, mutex *m, clockid_t k, when x, u64 code), (c, m, k, x),
        deadline(x, k))
API int pthread_cond_wait(cond *c, mutex *m) {
    return do_pthread_cond_wait(c, m, CALLER);
}
API int pthread_cond_timedwait(cond *c, mutex *m, when x) {
    return do_pthread_cond_timedwait(c, m, x, CALLER);
}
API int pthread_cond_clockwait(cond *c, mutex *m, clockid_t k, when x) {
    return do_pthread_cond_clockwait(c, m, k, x, CALLER);
}
#define SIGNAL(name, all)                                                                          \
    API int name(cond *c) {                                                                        \
        NEWEST(name);                                                                              \
        struct self *t = enter();                                                                  \
        if (TURNS(t)) {                                                                            \
            wake(c, all), turn(t), leave(t);                                                       \
            return 0;                                                                              \
        }                                                                                          \
        if (t)                                                                                     \
            leave(t);                                                                              \
        return real_##name(c);                                                                     \
    }
SIGNAL(pthread_cond_signal, 0)
SIGNAL(pthread_cond_broadcast, 1)
static int c11(int r) {
    return !r ? thrd_success : r == ETIMEDOUT ? thrd_timedout : thrd_error;
}
API int cnd_wait(cnd_t *c, mtx_t *m) {
    return c11(do_pthread_cond_wait((cond *)c, (mutex *)m, CALLER));
}
API int cnd_timedwait(cnd_t *c, mtx_t *m, when x) {
    return c11(do_pthread_cond_timedwait((cond *)c, (mutex *)m, x, CALLER));
}
API int cnd_signal(cnd_t *c) {
    return c11(pthread_cond_signal((cond *)c));
}
API int cnd_broadcast(cnd_t *c) {
    return c11(pthread_cond_broadcast((cond *)c));
}

// ---- semaphores: a post is a write, a wait that came through a read
API int sem_post(sem_t *m) {
    REAL(sem_post);
    note(SWR, M, CALLER);
    int r = real_sem_post(m);
    struct self *t = enter();
    if (TURNS(t))
        wake(m, 1), turn(t);
    if (t)
        leave(t);
    return r;
}
static void came_through(struct self *t, sem_t *m, int r, u64 code) {
    int e = errno;
    if (t && !r)
        sync_event(t, SRD, M, code);
    if (t)
        leave(t);
    errno = e;
}
static int take_by_turns(struct self *t, sem_t *m, u64 until, u64 code) {
    REAL(sem_trywait);
    int r;
    while ((r = real_sem_trywait(m)) && errno == EAGAIN)
        if (wait_turn(t, FOR_SEMAPHORE, m, until, code)) {
            int ends = cancelled(t);
            leave(t);
            if (ends)
                pthread_testcancel();
            t->busy = 1, errno = ETIMEDOUT;
            break;
        }
    return r;
}
#define SEM(name, parameters, arguments, until)                                                    \
    API int name parameters {                                                                      \
        REAL(name);                                                                                \
        struct self *t = enter();                                                                  \
        int r;                                                                                     \
        if (t)                                                                                     \
            note_wait(t, FOR_SEMAPHORE, M, CALLER);                                                \
        if (TURNS(t))                                                                              \
            r = take_by_turns(t, m, until, CALLER);                                                \
        else {                                                                                     \
            if (t)                                                                                 \
                leave(t);                                                                          \
            r = real_##name arguments;                                                             \
            t = t ? enter() : 0;                                                                   \
        }                                                                                          \
        came_through(t, m, r, CALLER);                                                             \
        return r;                                                                                  \
    }
SEM(sem_wait, (sem_t * m), (m), 0)
SEM(sem_timedwait, (sem_t * m, when x), (m, x), deadline(x, CLOCK_REALTIME))
SEM(sem_clockwait, (sem_t * m, clockid_t c, when x), (m, c, x), deadline(x, c))
API int sem_trywait(sem_t *m) {
    REAL(sem_trywait);
    struct self *t = enter();
    int r = real_sem_trywait(m);
    came_through(t, m, r, CALLER);
    return r;
}

// ---- barriers: who comes writes, who goes on reads. By turns they are counted here.
#define BARRIERS 1024
static struct barrier {
    void *at;
    unsigned need, have;
    u64 round;
} barriers[BARRIERS];
static int barrier_guard;
static struct barrier *barrier_of(void *m) {
    for (int i = 0; i < BARRIERS; i++)
        if (barriers[i].at == m)
            return &barriers[i];
    return 0;
}
static void put_barrier(void *m, void *to, unsigned need) {
    while (__atomic_exchange_n(&barrier_guard, 1, __ATOMIC_ACQUIRE)) {
    }
    struct barrier *b = barrier_of(m);
    if (!b && to)
        b = barrier_of(0);
    if (b)
        *b = (struct barrier){.at = to, .need = need};
    STORE(barrier_guard, 0);
}
API int pthread_barrier_init(pthread_barrier_t *m, const pthread_barrierattr_t *a, unsigned n) {
    REAL(pthread_barrier_init);
    int r = real_pthread_barrier_init(m, a, n);
    if (!r)
        put_barrier(m, m, n);
    return r;
}
API int pthread_barrier_destroy(pthread_barrier_t *m) {
    REAL(pthread_barrier_destroy);
    put_barrier(m, 0, 0);
    return real_pthread_barrier_destroy(m);
}
static int meet_by_turns(struct self *t, struct barrier *b, void *m, u64 code) {
    u64 round = b->round;
    if (++b->have == b->need) {
        b->have = 0, b->round++;
        wake(m, 1);
        return PTHREAD_BARRIER_SERIAL_THREAD;
    }
    while (b->round == round)
        wait_turn(t, FOR_BARRIER, m, 0, code);
    return 0;
}
API int pthread_barrier_wait(pthread_barrier_t *m) {
    REAL(pthread_barrier_wait);
    struct self *t = enter();
    struct barrier *b = barrier_of(m);
    int r;
    if (t)
        note_wait(t, FOR_BARRIER, M, CALLER), sync_event(t, SWR, M, CALLER);
    if (TURNS(t) && b)
        r = meet_by_turns(t, b, m, CALLER);
    else {
        if (t)
            leave(t);
        int left = mode == SERIAL ? leave_turns() : 0;
        r = real_pthread_barrier_wait(m);
        rejoin_turns(left);
        t = t ? enter() : 0;
    }
    if (t)
        sync_event(t, SRD, M, CALLER), leave(t);
    return r;
}

// ---- once: 0 not yet, 1 runs, 2 done. The one that runs writes, the others read. Statics of C++
// likewise, in the guard's bytes.
static int is_the_one(int *m, u64 code) {
    for (;;) {
        int none = 0;
        if (__atomic_compare_exchange_n(m, &none, 1, 0, __ATOMIC_SEQ_CST, __ATOMIC_SEQ_CST))
            return 1;
        struct self *t = enter();
        if (none == 2) {
            if (t)
                sync_event(t, SRD, M, code), leave(t);
            return 0;
        }
        if (TURNS(t))
            wait_turn(t, FOR_ONCE, m, 0, code);
        else
            futex(m, FUTEX_WAIT_PRIVATE, none, 0);
        if (t)
            leave(t);
    }
}
static void is_over(int *m, int state, u64 code) {
    note(SWR, M, code);
    STORE(*m, state);
    futex(m, FUTEX_WAKE_PRIVATE, 1 << 30, 0);
    if (on && mode == SERIAL)
        wake(m, 1);
}
struct once {
    int *at;
    u64 code;
    int done;
};
static void end_once(struct once *o) {
    is_over(o->at, o->done ? 2 : 0, o->code);
} // 0: it threw
static int once(int *m, void (*f)(void), u64 code) {
    if (!is_the_one(m, code))
        return 0;
    __attribute__((cleanup(end_once))) struct once o = {m, code, 0};
    f();
    o.done = 1;
    return 0;
}
API int pthread_once(pthread_once_t *m, void (*f)(void)) {
    return once((int *)m, f, CALLER);
}
API void call_once(once_flag *m, void (*f)(void)) {
    once((int *)m, f, CALLER);
}
static void guard_event(int kind, u64 *guard, u64 code) {
    struct self *t = enter();
    if (!t)
        return;
    struct line *l = &lines[line_of((u64)guard)];
    if (mode == SERIAL)
        stamp_alone(t);
    else
        take(t, l), stamp(t, l);
    event(t, kind, 1, (u64)guard, code);
    if (mode != SERIAL)
        give_back(t, l);
    leave(t);
}
// The compiler's own look at the guard, which found it not made: what counts is what comes of it.
static void take_back_look(const u64 *guard) {
    struct self *t = own;
    if (!on || !t || t->busy)
        return;
    int n = values ? 2 : 1;
    if (!t->next || t->end - t->next >= CHUNK - n)
        return;
    struct record *r = t->next - n;
    if ((r->what & 31) != ARD || r->what >> 16 != (u64)guard)
        return;
    while (t->next > r)
        (--t->next)->what = 0;
    t->last_at = 0;
}
API int __cxa_guard_acquire(u64 *guard) {
    take_back_look(guard);
    if (!LOAD(*(char *)guard) && is_the_one((int *)guard + 1, CALLER))
        return 1;
    guard_event(ARD, guard, CALLER);
    return 0;
}
API void __cxa_guard_release(u64 *guard) {
    guard_event(AWR, guard, CALLER);
    STORE(*(char *)guard, 1);
    is_over((int *)guard + 1, 2, CALLER);
}
API void __cxa_guard_abort(u64 *guard) {
    is_over((int *)guard + 1, 0, CALLER);
}

// ---- futexes of libraries that call the kernel themselves: GLib, Rust
static int is_wait(int operation) {
    return operation == FUTEX_WAIT || operation == FUTEX_WAIT_BITSET;
}
static long futex_by_turns(struct self *t, const long *a, u64 code) {
    const struct timespec *x = (const struct timespec *)a[3];
    int operation = a[1] & FUTEX_CMD_MASK, late = 0, same = LOAD(*(int *)a[0]) == (int)a[2];
    u64 until = 0;
    if (x && operation == FUTEX_WAIT)
        until = now() + x->tv_sec * 1000000000ull + x->tv_nsec + 1;
    else if (x)
        until = deadline(x, a[1] & FUTEX_CLOCK_REALTIME ? CLOCK_REALTIME : CLOCK_MONOTONIC);
    if (same)
        late = wait_turn(t, FOR_FUTEX, (void *)a[0], until, code);
    leave(t);
    if (same && !late)
        return 0;
    errno = same ? ETIMEDOUT : EAGAIN;
    return -1;
}
API long syscall(long n, ...) {
    long a[6];
    va_list l;
    va_start(l, n);
    for (int i = 0; i < 6; i++)
        a[i] = va_arg(l, long);
    va_end(l);
    if (n == SYS_close && is_kept(a[0])) {
        errno = EBADF;
        return -1;
    }
    if (n == SYS_close_range && own && !own->busy && (unsigned)a[0] <= (unsigned)a[1])
        return close_range(a[0], a[1], a[2]);
    int operation = a[1] & FUTEX_CMD_MASK;
    struct self *t = n == SYS_futex && own && own->busy ? 0 : n == SYS_futex ? enter() : 0;
    if (t) {
        if (is_wait(operation))
            note_wait(t, FOR_FUTEX, a[0], CALLER);
        if (TURNS(t) && is_wait(operation))
            return futex_by_turns(t, a, CALLER);
        if (TURNS(t) && (operation == FUTEX_WAKE || operation == FUTEX_WAKE_BITSET))
            wake((void *)a[0], a[2] > 1);
        leave(t);
    }
    int first = n == SYS_seccomp || n == SYS_prctl ? before_filter(n, a[0]) : 0;
    register long r10 __asm__("r10") = a[3], r8 __asm__("r8") = a[4], r9 __asm__("r9") = a[5];
    long r;
    __asm__ volatile("syscall"
                     : "=a"(r)
                     : "0"(n), "D"(a[0]), "S"(a[1]), "d"(a[2]), "r"(r10), "r"(r8), "r"(r9)
                     : "rcx", "r11", "memory");
    after_filter(first, r);
    if (r < 0 && r > -4096)
        return errno = -r, -1;
    return r;
}
