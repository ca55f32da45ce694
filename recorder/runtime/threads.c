// Threads: their start, end, joins, names and cancellation.
#include "runtime.h"
#include <errno.h>
#include <fcntl.h>
#include <stdarg.h>
#include <stdio.h>
#include <stdlib.h>
#include <string.h>
#include <sys/mman.h>
#include <sys/prctl.h>
#include <sys/syscall.h>
#include <threads.h>
#include <unistd.h>

#define KNOWN 65536
__thread struct self *own;
static struct self nobody = {.busy = 2}; // of threads that are not recorded
static struct {
    pthread_t handle;
    struct self *self; // its memory is given to other threads, and never back
    int tid;
    u32 clock; // at its end
    u8 there, ended;
} known[KNOWN];
static u32 born;
static pthread_key_t last_key;

u32 thread_number(void) {
    return __atomic_fetch_add(&born, 1, __ATOMIC_SEQ_CST);
}
static struct self *unused;
static int unused_guard;
static struct self *take_unused(void) {
    while (__atomic_exchange_n(&unused_guard, 1, __ATOMIC_ACQUIRE))
        pause_briefly();
    struct self *t = unused;
    if (t)
        unused = t->unused;
    STORE(unused_guard, 0);
    if (t)
        memset(t, 0, offsetof(struct self, frame));
    return t ? t : mmap(0, sizeof *t, PROT_READ | PROT_WRITE, MAP_PRIVATE | MAP_ANONYMOUS, -1, 0);
}
static void give_unused(struct self *t) {
    while (__atomic_exchange_n(&unused_guard, 1, __ATOMIC_ACQUIRE))
        pause_briefly();
    t->unused = unused, unused = t;
    STORE(unused_guard, 0);
}
struct self *new_self(u32 id) {
    struct self *t = take_unused();
    if (t == MAP_FAILED) {
        static int told;
        if (!__atomic_exchange_n(&told, 1, __ATOMIC_RELAXED))
            say("no memory for another thread: it is not recorded");
        COUNT(lost);
        return &nobody;
    }
    t->id = id, t->begun = 1;
    if (id < KNOWN)
        STORE(known[id].self, t);
    return t;
}
// A thread that came another way than by pthread_create.
struct self *adopt(void) {
    own = &nobody;
    struct self *t = new_self(thread_number());
    if (t == &nobody)
        return t;
    t->busy = 1;
    own = t;
    begin_thread(t, 0);
    pthread_setspecific(last_key, (void *)1);
    t->busy = 0;
    return t;
}
// A thread of the runtime's own.
void hide_thread(void) {
    own = &nobody;
}
static u32 find(pthread_t p) { // plus one
    for (u32 n = LOAD(born) < KNOWN ? LOAD(born) : KNOWN; n > 0; n--)
        if (known[n - 1].there && known[n - 1].handle == p)
            return n;
    return 0;
}
u32 thread_of_tid(int tid) { // plus one
    for (u32 n = LOAD(born) < KNOWN ? LOAD(born) : KNOWN; n > 0; n--)
        if (known[n - 1].tid == tid && !known[n - 1].ended)
            return n;
    return 0;
}
void take_tid(u32 id, u32 from) { // a fiber goes on where another one was
    if (id < KNOWN && from < KNOWN)
        known[id].tid = known[from].tid;
}
// Whether a thread sleeps in the kernel, outside of the runtime.
int is_asleep(u32 id) {
    char path[48], text[256], *end;
    struct self *t = id < KNOWN ? LOAD(known[id].self) : 0;
    int tid = t && !LOAD(t->busy) ? known[id].tid : 0;
    if (!tid || sealed)
        return 0;
    int e = errno, tasks = kept_file(TASKS);
    snprintf(path, sizeof path, "%d/stat", tid);
    int fd = tasks < 0 ? -1 : (int)syscall(SYS_openat, tasks, path, O_RDONLY | O_CLOEXEC, 0);
    ssize_t n = fd < 0 ? 0 : syscall(SYS_read, fd, text, sizeof text - 1);
    if (fd >= 0)
        syscall(SYS_close, fd);
    errno = e;
    text[n > 0 ? n : 0] = 0;
    end = strrchr(text, ')'); // behind its name
    return end && end[1] == ' ' && end[2] == 'S' && !LOAD(t->busy) && t->id == id;
}
static void know(u32 id, pthread_t p) {
    static int told;
    if (id < KNOWN)
        known[id].handle = p, STORE(known[id].there, 1);
    else if (!__atomic_exchange_n(&told, 1, __ATOMIC_RELAXED))
        say("more than %d threads: joins of later ones are not recorded", KNOWN);
}

// ---- start and end
// The owner of a lock that nobody else has: no system call.
static int own_tid(void) {
    pthread_mutex_t m = PTHREAD_MUTEX_INITIALIZER;
    REAL(pthread_mutex_lock);
    REAL(pthread_mutex_unlock);
    real_pthread_mutex_lock(&m);
    int tid = m.__data.__owner;
    real_pthread_mutex_unlock(&m);
    return tid;
}
static void find_stack(struct self *t, void **at, size_t *size) {
    pthread_attr_t a;
    if (sealed) { // the next question would be a system call: below the thread's own data
        *size = t->stack_bytes;
        *at = (char *)pthread_self() - t->stack_bytes;
    } else if (!pthread_getattr_np(pthread_self(), &a)) {
        pthread_attr_getstack(&a, at, size);
        pthread_attr_destroy(&a);
    }
}
void begin_thread(struct self *t, u64 routine) {
    void *at = 0;
    size_t size = 0;
    if (t->id < KNOWN)
        known[t->id].tid = own_tid();
    find_stack(t, &at, &size);
    t->stack_end = (u64)at + size, t->stack_bytes = size, t->routine = routine;
    if (LOAD(memory_clock) > t->clock)
        t->clock = memory_clock;
    stamp_alone(t);
    if (record(t, START, 0, (u64)at, routine))
        more(t, 0, size);
}
static void end_thread(struct self *t) {
    while (t->depth)
        close_block(t, FRAME);
    stamp_alone(t);
    event(t, EXIT, 0, 0, 0);
    if (t->id < KNOWN)
        known[t->id].clock = t->clock, STORE(known[t->id].ended, 1);
    raise_memory_clock(t);
    leave_chunk(t);
}
static void last_destructor(void *round) { // behind the program's own
    struct self *t = own;
    if ((uintptr_t)round < 3) {
        pthread_setspecific(last_key, (void *)((uintptr_t)round + 1));
        return;
    }
    if (!on || !t || t == &nobody || !enter())
        return;
    end_thread(t);
    t->busy = 2;
    turns_end(t);
    own = &nobody;
    give_unused(t);
}
struct work {
    void *(*routine)(void *);
    void *argument;
    u64 told; // the routine as the program named it
    u32 id, clock;
    size_t stack;
};
static size_t stack_of(const pthread_attr_t *a) {
    pthread_attr_t usual;
    size_t bytes = 0;
    if (a)
        pthread_attr_getstacksize(a, &bytes);
    else if (!pthread_getattr_default_np(&usual)) {
        pthread_attr_getstacksize(&usual, &bytes);
        pthread_attr_destroy(&usual);
    }
    return bytes;
}
static void *run(void *p) {
    struct work w = *(struct work *)p;
    own = &nobody;
    free(p);
    struct self *t = new_self(w.id);
    if (t == &nobody)
        return w.routine(w.argument);
    t->clock = w.clock, t->busy = 1;
    t->stack_bytes = w.stack;
    own = t;
    if (w.id < KNOWN)
        know(w.id, pthread_self());
    if (mode == SERIAL)
        turns_begin(t);
    if (on)
        begin_thread(t, w.told);
    pthread_setspecific(last_key, (void *)1);
    t->busy = 0;
    return w.routine(w.argument);
}
static int create(pthread_t *p, const pthread_attr_t *a, void *(*routine)(void *), void *argument,
                  u64 told, u64 code) {
    REAL(pthread_create);
    struct self *t = enter();
    struct work *w = t ? malloc(sizeof *w) : 0;
    if (!w) {
        if (t)
            leave(t);
        return real_pthread_create(p, a, routine, argument);
    }
    u32 id = thread_number();
    stamp_alone(t);
    event(t, FORK, 0, id, code);
    *w = (struct work){routine, argument, told, id, t->clock, stack_of(a)};
    if (mode == SERIAL)
        turns_fork(id);
    int r = real_pthread_create(p, a, run, w);
    if (!r)
        know(id, *p);
    else
        turns_unfork(id), free(w);
    if (mode == SERIAL)
        turn(t);
    leave(t);
    return r;
}
void threads_start(void);
API int pthread_create(pthread_t *p, const pthread_attr_t *a, void *(*routine)(void *),
                       void *argument) {
    threads_start();
    return create(p, a, routine, argument, (u64)routine, CALLER);
}

// ---- joins
static int begin_join(pthread_t p, u32 *n, u64 until, u64 code) { // 1: its time is up
    struct self *t = enter();
    int over = 0;
    *n = 0;
    if (!t)
        return 0;
    *n = find(p);
    stamp_alone(t);
    event(t, WAIT, FOR_THREAD, *n, code);
    if (TURNS(t) && *n)
        while (!turns_ended(*n - 1) && !over)
            over = wait_turn(t, FOR_THREAD, turns_key(*n - 1), until, code);
    int ends = over && cancelled(t);
    leave(t);
    if (ends)
        pthread_testcancel();
    return over;
}
static void end_join(u32 n, u64 code) {
    struct self *t = n ? enter() : 0;
    if (!t)
        return;
    known[n - 1].there = 0;
    if (known[n - 1].clock > t->clock)
        t->clock = known[n - 1].clock;
    stamp_alone(t);
    event(t, JOIN, 0, n - 1, code);
    leave(t);
}
// By turns the thread has ended, and is about to exit: the turn is kept meanwhile.
static int hold_turn(u32 n) {
    int holds = n && TURNS_HERE;
    if (holds)
        own->busy = 1;
    return holds;
}
static void end_hold(int holds) {
    if (holds)
        own->busy = 0;
}
#define JOIN_BY(name, parameters, arguments, until)                                                \
    API int name parameters {                                                                      \
        REAL(name);                                                                                \
        u32 n;                                                                                     \
        if (begin_join(p, &n, until, CALLER))                                                      \
            return ETIMEDOUT;                                                                      \
        int left = mode == SERIAL && !n ? leave_turns() : 0;                                       \
        int holds = hold_turn(n);                                                                  \
        int r = real_##name arguments;                                                             \
        end_hold(holds);                                                                           \
        rejoin_turns(left);                                                                        \
        if (!r)                                                                                    \
            end_join(n, CALLER);                                                                   \
        return r;                                                                                  \
    }
JOIN_BY(pthread_join, (pthread_t p, void **value), (p, value), 0)
JOIN_BY(pthread_timedjoin_np, (pthread_t p, void **value, const struct timespec *x), (p, value, x),
        deadline(x, CLOCK_REALTIME))
JOIN_BY(pthread_clockjoin_np, (pthread_t p, void **value, clockid_t c, const struct timespec *x),
        (p, value, c, x), deadline(x, c))
API int pthread_tryjoin_np(pthread_t p, void **value) {
    REAL(pthread_tryjoin_np);
    u32 n = on ? find(p) : 0;
    int r = real_pthread_tryjoin_np(p, value);
    if (!r)
        end_join(n, CALLER);
    return r;
}
API int pthread_cancel(pthread_t p) {
    REAL(pthread_cancel);
    u32 n = on && mode == SERIAL ? find(p) : 0;
    int r = real_pthread_cancel(p);
    if (n)
        turns_cancel(n - 1);
    return r;
}

// ---- names
static void title(u32 n, const char *name, u64 code) {
    struct self *t = n ? enter() : 0;
    u64 text[2] = {0, 0};
    if (!t)
        return;
    for (int i = 0; i < 15 && name[i]; i++)
        ((char *)text)[i] = name[i];
    struct self *of = n - 1 == t->id ? t : n - 1 < KNOWN ? LOAD(known[n - 1].self) : 0;
    if (of && of->id == n - 1)
        of->title[0] = text[0], of->title[1] = text[1];
    stamp_alone(t);
    if (record(t, TITLE, 0, n - 1, code))
        more(t, 0, text[0]), more(t, 0, text[1]);
    leave(t);
}
API int pthread_setname_np(pthread_t p, const char *name) {
    REAL(pthread_setname_np);
    int r = real_pthread_setname_np(p, name);
    if (!r && on)
        title(p == pthread_self() ? self()->id + 1 : find(p), name, CALLER);
    return r;
}
API int prctl(int what, ...) {
    va_list l;
    unsigned long a[4];
    va_start(l, what);
    for (int i = 0; i < 4; i++)
        a[i] = va_arg(l, unsigned long);
    va_end(l);
    int first = before_filter(SYS_prctl, what);
    int r = syscall(SYS_prctl, what, a[0], a[1], a[2], a[3]);
    after_filter(first, r);
    if (!r && what == PR_SET_NAME && on)
        title(self()->id + 1, (const char *)a[0], CALLER);
    return r;
}

// ---- C11
struct c11 {
    thrd_start_t routine;
    void *argument;
};
static void *run_c11(void *p) {
    struct c11 c = *(struct c11 *)p;
    free(p);
    return (void *)(intptr_t)c.routine(c.argument);
}
API int thrd_create(thrd_t *p, thrd_start_t routine, void *argument) {
    threads_start();
    struct c11 *c = malloc(sizeof *c);
    if (!c)
        return thrd_nomem;
    *c = (struct c11){routine, argument};
    int r = create(p, 0, run_c11, c, (u64)routine, CALLER);
    if (r)
        free(c);
    return !r ? thrd_success : r == ENOMEM || r == EAGAIN ? thrd_nomem : thrd_error;
}
API int thrd_join(thrd_t p, int *value) {
    REAL(pthread_join);
    u32 n;
    void *v = 0;
    begin_join(p, &n, 0, CALLER);
    int left = mode == SERIAL && !n ? leave_turns() : 0, holds = hold_turn(n);
    int r = real_pthread_join(p, &v);
    end_hold(holds);
    rejoin_turns(left);
    if (!r)
        end_join(n, CALLER);
    if (!r && value)
        *value = (int)(intptr_t)v;
    return r ? thrd_error : thrd_success;
}

// ---- the first thread, and the one of a fork's child
void threads_open(void) {
    static int made;
    if (!made++)
        pthread_key_create(&last_key, last_destructor);
    struct self *t = own && own != &nobody ? own : new_self(0);
    born = 1, own = t;
    memset(known, 0, sizeof known);
    known[0].self = t;
    t->id = 0, t->begun = 1, t->next = t->end = 0, t->unread = 0, t->holds = t->spans = 0,
    t->told = 0, t->clock = 0, t->turns = 0;
    t->high = 0, t->last_epoch = 0, t->code_low = t->code_bytes = 0;
    if (t != &nobody)
        t->busy = 0;
    know(0, pthread_self());
}
