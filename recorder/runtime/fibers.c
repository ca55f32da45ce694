// Fibers: of swapcontext, and of libraries that tell them as ThreadSanitizer wants it. Each is a
// thread of the log. A switch orders what is before it and what is after it, and its blocks wait.
// By turns, which are of threads, the recording stops.
#include "runtime.h"
#include <stdarg.h>
#include <stdlib.h>
#include <ucontext.h>

#define CONTEXTS 16384 // that are followed, a power of two
#define ARGUMENTS 8    // of a fiber's function
#define NO_SYNC 1      // of __tsan_switch_to_fiber

struct start {
    void (*function)(void);
    long argument[ARGUMENTS];
    ucontext_t *link;
    struct self *self;
};
static struct {
    const ucontext_t *at;
    struct self *self; // who goes on there
} contexts[CONTEXTS];
static int guard;

// A thread may be another one after a switch: its own place is looked for anew.
static __attribute__((noinline)) struct self *current(void) {
    return own;
}
static __attribute__((noinline)) void become(struct self *t) {
    own = t;
}

// ---- contexts
static struct self **find(const ucontext_t *at, int add) {
    u64 h = (u64)at * 0x9e3779b97f4a7c15ull >> 40;
    for (u64 i = 0; i < CONTEXTS; i++) {
        u64 k = (h + i) % CONTEXTS;
        if (contexts[k].at == at)
            return &contexts[k].self;
        if (contexts[k].at)
            continue;
        if (!add)
            return 0;
        contexts[k].at = at;
        return &contexts[k].self;
    }
    return 0;
}
static void lock(void) {
    while (__atomic_exchange_n(&guard, 1, __ATOMIC_ACQUIRE))
        pause_briefly();
}
static void set_context(const ucontext_t *at, struct self *t) {
    lock();
    struct self **s = find(at, 1);
    if (s)
        *s = t;
    STORE(guard, 0);
    if (!s)
        trace_stop(FIBERS);
}
static struct self *who_goes_on(const ucontext_t *at, struct self *otherwise) {
    lock();
    struct self **s = find(at, 0), *t = s ? *s : otherwise;
    STORE(guard, 0);
    return t;
}

// ---- switches
static struct self *new_fiber(struct self *t, u64 stack, u64 bytes, u64 routine, u64 code) {
    u32 id = thread_number();
    stamp_alone(t);
    event(t, FORK, 0, id, code);
    struct self *f = new_self(id);
    if (f->busy == 2)
        return f;
    f->clock = t->clock;
    f->stack_end = stack + bytes, f->stack_bytes = bytes, f->routine = routine;
    stamp_alone(f);
    if (record(f, START, 0, stack, routine))
        more(f, 0, bytes);
    return f;
}
// The caller is in a hook, and after this `next` is, which goes on. `last` is WAIT or EXIT.
static void hand_over(struct self *t, struct self *next, u64 at, int orders, int last, u64 code) {
    if (orders)
        sync_event(t, SWR, at, code);
    stamp_alone(t);
    event(t, last, FOR_TIME, at, code);
    leave(t);
    if (next->busy != 2) {
        next->busy = 1;
        take_tid(next->id, t->id);
    }
    become(next);
    if (orders && next->busy != 2)
        sync_event(next, SRD, at, code);
}
static int refuses(void) {
    if (mode != SERIAL)
        return 0;
    trace_stop(FIBERS);
    return 1;
}
static void end_switch(struct self *t) {
    if (t->busy == 1)
        leave(t);
}
static void run_fiber(unsigned low, unsigned high) {
    struct start *kept = (struct start *)((u64)high << 32 | low), s = *kept;
    free(kept);
    long *a = s.argument;
    ((void (*)(long, long, long, long, long, long, long, long))s.function)(a[0], a[1], a[2], a[3],
                                                                           a[4], a[5], a[6], a[7]);
    struct self *t = current();
    if (t != s.self || !s.link || !enter())
        return;
    while (t->depth)
        close_block(t, FRAME);
    struct self *next = who_goes_on(s.link, t);
    if (next != t) {
        hand_over(t, next, (u64)s.link, 1, EXIT, 0);
        leave_chunk(t);
        stamp_alone(next);
        event(next, JOIN, 0, t->id, 0);
    }
    end_switch(current());
}
API void makecontext(ucontext_t *c, void (*function)(void), int n, ...) {
    REAL(makecontext);
    struct start s = {.function = function, .link = c->uc_link};
    va_list l;
    va_start(l, n);
    for (int i = 0; i < n && i < ARGUMENTS; i++)
        s.argument[i] = va_arg(l, long);
    va_end(l);
    long *a = s.argument;
    struct self *t = n > ARGUMENTS || (on && refuses()) ? 0 : enter();
    struct start *kept = t ? malloc(sizeof *kept) : 0;
    if (!kept) {
        if (t)
            leave(t);
        real_makecontext(c, function, n, a[0], a[1], a[2], a[3], a[4], a[5], a[6], a[7]);
        return;
    }
    s.self = new_fiber(t, (u64)c->uc_stack.ss_sp, c->uc_stack.ss_size, (u64)function, CALLER);
    *kept = s;
    set_context(c, s.self);
    leave(t);
    real_makecontext(c, (void (*)(void))run_fiber, 2, (unsigned)(u64)kept,
                     (unsigned)((u64)kept >> 32));
}
API int swapcontext(ucontext_t *from, const ucontext_t *to) {
    REAL(swapcontext);
    struct self *t = mode == SERIAL ? 0 : enter();
    if (!t)
        return real_swapcontext(from, to);
    struct self *next = who_goes_on(to, t);
    set_context(from, t);
    hand_over(t, next, (u64)to, 1, WAIT, CALLER);
    end_switch(next);
    int r = real_swapcontext(from, to);
    if (r && current() != t)
        become(t);
    return r;
}
API int setcontext(const ucontext_t *to) {
    REAL(setcontext);
    struct self *t = mode == SERIAL ? 0 : enter();
    if (!t)
        return real_setcontext(to);
    struct self *next = who_goes_on(to, t);
    if (next != t)
        hand_over(t, next, (u64)to, 1, WAIT, CALLER);
    end_switch(next);
    return real_setcontext(to);
}

// ---- as ThreadSanitizer is told of them
API void *__tsan_get_current_fiber(void) {
    return on ? self() : 0;
}
API void *__tsan_create_fiber(unsigned flags) {
    (void)flags;
    struct self *t = on && refuses() ? 0 : enter();
    if (!t)
        return 0;
    struct self *f = new_fiber(t, 0, 0, 0, CALLER);
    leave(t);
    return f;
}
API void __tsan_switch_to_fiber(void *fiber, unsigned flags) {
    struct self *t = fiber && mode != SERIAL ? enter() : 0;
    if (!t)
        return;
    hand_over(t, fiber, (u64)fiber, !(flags & NO_SYNC), WAIT, CALLER);
    end_switch(current());
}
API void __tsan_destroy_fiber(void *fiber) {
    (void)fiber;
}
API void __tsan_set_fiber_name(void *fiber, const char *name) {
    (void)fiber;
    (void)name;
}
