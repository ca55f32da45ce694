// The hooks of accesses, of functions, and of the calls that copy and fill memory.
#include "runtime.h"
#include <string.h>

// ---- accesses
// Takes the lines of an access of up to 8 bytes: 1 where a holder stayed away.
static int hold(struct self *t, u64 a, unsigned size) {
    u32 i = line_of(a), j = line_of(a + size - 1);
    if (likely(i == j)) {
        t->held[t->holds++] = i;
        return take(t, &lines[i]);
    }
    t->held[0] = i < j ? i : j, t->held[1] = i < j ? j : i, t->holds = 2;
    int late = take(t, &lines[t->held[0]]), alone = t->alone;
    late |= take(t, &lines[t->held[1]]);
    t->alone &= alone;
    return late;
}
// By turns nobody else is there; only who was at the line last.
static void visit(struct self *t, u64 a, unsigned size) {
    struct line *l = &lines[line_of(a)], *k = &lines[line_of(a + size - 1)];
    t->alone = l->last == t->id + 1 && k->last == t->id + 1;
    l->last = k->last = t->id + 1;
}
static void stamp_held(struct self *t) {
    for (int i = 0; i < t->holds; i++)
        if (lines[t->held[i]].clock > t->clock)
            t->clock = lines[t->held[i]].clock;
    stamp_alone(t);
    for (int i = 0; i < t->holds; i++)
        lines[t->held[i]].clock = t->clock;
}
static void access_value(struct self *t, int kind, u64 a, unsigned size) {
    more(t, 0, 0);
    t->unread = t->next - 1, t->unread_at = a, t->unread_size = size;
    if (kind == RD)
        read_value(t); // nobody else changes it before the access
}
// The line that the thread holds still: nobody waits for it, and it is taken on for the next
// access.
static inline int keeps(const struct self *t, u64 a, unsigned size) {
    u32 i = line_of(a);
    return t->holds == 1 && !t->spans && t->held[0] == i && line_of(a + size - 1) == i &&
           !lines[i].wanted && lines[i].owner == t->id + 1;
}
// A read that was left out as a repeat counts if another thread came before the write that follows:
// the value may be carried over. Its stamp is that of the thread's last event.
static void note_unnoted(struct self *t, u64 a, unsigned size) {
    if (t->last_epoch == t->epoch && t->last_at == a && t->last_size == size)
        record(t, RD, size, a, t->unnoted);
}
static inline void access_stamped(struct self *t, int kind, u64 a, unsigned size, u64 code,
                                  int late) {
    if (!values && repeats(t, kind == RD, a, size)) {
        t->unnoted = kind == RD ? code : 0;
        return;
    }
    if (kind == WR && unlikely(t->unnoted != 0))
        note_unnoted(t, a, size);
    t->unnoted = 0;
    stamp_held(t);
    if (event(t, kind | (late ? LATE << 8 : 0), size, a, code) && values)
        access_value(t, kind, a, size);
    remember(t, kind == RD, a, size);
}
static inline void access_small(int kind, u64 a, unsigned size, u64 code) {
    if (left_out(code))
        return;
    struct self *t = enter_holding();
    if (!t)
        return;
    if (mode == EXACT && likely(!noise) && keeps(t, a, size)) {
        if (t->unread)
            read_value(t);
        t->alone = 1;
        access_stamped(t, kind, a, size, code, 0);
        leave(t);
        return;
    }
    settle(t);
    if (unlikely(noise))
        make_noise(t);
    if (mode == EXACT)
        access_stamped(t, kind, a, size, code, hold(t, a, size));
    else if (mode == SERIAL) {
        turn(t);
        visit(t, a, size);
        access_stamped(t, kind, a, size, code, 0);
    } else {
        stamp_alone(t);
        event(t, kind, size, a, code);
    }
    leave(t);
}
#define ACCESS(name, kind, size)                                                                   \
    API void __tsan_##name(void *a) {                                                              \
        access_small(kind, (u64)a, size, CALLER);                                                  \
    }
#define WIDE(name, kind)                                                                           \
    API void __tsan_##name(void *a) {                                                              \
        access_small(kind, (u64)a, 8, CALLER);                                                     \
        access_small(kind, (u64)a + 8, 8, CALLER);                                                 \
    }
#define BOTH(name, size)                                                                           \
    API void __tsan_##name(void *a) {                                                              \
        access_small(RD, (u64)a, size, CALLER);                                                    \
        access_small(WR, (u64)a, size, CALLER);                                                    \
    }
#define FORMS(prefix, size)                                                                        \
    ACCESS(prefix##read##size, RD, size)                                                           \
    ACCESS(prefix##write##size, WR, size)                                                          \
    BOTH(prefix##read_write##size, size)
#define SIZES(prefix)                                                                              \
    FORMS(prefix, 1)                                                                               \
    FORMS(prefix, 2)                                                                               \
    FORMS(prefix, 4)                                                                               \
    FORMS(prefix, 8)                                                                               \
    WIDE(prefix##read16, RD)                                                                       \
    WIDE(prefix##write16, WR)
SIZES()
SIZES(unaligned_)
SIZES(volatile_)
SIZES(unaligned_volatile_)
API void __tsan_vptr_read(void **a) {
    access_small(RD, (u64)a, 8, CALLER);
}
API void __tsan_vptr_update(void **a, void *v) {
    if (*a != v)
        access_small(WR, (u64)a, 8, CALLER);
}

// ---- ranges
static void access_ranges(struct self *t, u64 to, u64 from, u64 n, u64 code) {
    int late = 0;
    if (mode == EXACT)
        late = hold_ranges(t, to, to ? n : 0, from, from ? n : 0) ? LATE << 8 : 0;
    else
        stamp_alone(t);
    if (mode == SERIAL)
        forget_lines(to ? to : from, n);
    if (from && event(t, RDS | late, 0, from, code))
        more(t, 0, n);
    if (from && to)
        mode == SERIAL ? stamp_alone(t) : (void)t->clock++;
    if (to && event(t, WRS | late, 0, to, code))
        more(t, 0, n);
}
static void access_range(int kind, u64 a, u64 n, u64 code) {
    struct self *t;
    if (!n || left_out(code))
        return;
    if (n <= 8 && !(n & (n - 1))) {
        access_small(kind == RDS ? RD : WR, a, n, code);
        return;
    }
    if (!(t = enter()))
        return;
    access_ranges(t, kind == WRS ? a : 0, kind == RDS ? a : 0, n, code);
    leave(t);
}
void note_read(const void *a, size_t n, u64 code) {
    access_range(RDS, (u64)a, n, code);
}
void note_write(void *a, size_t n, u64 code) {
    access_range(WRS, (u64)a, n, code);
}
// A call that accessed memory is over.
void note_done(void) {
    struct self *t = own;
    if (on && t && !t->busy)
        settle(t);
}
API void __tsan_read_range(void *a, unsigned long n) {
    access_range(RDS, (u64)a, n, CALLER);
}
API void __tsan_write_range(void *a, unsigned long n) {
    access_range(WRS, (u64)a, n, CALLER);
}

static void note_copy(u64 to, u64 from, u64 n, u64 code) {
    struct self *t;
    if (!n || left_out(code) || !(t = enter()))
        return;
    access_ranges(t, to, from, n, code);
    leave(t);
}
static inline void move(void *d, const void *s, size_t n) {
    if ((u64)d - (u64)s >= n) {
        __asm__ volatile("rep movsb" : "+D"(d), "+S"(s), "+c"(n) : : "memory");
        return;
    }
    d = (char *)d + n - 1, s = (const char *)s + n - 1;
    __asm__ volatile("std; rep movsb; cld" : "+D"(d), "+S"(s), "+c"(n) : : "memory");
}
static inline void fill(void *d, int c, size_t n) {
    __asm__ volatile("rep stosb" : "+D"(d), "+c"(n) : "a"(c) : "memory");
}
#define COPY(name)                                                                                 \
    API void *name(void *d, const void *s, size_t n) {                                             \
        note_copy((u64)d, (u64)s, n, CALLER);                                                      \
        move(d, s, n);                                                                             \
        note_done();                                                                               \
        return d;                                                                                  \
    }
#define FILL(name)                                                                                 \
    API void *name(void *d, int c, size_t n) {                                                     \
        access_range(WRS, (u64)d, n, CALLER);                                                      \
        fill(d, c, n);                                                                             \
        note_done();                                                                               \
        return d;                                                                                  \
    }
COPY(memcpy)
COPY(memmove)
COPY(__tsan_memcpy)
COPY(__tsan_memmove)
FILL(memset)
FILL(__tsan_memset)

// ---- other events
// An event on an object that orders threads: its stamp comes from the clock of the object's
// line.
void sync_event(struct self *t, int kind, u64 at, u64 code) {
    struct line *l = &lines[line_of(at)];
    if (mode == SERIAL)
        stamp_alone(t);
    else
        take(t, l), stamp(t, l);
    event(t, kind, 0, at, code);
    if (mode != SERIAL)
        give_back(t, l);
}
void note(int kind, u64 at, u64 code) {
    struct self *t = enter();
    if (!t)
        return;
    sync_event(t, kind, at, code);
    leave(t);
}

// ---- blocks
void open_block(struct self *t, u64 function, u64 at, u64 from, u64 base) {
    if (t->depth < DEEP)
        t->frame[t->depth] = (struct frame){function, at, from, base, 0};
    t->depth++, t->epoch++;
}
static int kind_of(const struct record *r) {
    return r->what & 31;
}
static int same(const struct record *a, const struct record *b) {
    if (kind_of(a) == END)
        return kind_of(b) == END;
    return a->what == b->what &&
           (kind_of(a) == BEGIN ? a->where == b->where : (u32)a->where == (u32)b->where);
}
// A call that did one read and nothing else, after a call that did the same, with nothing in
// between: a loop that waits. It is taken back.
static int spun(struct self *t, struct record *begun) {
    long n = t->next - begun + 1, reads = 0;
    if (!t->alone || !begun || n < 2 || n > 16 || begun - n <= t->end - CHUNK || begun > t->next)
        return 0;
    for (long i = 0; i + 1 < n; i++) {
        int k = kind_of(&begun[i]);
        if (!same(&begun[i], &begun[i - n]))
            return 0;
        if (k == RD || k == ARD)
            reads++;
        else if (k != BEGIN && k != END)
            return 0;
    }
    if (reads != 1 || kind_of(&begun[-1]) != END)
        return 0;
    while (t->next > begun)
        (--t->next)->what = 0;
    return 1;
}
void close_block(struct self *t, u64 at) {
    if (!t->depth)
        return;
    t->depth--;
    if (t->depth < DEEP && t->told > t->depth) {
        if (values || mode == FREE || !spun(t, t->frame[t->depth].begun))
            record(t, END, 0, at, (u64)t->high << 32);
        t->told = t->depth; // until here it is open in the state of a new chunk
    }
    t->epoch++;
}
// Whether the frame ended without its hook, by longjmp. A frame far off is on another stack.
static int was_left(const struct frame *f, u64 at, int inclusive) {
    return f->at && (f->at < at || (inclusive && f->at == at)) && at - f->at < 8 << 20;
}
static inline struct self *boundary(void) {
    if (!likely(on))
        return 0;
    struct self *t = self();
    if (t->busy)
        return 0;
    if (mode != FREE)
        settle(t);
    return t;
}
API void __tsan_func_entry(void *caller) {
    struct self *t = boundary();
    if (!t)
        return;
    while (t->depth > 0 && t->depth <= DEEP && was_left(&t->frame[t->depth - 1], FRAME, 1))
        close_block(t, t->frame[t->depth - 1].at);
    open_block(t, CALLER, FRAME, (u64)caller, *(u64 *)FRAME);
}
API void __tsan_func_exit(void) {
    struct self *t = boundary();
    if (!t)
        return;
    while (t->depth > 1 && t->depth <= DEEP && was_left(&t->frame[t->depth - 1], FRAME, 0))
        close_block(t, t->frame[t->depth - 1].at);
    close_block(t, FRAME);
}
API void velodrome_atomic_begin(const char *name) {
    struct self *t = boundary();
    if (t)
        open_block(t, (u64)name, 0, CALLER, 0);
}
API void velodrome_atomic_end(void) {
    struct self *t = boundary();
    if (t)
        close_block(t, FRAME);
}
