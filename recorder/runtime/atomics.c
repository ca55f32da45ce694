// Atomics: the runtime does them, with their line held, so that their order and values are right in
// every mode. A read-modify-write is a read and a write.
#include "runtime.h"

static inline struct self *begin_atomic(u64 a) {
    struct self *t = enter();
    if (t && mode != SERIAL)
        take(t, &lines[line_of(a)]);
    return t;
}
static void tell(struct self *t, int kind, u64 a, unsigned size, u64 code, u64 value) {
    int plain = kind & 31;
    if (mode != FREE && !values && repeats(t, plain == ARD, a, size))
        return;
    if (mode == SERIAL)
        stamp_alone(t);
    else
        stamp(t, &lines[line_of(a)]);
    if (event(t, kind, size, a, code) && values)
        more(t, VALUED, value);
    remember(t, plain == ARD, a, size);
}
// By turns nobody else is there; only who was at the line last.
static void visit(struct self *t, u64 a) {
    struct line *l = &lines[line_of(a)];
    t->alone = l->last == t->id + 1;
    l->last = t->id + 1;
}
static void end_atomic(struct self *t, u64 a) {
    if (mode != SERIAL)
        give_back(t, &lines[line_of(a)]);
    leave(t);
}
static void see(struct self *t, u64 a, u64 value) {
    t->saw[a / 8 % SAW].at = a;
    t->saw[a / 8 % SAW].value = value;
}
static int has_seen(const struct self *t, u64 a, u64 value) {
    return t->saw[a / 8 % SAW].at == a && t->saw[a / 8 % SAW].value == value;
}
static inline void one(struct self *t, int kind, u64 a, unsigned size, u64 code, u64 value) {
    if (!t)
        return;
    if (mode == SERIAL)
        visit(t, a);
    tell(t, kind, a, size, code, value);
    see(t, a, value);
    end_atomic(t, a);
}
// One that changes nothing is a read.
static inline void two(struct self *t, int read, int write, u64 a, unsigned size, u64 code, u64 old,
                       u64 new) {
    if (!t)
        return;
    if (mode == SERIAL)
        visit(t, a);
    tell(t, read, a, size, code, old);
    t->alone = 1;
    if (old != new || size > 8)
        tell(t, write | CHANGES << 8, a, size, code, new);
    see(t, a, new);
    end_atomic(t, a);
}
static int again(struct self *t, u64 a, u64 value) {
    if (!t)
        return AWR;
    int same = t->swapped == a && t->swapped_to == value;
    t->swapped = a;
    t->swapped_to = value;
    return same ? AWR | AGAIN << 8 : AWR;
}
// The read of a compare-and-swap.
static int compared(const struct self *t, u64 a, u64 expected, int done) {
    int seen = t && has_seen(t, a, expected);
    return ARD | (TRIED | (seen ? EXPECTED : 0) | (done ? 0 : MISSED)) << 8;
}

typedef unsigned __int128 u128;
#define PLAIN(bits, U)                                                                             \
    static inline U load##bits(volatile U *a) {                                                    \
        return __atomic_load_n(a, __ATOMIC_SEQ_CST);                                               \
    }                                                                                              \
    static inline int swap##bits(volatile U *a, U *e, U v) {                                       \
        return __atomic_compare_exchange_n(a, e, v, 0, __ATOMIC_SEQ_CST, __ATOMIC_SEQ_CST);        \
    }
PLAIN(8, u8)
PLAIN(16, uint16_t)
PLAIN(32, u32)
PLAIN(64, u64)
static inline u128 load128(volatile u128 *a) {
    return __sync_val_compare_and_swap(a, 0, 0);
}
static inline int swap128(volatile u128 *a, u128 *e, u128 v) {
    u128 old = __sync_val_compare_and_swap(a, *e, v);
    int done = old == *e;
    *e = old;
    return done;
}
#define A ((u64)a)
#define CHANGE(bits, U, name, new_value, written)                                                  \
    API U __tsan_atomic##bits##_##name(volatile U *a, U v, int order) {                            \
        (void)order;                                                                               \
        struct self *t = begin_atomic(A);                                                          \
        U old = load##bits(a), new;                                                                \
        do                                                                                         \
            new = (U)(new_value);                                                                  \
        while (!swap##bits(a, &old, new));                                                         \
        two(t, ARD, written, A, bits / 8, CALLER, (u64)old, (u64) new);                            \
        return old;                                                                                \
    }
#define EXCHANGE(bits, U, a, e, v)                                                                 \
    struct self *t = begin_atomic(A);                                                              \
    U old = *(e);                                                                                  \
    int done = swap##bits(a, &old, v);                                                             \
    int read = compared(t, A, (u64) * (e), done);                                                  \
    if (done)                                                                                      \
        two(t, read, AWR, A, bits / 8, CALLER, (u64)old, (u64)v);                                  \
    else                                                                                           \
        one(t, read, A, bits / 8, CALLER, (u64)old);                                               \
    (void)order, (void)failure
#define SWAP(bits, U, name)                                                                        \
    API int __tsan_atomic##bits##_compare_exchange_##name(volatile U *a, U *e, U v, int order,     \
                                                          int failure) {                           \
        EXCHANGE(bits, U, a, e, v);                                                                \
        *e = old;                                                                                  \
        return done;                                                                               \
    }
#define ATOMICS(bits, U)                                                                           \
    API U __tsan_atomic##bits##_load(const volatile U *a, int order) {                             \
        (void)order;                                                                               \
        struct self *t = begin_atomic(A);                                                          \
        U v = load##bits((volatile U *)a);                                                         \
        one(t, ARD, A, bits / 8, CALLER, (u64)v);                                                  \
        return v;                                                                                  \
    }                                                                                              \
    API void __tsan_atomic##bits##_store(volatile U *a, U v, int order) {                          \
        (void)order;                                                                               \
        struct self *t = begin_atomic(A);                                                          \
        U old = load##bits(a);                                                                     \
        while (!swap##bits(a, &old, v)) {                                                          \
        }                                                                                          \
        one(t, AWR, A, bits / 8, CALLER, (u64)v);                                                  \
    }                                                                                              \
    CHANGE(bits, U, exchange, v, again(t, A, (u64)v))                                              \
    CHANGE(bits, U, fetch_add, old + v, AWR)                                                       \
    CHANGE(bits, U, fetch_sub, old - v, AWR)                                                       \
    CHANGE(bits, U, fetch_and, old &v, AWR)                                                        \
    CHANGE(bits, U, fetch_or, old | v, AWR)                                                        \
    CHANGE(bits, U, fetch_xor, old ^ v, AWR)                                                       \
    CHANGE(bits, U, fetch_nand, ~(old & v), AWR)                                                   \
    SWAP(bits, U, strong)                                                                          \
    SWAP(bits, U, weak)                                                                            \
    API U __tsan_atomic##bits##_compare_exchange_val(volatile U *a, U e, U v, int order,           \
                                                     int failure) {                                \
        EXCHANGE(bits, U, a, &e, v);                                                               \
        return old;                                                                                \
    }
ATOMICS(8, u8)
ATOMICS(16, uint16_t)
ATOMICS(32, u32)
ATOMICS(64, u64)
ATOMICS(128, u128)

API void __tsan_atomic_thread_fence(int order) {
    (void)order;
    __atomic_thread_fence(__ATOMIC_SEQ_CST);
}
API void __tsan_atomic_signal_fence(int order) {
    (void)order;
}
API void __tsan_ignore_thread_begin(void) {}
API void __tsan_ignore_thread_end(void) {}
API void __tsan_acquire(void *a) {
    note(SRD, (u64)a, CALLER);
}
API void __tsan_release(void *a) {
    note(SWR, (u64)a, CALLER);
}
