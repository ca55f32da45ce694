// What the parts of the runtime share. README.md has the design.
#pragma once
#ifndef _GNU_SOURCE
#define _GNU_SOURCE
#endif
#include "trace.h"
#include <pthread.h>
#include <stddef.h>
#include <sys/types.h>
#include <time.h>

typedef uint8_t u8;
typedef uint32_t u32;
typedef uint64_t u64;

#define API __attribute__((visibility("default")))
#define LOAD(x) __atomic_load_n(&(x), __ATOMIC_ACQUIRE)
#define STORE(x, v) __atomic_store_n(&(x), v, __ATOMIC_RELEASE)
#define CALLER ((u64)__builtin_return_address(0))
#define FRAME ((u64)__builtin_frame_address(0))
#define likely(x) __builtin_expect(!!(x), 1)
#define unlikely(x) __builtin_expect(!!(x), 0)

// The function that stands behind ours.
#define REAL(f)                                                                                    \
    static __typeof__(f) *real_##f;                                                                \
    if (unlikely(!real_##f))                                                                       \
    real_##f = (__typeof__(f) *)next_function(#f)
void *next_function(const char *name);

// ---- a thread
#define DEEP 4096 // blocks that are followed
#define HELD 2    // lines that a small access may lie in
#define SAW 8     // values of atomics that a thread remembers
struct frame {
    u64 function, at, from;
    u64 base;             // its frame pointer, if it keeps one
    struct record *begun; // its BEGIN, once written
};
struct self {
    u32 id, clock;
    u8 begun;                  // it has its number
    u8 turns;                  // it is scheduled by turns
    int busy;                  // 1: in a hook. 2: its recording is over
    u32 high;                  // upper half of the code addresses in its stream
    struct record *next, *end; // room in its chunk
    // the last access
    u32 held[HELD]; // the lines that it holds, and how many of them
    int holds;
    int spans; // and of ranges
    struct span {
        u32 first, last;
    } span[4];
    struct record *unread; // its value is read at the next hook
    u64 unread_at;
    u8 unread_size;
    u64 last_at, last_epoch;
    u64 unnoted; // where the last access was a read that was left out as a repeat
    u8 last_size, last_kinds,
        alone; // alone: no other thread was at the line since this one's last time
    // blocks
    u64 epoch;       // moves at each event and block boundary
    int depth, told; // open blocks; those whose begins are written
    u64 allocates;   // operator new: who called it
    u64 stack_end;
    size_t stack_bytes;
    u64 routine, title[2];
    void *writes[64]; // reader-writer locks that it holds alone
    int nwrites;
    struct self *unused; // a list of those whose threads have ended
    struct {
        u64 at, value;
    } saw[SAW];               // what its atomics found or stored last, by address
    u64 swapped, swapped_to;  // its last exchange
    u64 chance, waited;       // of noise; ns that it waited by it
    u64 code_low, code_bytes; // of the module whose block began last
    struct frame frame[DEEP];
};
extern __thread struct self *own __attribute__((tls_model("initial-exec")));
extern struct self *adopt(void);
static inline struct self *self(void) {
    return likely(own != 0) ? own : adopt();
}

// ---- settings and counts
extern int on; // hooks do something
extern int mode, values;
extern struct head *head;
u64 setting(const char *name, u64 other);
void say(const char *format, ...) __attribute__((format(printf, 1, 2)));
#define COUNT(what) __atomic_add_fetch(&head->what, 1, __ATOMIC_RELAXED)

// ---- trace.c
int trace_open(void);
void trace_close(void);
void trace_leave(void); // in a child of fork
void trace_maps(void);
void trace_builds(void); // builds.c
void trace_stop(enum stop why);
const char *reason_of(enum stop why);
extern struct record *records;

// ---- room.c: the trace's file, and descriptors that the program does not see
enum keep { TRACE, MAPS, MAPPED, TASKS, KEEPS }; // the trace, its .maps, /proc/self/maps and task
extern char trace_path[];
extern u64 trace_bytes; // that are mapped
extern int sealed;      // a filter of system calls is there
void keep(enum keep k, int fd);
int kept_file(enum keep k); // its descriptor, or -1
void drop_kept(void);
int has_room(u64 bytes);                                             // makes it, if need be
long kernel(long n, long a, long b, long c, long d, long e, long f); // a call without a hook
void room_reset(void);
void room_trim(u64 used);
const char *no_room(void); // why there is none
int before_filter(long call, long what);
void after_filter(int was_first, long result);
long close_around(unsigned first, unsigned last, int flags);
int is_kept(int fd);
void pause_briefly(void);
void sleep_briefly(u64 nanoseconds);

// ring.c: the chunks of the trace
int ring_open(u64 chunks);
int take_chunk(u64 *chunk, u64 *round); // 0: the recording stops
void leave_chunk(struct self *t);
void ring_reset(void);

int open_chunk(struct self *t);
int tell_begins(struct self *t);
static inline struct record *write_record(struct self *t, u64 what, u64 where) {
    struct record *r = t->next++;
    r->where = where;
    STORE(r->what, what);
    return r;
}
static inline u64 word(int kind, unsigned size, u64 at) {
    return at << 16 | (u64)(kind >> 8) << 13 | (u64)size << 5 | (kind & 31);
}
// A record of the thread's stamp, with room for two MORE behind it. Flags stand above the kind's 8
// bits.
static inline struct record *record(struct self *t, int kind, unsigned size, u64 at, u64 code) {
    if (unlikely(t->end - t->next < 4) && !open_chunk(t))
        return 0;
    if (unlikely(code >> 32 != t->high)) {
        t->high = code >> 32;
        write_record(t, word(HIGH, 0, t->high), 0);
    }
    return write_record(t, word(kind, size, at), (u64)t->clock << 32 | (u32)code);
}
static inline void more(struct self *t, int flags, u64 number) {
    write_record(t, word(MORE | flags << 8, 0, 0), number);
}
// An event in the open blocks, whose begins are written first. Its stamp is taken already.
static inline struct record *event(struct self *t, int kind, unsigned size, u64 at, u64 code) {
    if (t->told < t->depth && !tell_begins(t))
        return 0;
    t->epoch++;
    return record(t, kind, size, at, code);
}
void sync_event(struct self *t, int kind, u64 at, u64 code);
void open_block(struct self *t, u64 function, u64 at, u64 from, u64 base);
void close_block(struct self *t, u64 at);
extern u32 memory_clock;

// ---- lines.c: a lock and a clock for each line of memory
#define LINES 65536
struct line {
    u32 owner, clock, last, wanted; // owner, last: a thread plus one
};
extern struct line *lines;
extern u32 tick;
int lines_open(void);
void lines_reset(void);
int take_slowly(struct self *t, struct line *l);
int hold_ranges(struct self *t, u64 a, u64 n, u64 b, u64 k);
void let_go(struct self *t);
void read_value(struct self *t);
void forget_lines(u64 a, u64 n);
static inline u32 line_of(u64 a) {
    return (a >> 6) % LINES;
}
// A stamp above all that the thread has seen; close to those that others give out at the time.
static inline void stamp_alone(struct self *t) {
    if (mode == SERIAL) {
        t->clock = __atomic_add_fetch(&tick, 1, __ATOMIC_RELAXED);
        return;
    }
    u32 c = t->clock, k = __atomic_load_n(&tick, __ATOMIC_RELAXED);
    if (k > c)
        c = k;
    else if (c - k > 64)
        __atomic_store_n(&tick, c, __ATOMIC_RELAXED);
    t->clock = c + 1;
}
// The same, of an event on a line that the thread holds.
static inline void stamp(struct self *t, struct line *l) {
    if (l->clock > t->clock)
        t->clock = l->clock;
    stamp_alone(t);
    l->clock = t->clock;
}
// Takes a line: 1 where its holder stayed away.
static inline int take(struct self *t, struct line *l) {
    u32 none = 0, me = t->id + 1;
    int late = 0;
    if (unlikely(!__atomic_compare_exchange_n(&l->owner, &none, me, 0, __ATOMIC_ACQUIRE,
                                              __ATOMIC_RELAXED)))
        late = take_slowly(t, l);
    t->alone = l->last == me;
    l->last = me;
    return late;
}
static inline void give_back(struct self *t, struct line *l) {
    if (likely(__atomic_load_n(&l->owner, __ATOMIC_RELAXED) == t->id + 1))
        STORE(l->owner, 0);
}

// ---- turns.c: the scheduler of serial mode
#define TURNS_MOST 4096
void turns_open(u64 seed);
void turns_watch(void);
void turns_reset(void);
void turn(struct self *t);
int wait_turn(struct self *t, enum wait what, const volatile void *at, u64 until,
              u64 code); // 1: its time is up
void wake(const volatile void *at, int all);
void rest(struct self *t, u64 nanoseconds, u64 code);
void yield_turn(struct self *t);
void turns_fork(u32 id);
void turns_unfork(u32 id);
void turns_begin(struct self *t);
void turns_end(struct self *t);
int turns_ended(u32 id);
const void *turns_key(u32 id); // what the joins of this thread wait for
void turns_cancel(u32 id);
int cancelled(struct self *t);
int leave_turns(void);
void rejoin_turns(int left);
int look_again(u64 until);
u64 draw(u64 *state);
u64 scramble(u64 seed);
long futex(const volatile int *at, int operation, int value, const struct timespec *t);
#define TURNS(t) (mode == SERIAL && (t) && (t)->turns)
#define TURNS_HERE (on && mode == SERIAL && own && own->turns && !own->busy)

// ---- clocks.c
u64 now(void); // by the program's clock
u64 real_now(void);
int real_clock(clockid_t clock, struct timespec *x);
u64 deadline(const struct timespec *t, clockid_t clock);
void pass_time(u64 nanoseconds);
void clocks_open(void);
void clocks_close(void);

// ---- noise.c, sites.c, threads.c
extern u64 noise;
void noise_open(u64 seed);
void make_noise(struct self *t);
extern u64 *sites;
int sites_open(const char *path);
int is_noted(u64 code);
void threads_open(void);
void begin_thread(struct self *t, u64 routine);
void hide_thread(void);
u32 thread_number(void);
struct self *new_self(u32 id); // busy with 2: it is not recorded
void take_tid(u32 id, u32 from);
u32 thread_of_tid(int tid); // plus one
int is_asleep(u32 id);

// ---- repeats
// Whether an access does what the thread's last event did, with no other thread at the line since:
// it has no edge that this one has not, whatever the blocks are.
static inline int repeats(const struct self *t, int reads, u64 a, unsigned size) {
    if (!t->alone || t->last_epoch != t->epoch || t->last_at != a || t->last_size != size)
        return 0;
    return t->last_kinds & (reads ? 3 : 2);
}
static inline void remember(struct self *t, int reads, u64 a, unsigned size) {
    int chained =
        t->alone && t->last_epoch + 1 == t->epoch && t->last_at == a && t->last_size == size;
    t->last_kinds = (chained ? t->last_kinds : 0) | (reads ? 1 : 2);
    t->last_at = a, t->last_size = size, t->last_epoch = t->epoch;
}

// ---- memory that is given back. What is done with it comes before what the next owner does.
static inline void raise_memory_clock(struct self *t) {
    u32 c = __atomic_load_n(&memory_clock, __ATOMIC_RELAXED);
    while (c < t->clock && !__atomic_compare_exchange_n(&memory_clock, &c, t->clock, 0,
                                                        __ATOMIC_RELEASE, __ATOMIC_RELAXED)) {
    }
}

// ---- hooks
// The thread's last access is done: its value is there, its lines are free.
static inline void settle(struct self *t) {
    if (unlikely(t->unread != 0))
        read_value(t);
    if (t->holds || t->spans)
        let_go(t);
}
// A hook begins: its thread, or 0 if there is nothing to do. What the thread holds, it holds still.
static inline struct self *enter_holding(void) {
    if (!likely(on))
        return 0;
    struct self *t = self();
    if (unlikely(t->busy)) {
        if (t->busy == 1)
            COUNT(lost);
        return 0;
    }
    t->busy = 1;
    return t;
}
static inline struct self *enter(void) {
    struct self *t = enter_holding();
    if (!t)
        return 0;
    settle(t);
    if (unlikely(noise))
        make_noise(t);
    if (mode == SERIAL)
        turn(t);
    return t;
}
static inline void leave(struct self *t) {
    t->busy = 0;
}
// Whether VELODROME_SITES leaves this access out.
static inline int left_out(u64 code) {
    if (likely(!sites) || !on || is_noted(code))
        return 0;
    struct self *t = self();
    if (!t->busy && mode == EXACT)
        settle(t);
    return 1;
}
void note(int kind, u64 at, u64 code);
void note_read(const void *at, size_t n, u64 code);
void note_write(void *at, size_t n, u64 code);
void note_done(void);
