// The chunks of the trace. Once it is full it is a ring: the oldest chunk whose thread has left it
// makes way, so that the newest records stay.
#include "runtime.h"
#include <string.h>
#include <sys/mman.h>

#define LEAST 16               // chunks of a ring
#define LAST_STAMP 0xf0000000u // a stamp has 32 bits

static u8 *in_use; // of each chunk: its thread writes there
static u64 chunks; // that have room in `in_use`
static u64 ring;   // chunks of the ring; 0: the trace is not full
static u64 hand;   // how many chunks of the ring were looked at

int ring_open(u64 most) {
    ring_reset();
    most++; // none is no size
    in_use = mmap(0, most, PROT_READ | PROT_WRITE, MAP_PRIVATE | MAP_ANONYMOUS, -1, 0);
    if (in_use == MAP_FAILED)
        in_use = 0;
    chunks = in_use ? most : 0;
    return in_use != 0;
}
void ring_reset(void) { // also in a child of fork
    if (in_use && !sealed)
        munmap(in_use, chunks);
    in_use = 0;
    ring = hand = 0;
}

// ---- a trace that is not full
static int fits(u64 chunk, enum stop *why) {
    u64 end = (chunk + 1) * CHUNK;
    *why = end <= head->most ? NO_SPACE : FULL;
    return end <= head->most && has_room(HEAD_BYTES + end * sizeof(struct record));
}
static int take_fresh(u64 *chunk, enum stop *why) {
    *chunk = LOAD(head->chunks);
    do {
        if (!fits(*chunk, why))
            return 0;
    } while (!__atomic_compare_exchange_n(&head->chunks, chunk, *chunk + 1, 0, __ATOMIC_RELAXED,
                                          __ATOMIC_RELAXED));
    STORE(in_use[*chunk], 1);
    return 1;
}

// ---- a ring
static int begin_ring(enum stop why) {
    u64 none = 0, all = LOAD(head->chunks);
    if (all < LEAST) {
        trace_stop(why);
        return 0;
    }
    if (__atomic_compare_exchange_n(&ring, &none, all, 0, __ATOMIC_ACQ_REL, __ATOMIC_RELAXED) &&
        !sealed)
        say("%s: from here on its oldest records make way for the newest", reason_of(why));
    return 1;
}
static int has_stamp(const struct record *r) {
    switch (r->what & 31) {
    case 0:
    case BEGIN:
    case NAMED:
    case END:
    case MORE:
    case HIGH:
    case STATE:
        return 0;
    default:
        return 1;
    }
}
static void raise(u64 *most, u64 value) {
    u64 was = __atomic_load_n(most, __ATOMIC_RELAXED);
    while (was < value &&
           !__atomic_compare_exchange_n(most, &was, value, 0, __ATOMIC_RELEASE, __ATOMIC_RELAXED)) {
    }
}
// The stamp is told before the records go, in case that the program ends in between.
static void make_way(struct record *chunk) {
    struct record *last = chunk + CHUNK - 1;
    while (last > chunk && !has_stamp(last))
        last--;
    if (last > chunk)
        raise(&head->overwritten_until, last->where >> 32);
    __atomic_add_fetch(&head->overwritten, CHUNK, __ATOMIC_RELAXED);
    STORE(chunk->what, 0);
    memset(chunk + 1, 0, (CHUNK - 1) * sizeof *chunk);
}
static int take_oldest(u64 *chunk, u64 *round) {
    for (u64 tries = 0; tries < ring; tries++) {
        u64 n = __atomic_fetch_add(&hand, 1, __ATOMIC_RELAXED);
        u8 unused = 0;
        *chunk = n % ring, *round = 1 + n / ring;
        if (!__atomic_compare_exchange_n(&in_use[*chunk], &unused, 1, 0, __ATOMIC_ACQUIRE,
                                         __ATOMIC_RELAXED))
            continue;
        make_way(records + *chunk * CHUNK);
        return 1;
    }
    trace_stop(FULL);
    return 0;
}
int take_chunk(u64 *chunk, u64 *round) {
    enum stop why = FULL;
    if (__atomic_load_n(&tick, __ATOMIC_RELAXED) > LAST_STAMP) {
        trace_stop(TOO_LONG);
        return 0;
    }
    *round = 0;
    if (!LOAD(ring) && take_fresh(chunk, &why))
        return 1;
    return (LOAD(ring) || begin_ring(why)) && take_oldest(chunk, round);
}
// The thread writes no more to the chunk that it has.
void leave_chunk(struct self *t) {
    if (t->next)
        STORE(in_use[(t->end - CHUNK - records) / CHUNK], 0);
    t->next = t->end = 0;
}
