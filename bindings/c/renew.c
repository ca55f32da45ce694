/* renew [RUNS [SEED]]: two handles are told the same random run; one of them goes on in a new log
 * whenever it can and chance says so. They answer alike: each status, value and alarm, and at the
 * alarm the blocks to blame. The lengths of the logs differ. */
#include "velodrome.h"
#include <stdio.h>
#include <stdlib.h>
enum { THREADS = 4, VARIABLES = 3, LOCKS = 2 };

static uint64_t state;
static uint32_t draw(uint32_t n) {
    state ^= state << 13;
    state ^= state >> 7;
    state ^= state << 17;
    return (uint32_t)((state * 0x2545f4914f6cdd1dull >> 32) % n);
}

typedef struct event {
    uint32_t kind, thread, operand;
    uint64_t value;
} event;

static velodrome_status tell(velodrome *m, event e, velodrome_answer *a) {
    switch (e.kind) {
    case 0:
    case 1:
        return velodrome_read(m, e.thread, e.operand % VARIABLES, a);
    case 2:
        return velodrome_write(m, e.thread, e.operand % VARIABLES, e.value, a);
    case 3:
        return velodrome_acquire(m, e.thread, e.operand % LOCKS, a);
    case 4:
        return velodrome_release(m, e.thread, e.operand % LOCKS, a);
    case 5:
        return velodrome_acquire_shared(m, e.thread, e.operand % LOCKS, a);
    case 6:
        return velodrome_release_shared(m, e.thread, e.operand % LOCKS, a);
    case 7:
        return velodrome_begin(m, e.thread, e.operand, a);
    case 8:
    case 9:
        return velodrome_end(m, e.thread, a);
    case 10:
        return velodrome_fork(m, e.thread, e.operand % THREADS, a);
    case 11:
        return velodrome_exit(m, e.thread, a);
    default:
        return velodrome_join(m, e.thread, e.operand % THREADS, a);
    }
}

/* The same blocks are to blame; each begins as much earlier as the logs differ. */
static bool blame_alike(velodrome *whole, velodrome *cut, uint64_t later) {
    velodrome_block a[VELODROME_MAX_BLAMED], b[VELODROME_MAX_BLAMED];
    size_t n, m;
    velodrome_blamed(whole, a, VELODROME_MAX_BLAMED, &n);
    velodrome_blamed(cut, b, VELODROME_MAX_BLAMED, &m);
    if (n != m)
        return false;
    for (size_t i = 0; i < n; i++)
        if (a[i].label != b[i].label || a[i].first != b[i].first + later)
            return false;
    return true;
}

static long cuts, alarms;

static bool one_run(void) {
    velodrome *whole, *cut;
    velodrome_limits limits = {THREADS, VARIABLES, LOCKS, 10000, 16};
    bool joined[THREADS] = {false}, alike = true, alarmed = false;
    if (velodrome_open(&whole, &limits) || velodrome_open(&cut, &limits))
        return false;
    for (uint32_t n = 30 + draw(200); n && alike && !alarmed; n--) {
        event e = {draw(13), draw(THREADS), draw(12), draw(3)};
        velodrome_answer a = {0, 0, false}, b = {0, 0, false};
        if (draw(4) == 0)
            cuts += velodrome_renew(cut) == VELODROME_DONE;
        if ((e.kind > 9 && joined[e.operand % THREADS]) || joined[e.thread])
            continue; /* one handle has forgotten it */
        if (e.kind == 11 && draw(4))
            continue;
        velodrome_status s = tell(whole, e, &a), t = tell(cut, e, &b);
        if (e.kind == 12 && !s)
            joined[e.operand % THREADS] = true;
        alarmed = a.alarmed;
        alike = s == t && a.value == b.value && a.alarmed == b.alarmed &&
                (!alarmed || blame_alike(whole, cut, a.position - b.position));
    }
    alarms += alarmed;
    velodrome_close(whole);
    velodrome_close(cut);
    return alike;
}

int main(int argc, char **argv) {
    long runs = argc > 1 ? atol(argv[1]) : 20000, differ = 0;
    state = argc > 2 ? strtoull(argv[2], NULL, 10) | 1 : 88172645463325252ull;
    for (long i = 0; i < runs; i++)
        differ += !one_run();
    printf("%ld runs, %ld times renewed, %ld with an alarm: %ld differ\n", runs, cuts, alarms,
           differ);
    return differ || !cuts || !alarms;
}
