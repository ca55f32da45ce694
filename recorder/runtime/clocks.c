// The clocks that the program sees. By turns time passes with them, and where all threads wait it
// passes at once: so a sleep takes the time that the clock then says, and the same seed sees the
// same times.
#include "runtime.h"
#include <sys/time.h>

#define CLOCKS 16
static struct timespec first[CLOCKS]; // what each clock showed at the start
static u64 passed;                    // since then, by turns

int real_clock(clockid_t clock, struct timespec *x) {
    REAL(clock_gettime);
    return real_clock_gettime(clock, x);
}
u64 real_now(void) {
    struct timespec t;
    real_clock(CLOCK_MONOTONIC, &t);
    return t.tv_sec * 1000000000ull + t.tv_nsec;
}
static int is_of_turns(clockid_t clock) {
    switch (clock) {
    case CLOCK_REALTIME:
    case CLOCK_REALTIME_COARSE:
    case CLOCK_MONOTONIC:
    case CLOCK_MONOTONIC_COARSE:
    case CLOCK_MONOTONIC_RAW:
    case CLOCK_BOOTTIME:
    case CLOCK_TAI:
        return mode == SERIAL && first[clock].tv_sec;
    default:
        return 0;
    }
}
static int show(clockid_t clock, struct timespec *x) {
    if (!is_of_turns(clock))
        return real_clock(clock, x);
    u64 n = first[clock].tv_nsec + LOAD(passed);
    x->tv_sec = first[clock].tv_sec + n / 1000000000;
    x->tv_nsec = n % 1000000000;
    return 0;
}
void clocks_open(void) {
    passed = 0;
    for (clockid_t c = 0; c < CLOCKS; c++)
        real_clock(c, &first[c]);
}
void clocks_close(void) { // in a child of fork
    for (clockid_t c = 0; c < CLOCKS; c++)
        first[c].tv_sec = 0;
}
void pass_time(u64 nanoseconds) {
    __atomic_add_fetch(&passed, nanoseconds, __ATOMIC_RELAXED);
}
u64 now(void) {
    struct timespec t;
    show(CLOCK_MONOTONIC, &t);
    return t.tv_sec * 1000000000ull + t.tv_nsec;
}
// When, by now(), a clock shows this time.
u64 deadline(const struct timespec *t, clockid_t clock) {
    struct timespec n;
    show(clock, &n);
    int64_t d = (t->tv_sec - n.tv_sec) * 1000000000ll + t->tv_nsec - n.tv_nsec;
    return now() + (d > 0 ? d : 0) + 1;
}

// ---- hooks. A look at a clock is a turn: a loop that looks lets time pass.
static int look(clockid_t clock, struct timespec *x) {
    struct self *t = TURNS_HERE && is_of_turns(clock) ? enter() : 0;
    if (!t)
        return real_clock(clock, x);
    int r = show(clock, x);
    leave(t);
    return r;
}
API int clock_gettime(clockid_t clock, struct timespec *x) {
    return look(clock, x);
}
API int gettimeofday(struct timeval *x, void *zone) {
    REAL(gettimeofday);
    struct timespec t;
    if (zone || !TURNS_HERE)
        return real_gettimeofday(x, zone);
    look(CLOCK_REALTIME, &t);
    x->tv_sec = t.tv_sec;
    x->tv_usec = t.tv_nsec / 1000;
    return 0;
}
API time_t time(time_t *x) {
    REAL(time);
    struct timespec t;
    if (!TURNS_HERE)
        return real_time(x);
    look(CLOCK_REALTIME, &t);
    if (x)
        *x = t.tv_sec;
    return t.tv_sec;
}
API int timespec_get(struct timespec *x, int base) {
    REAL(timespec_get);
    if (base != TIME_UTC || !TURNS_HERE)
        return real_timespec_get(x, base);
    look(CLOCK_REALTIME, x);
    return base;
}
