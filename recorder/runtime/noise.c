// Noise: before one event in N, by the seed, a thread yields or waits, so that rare schedules come
// about.
#include "runtime.h"
#include <errno.h>
#include <unistd.h>

// In its first events a thread waits more often: the halves of a race at a start are few events
// apart, and the threads begin one after the other.
#define EARLY 64 // events and blocks
#define EARLY_NOISE 2
#define LONGEST 300000       // ns
#define MOST_COUNTED 1000000 // ns of one wait: what is longer is the machine's load
// How long a thread may have waited: so long for each of its first events and blocks, and twice
// what one costs to record for each of all. A long run takes at most some three times as long.
#define FIRST 5000
#define WAIT_OF_FIRST 60000 // ns
#define WAIT_OF_ALL 100     // ns
u64 noise;
static u64 noise_seed;
u64 draw(u64 *state) {
    *state ^= *state << 13, *state ^= *state >> 7, *state ^= *state << 17;
    return *state * 0x2545f4914f6cdd1dull >> 16;
}
u64 scramble(u64 seed) {
    u64 x = (seed + 1) * 0x9e3779b97f4a7c15ull;
    return x ? x : 1;
}
void noise_open(u64 seed) {
    noise = setting("VELODROME_NOISE", 0);
    noise_seed = seed;
}
static int may_wait(const struct self *t) {
    u64 first = t->epoch < FIRST ? t->epoch : FIRST;
    return t->waited <= (first + 1) * WAIT_OF_FIRST + t->epoch * WAIT_OF_ALL;
}
static void wait_a_little(struct self *t, int early) {
    u64 d = draw(&t->chance), began = real_now();
    if (d % (early ? 2 : 4))
        pause_briefly();
    else
        sleep_briefly((d >> 8) % LONGEST);
    u64 took = real_now() - began;
    t->waited += took < MOST_COUNTED ? took : MOST_COUNTED;
}
void make_noise(struct self *t) {
    if (!t->chance)
        t->chance = scramble(noise_seed * 0x10001 + t->id);
    int early = t->epoch < EARLY && noise > EARLY_NOISE;
    u64 d = draw(&t->chance);
    if (d % (early ? EARLY_NOISE : noise) || head->stopped)
        return;
    if (!TURNS(t) && !may_wait(t))
        return;
    COUNT(noise);
    int e = errno;
    if (TURNS(t))
        yield_turn(t);
    else
        wait_a_little(t, early);
    errno = e;
}
