/* Four threads that race on variables of all sizes, plainly and by atomics. */
#include <pthread.h>
#include <stdatomic.h>
#include <stdlib.h>
#include <string.h>

static int whole[4];
static char bytes[8];
static long long wide;
static short halves[4];
static _Alignas(64) struct __attribute__((packed)) {
    char before[61];
    long across;
} split;
static atomic_int counter;
static atomic_long turns;
static char block[300], copy[300];

static unsigned next(unsigned *seed) {
    return *seed = *seed * 1103515245 + 12345, *seed >> 16;
}
static void act(unsigned *seed) {
    unsigned r = next(seed);
    switch (r % 12) {
    case 0:
    case 1:
        whole[r / 12 % 4]++;
        break;
    case 2:
    case 3:
        bytes[r / 12 % 8] += 3;
        break;
    case 4:
        wide += r;
        break;
    case 5:
        halves[r / 12 % 4] ^= 5;
        break;
    case 6:
        *(long *)bytes = wide;
        break;
    case 7:
        split.across++;
        break;
    case 8:
        counter++;
        break;
    case 9: {
        long e = turns;
        atomic_compare_exchange_weak(&turns, &e, e + 1);
        break;
    }
    case 10:
        if (r % 5 == 0)
            memset(block + r % 200, r, 100);
        else
            memcpy(copy, block, 300);
        break;
    default:
        atomic_exchange(&counter, whole[0]);
        break;
    }
}
static int rounds;
static void *work(void *a) {
    unsigned seed = (unsigned)(long)a;
    for (int i = 0; i < rounds; i++)
        act(&seed);
    return a;
}
int main(int n, char **v) {
    pthread_t t[4];
    rounds = n > 1 ? atoi(v[1]) : 3000;
    for (long i = 0; i < 4; i++)
        pthread_create(&t[i], 0, work, (void *)(i + 1));
    for (int i = 0; i < 4; i++)
        pthread_join(t[i], 0);
    return 0;
}
