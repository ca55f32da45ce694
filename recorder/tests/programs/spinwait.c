// The first thread waits in a loop for one that sleeps a millisecond first; and a sleep and a
// timeout take the time that the clock then says.
#include <errno.h>
#include <pthread.h>
#include <sched.h>
#include <stdatomic.h>
#include <stdio.h>
#include <time.h>
#include <unistd.h>

static atomic_int ready;

static void *sleeper(void *a) {
    usleep(1000);
    atomic_store(&ready, 1);
    return a;
}
static long clock_now(void) {
    struct timespec t;
    clock_gettime(CLOCK_MONOTONIC, &t);
    return t.tv_sec * 1000000 + t.tv_nsec / 1000;
}
static int sleep_is_told(void) {
    long before = clock_now();
    usleep(50000);
    return clock_now() - before >= 50000;
}
static int timeout_is_told(void) {
    static pthread_mutex_t m = PTHREAD_MUTEX_INITIALIZER;
    static pthread_cond_t c = PTHREAD_COND_INITIALIZER;
    struct timespec end;
    clock_gettime(CLOCK_REALTIME, &end);
    end.tv_sec += 2;
    long before = clock_now();
    pthread_mutex_lock(&m);
    int r = pthread_cond_timedwait(&c, &m, &end);
    pthread_mutex_unlock(&m);
    return r == ETIMEDOUT && clock_now() - before >= 1900000;
}
int main(int n, char **how) {
    (void)how;
    pthread_t t;
    pthread_create(&t, 0, sleeper, 0);
    while (!atomic_load(&ready))
        if (n > 1)
            sched_yield();
    pthread_join(t, 0);
    puts(sleep_is_told() && timeout_is_told() ? "well" : "badly");
    return 0;
}
