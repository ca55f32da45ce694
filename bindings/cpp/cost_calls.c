/* cost_calls: the round of cost.cpp by the calls alone, with a lock of their own. In C, since
 * velodrome.h and velodrome.hpp do not go into one file. */
#include "velodrome.h"
#include <pthread.h>

static pthread_mutex_t order = PTHREAD_MUTEX_INITIALIZER;
static velodrome *monitor;
#define IN_ORDER(call)                                                                             \
    do {                                                                                           \
        pthread_mutex_lock(&order);                                                                \
        call;                                                                                      \
        pthread_mutex_unlock(&order);                                                              \
    } while (0)

void calls_open(int threads) {
    velodrome_answer a;
    velodrome_limits limits = {64, 64, 64, 1 << 20, 4096}; /* as a session's */
    velodrome_open(&monitor, &limits);
    for (int i = 1; i < threads; i++)
        velodrome_fork(monitor, 0, (uint32_t)i, &a);
}

void calls_close(void) {
    velodrome_close(monitor);
}

void calls_round(int thread, int object, pthread_mutex_t *lock, int *x) {
    velodrome_answer a;
    int before;
    uint32_t t = (uint32_t)thread, o = (uint32_t)object;
    IN_ORDER(velodrome_begin(monitor, t, 1, &a));
    pthread_mutex_lock(lock);
    IN_ORDER(velodrome_acquire(monitor, t, o, &a));
    IN_ORDER(before = *x; velodrome_read(monitor, t, o, &a));
    IN_ORDER(*x = before + 1; velodrome_write(monitor, t, o, 0, &a));
    IN_ORDER(velodrome_release(monitor, t, o, &a));
    pthread_mutex_unlock(lock);
    IN_ORDER(velodrome_end(monitor, t, &a));
}
