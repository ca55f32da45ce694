/* kind: deadlock
 * source: Dijkstra, "Hierarchical ordering of sequential processes", 1971: the dining philosophers
 * function: dine
 * variable: forks
 */
#include "scene.h"
#include <signal.h>

enum { SEATS = 3 };
static pthread_mutex_t forks[SEATS] = {PTHREAD_MUTEX_INITIALIZER, PTHREAD_MUTEX_INITIALIZER,
                                       PTHREAD_MUTEX_INITIALIZER};
static int meals[SEATS];
static int seats[SEATS] = {0, 1, 2};

static void stop(int signal) {
    (void)signal;
    _exit(DEADLOCK_STATUS);
}

static void dine(int seat) {
    int left = seat;
    int right = (seat + 1) % SEATS;
#ifdef REPAIRED
    if (right < left) {
        right = left;
        left = 0;
    }
#endif
    lock(&forks[left]); // first
    PAUSE();
    lock(&forks[right]); // second
    meals[seat]++;
    unlock(&forks[right]);
    unlock(&forks[left]);
}

static void *philosopher(void *seat) {
    dine(*(int *)seat);
    return NULL;
}

int main(void) {
    pthread_t threads[SEATS];
    WATCH_FOR_DEADLOCK(stop);
    for (int i = 0; i < SEATS; i++) {
        if (pthread_create(&threads[i], NULL, philosopher, &seats[i])) {
            abort();
        }
    }
    for (int i = 0; i < SEATS; i++) {
        pthread_join(threads[i], NULL);
    }
    return RESULT(meals[0] + meals[1] + meals[2] == SEATS);
}
