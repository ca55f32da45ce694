/* kind: deadlock
 * source: Lu, Park, Seo and Zhou, "Learning from Mistakes", ASPLOS 2008: a signal before its wait
 * function: wait_ready
 * variable: ready
 */
#include "scene.h"
#include <signal.h>

MUTEX(guard);
static pthread_cond_t changed = PTHREAD_COND_INITIALIZER;
static int ready;

static void stop(int signal) {
    (void)signal;
    _exit(DEADLOCK_STATUS);
}

static void wait_ready(void) {
#ifdef REPAIRED
    lock(&guard);
    while (!ready) {
        pthread_cond_wait(&changed, &guard);
    }
    unlock(&guard);
#else
    lock(&guard);
    int now = ready; // first
    unlock(&guard);
    PAUSE();
    lock(&guard);
    if (!now) {
        pthread_cond_wait(&changed, &guard); // second
    }
    unlock(&guard);
#endif
}

static void set_ready(void) {
    lock(&guard);
    ready = 1;
    pthread_cond_signal(&changed);
    unlock(&guard);
}

static void *waiter(void *unused) {
    wait_ready();
    return unused;
}

static void *starter(void *unused) {
#ifdef PROVOKE
    usleep(5000);
#endif
    set_ready();
    return unused;
}

int main(void) {
    WATCH_FOR_DEADLOCK(stop);
    BOTH(waiter, starter);
    return RESULT(ready);
}
