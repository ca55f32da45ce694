/* kind: deadlock
 * source: Havender, "Avoiding deadlock in multitasking systems", 1968: a wait for an end while a
 * lock is held
 * function: shut_down
 * variable: guard
 */
#include "scene.h"
#include <signal.h>

MUTEX(guard);
static int done;

static void stop(int signal) {
    (void)signal;
    _exit(DEADLOCK_STATUS);
}

static void work(void) {
    PAUSE();
    lock(&guard); // second
    done++;
    unlock(&guard);
}

static void *worker(void *unused) {
    work();
    return unused;
}

static void shut_down(pthread_t thread) {
#ifdef REPAIRED
    pthread_join(thread, NULL);
    lock(&guard);
#else
#ifndef PROVOKE
    usleep(20000);
#endif
    lock(&guard); // first
    pthread_join(thread, NULL);
#endif
    done++;
    unlock(&guard);
}

int main(void) {
    pthread_t thread;
    WATCH_FOR_DEADLOCK(stop);
    if (pthread_create(&thread, NULL, worker, NULL)) {
        abort();
    }
    shut_down(thread);
    return RESULT(done == 2);
}
