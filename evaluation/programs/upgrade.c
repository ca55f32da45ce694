/* kind: deadlock
 * source: POSIX.1-2017, pthread_rwlock_wrlock: a reader that becomes a writer, and waits for its
 * turn among the writers
 * function: refresh
 * variable: table
 */
#include "scene.h"
#include <signal.h>

static pthread_rwlock_t table = PTHREAD_RWLOCK_INITIALIZER;
MUTEX(turn);
static int entries;

static void stop(int signal) {
    (void)signal;
    _exit(DEADLOCK_STATUS);
}

static void refresh(void) {
#ifdef REPAIRED
    pthread_rwlock_wrlock(&table);
    entries++;
    pthread_rwlock_unlock(&table);
    (void)turn;
#else
    pthread_rwlock_rdlock(&table); // first
    int now = entries;
    PAUSE();
    lock(&turn); // second
    entries = now + 1;
    unlock(&turn);
    pthread_rwlock_unlock(&table);
#endif
}

static void replace(void) {
#ifndef REPAIRED
    lock(&turn);
    PAUSE();
#endif
    pthread_rwlock_wrlock(&table);
    entries++;
    pthread_rwlock_unlock(&table);
#ifndef REPAIRED
    unlock(&turn);
#endif
}

static void *reader(void *unused) {
    refresh();
    return unused;
}

static void *writer(void *unused) {
    replace();
    return unused;
}

int main(void) {
    WATCH_FOR_DEADLOCK(stop);
    BOTH(reader, writer);
    return RESULT(entries == 2);
}
