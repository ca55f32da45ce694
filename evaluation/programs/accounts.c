/* kind: deadlock
 * source: Lea, "Concurrent Programming in Java", 2nd edition 1999: two cells that swap their
 * values
 * function: transfer
 * variable: guards
 */
#include "scene.h"
#include <signal.h>

static pthread_mutex_t guards[2] = {PTHREAD_MUTEX_INITIALIZER, PTHREAD_MUTEX_INITIALIZER};
static int balance[2] = {100, 100};

static void stop(int signal) {
    (void)signal;
    _exit(DEADLOCK_STATUS);
}

static void transfer(int from, int to) {
#ifdef REPAIRED
    int low = from < to ? from : to;
    int high = from + to - low;
#else
    int low = from;
    int high = to;
#endif
    lock(&guards[low]); // first
    PAUSE();
    lock(&guards[high]); // second
    balance[from]--;
    balance[to]++;
    unlock(&guards[high]);
    unlock(&guards[low]);
}

static void *there(void *unused) {
    transfer(0, 1);
    return unused;
}

static void *back(void *unused) {
    transfer(1, 0);
    return unused;
}

int main(void) {
    WATCH_FOR_DEADLOCK(stop);
    BOTH(there, back);
    return RESULT(balance[0] == 100);
}
