/* kind: right
 * source: Bonwick and Adams, "Magazines and Vmem", 2001: caches of threads, merged under the lock
 */
#include "scene.h"

MUTEX(guard);
static _Thread_local int cached;
static int total;

static void flush(void) {
    lock(&guard);
    total += cached;
    unlock(&guard);
    cached = 0;
}

static void add(void) {
    cached++;
    if (cached == 4) {
        PAUSE();
        flush();
    }
}

static void *worker(void *unused) {
    for (int i = 0; i < ROUNDS; i++) {
        add();
    }
    flush();
    return unused;
}

int main(void) {
    BOTH(worker, worker);
    return RESULT(total == 2 * ROUNDS);
}
