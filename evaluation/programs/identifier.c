/* kind: atomicity
 * source: Goetz and others, "Java Concurrency in Practice", 2006, section 1.3.1: the unsafe
 * sequence
 * function: next
 * variable: last
 */
#include "scene.h"
#include <stdatomic.h>

static atomic_int last;

static int next(void) {
#ifdef REPAIRED
    return atomic_fetch_add(&last, 1) + 1;
#else
    int now = atomic_load(&last) + 1; // first
    PAUSE();
    atomic_store(&last, now); // second
    return now;
#endif
}

static void *caller(void *unused) {
    for (int i = 0; i < ROUNDS; i++) {
        (void)next();
    }
    return unused;
}

int main(void) {
    BOTH(caller, caller);
    return RESULT(last == 2 * ROUNDS);
}
