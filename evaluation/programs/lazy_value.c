/* kind: atomicity
 * source: Goetz and others, "Java Concurrency in Practice", 2006, section 2.2.2: lazy
 * initialisation
 * function: get
 * variable: value
 */
#include "scene.h"
#include <stdatomic.h>

MUTEX(guard);
static atomic_int value;
static atomic_int made;

static int make(void) {
    return atomic_fetch_add(&made, 1) + 1;
}

static int get(void) {
#ifdef REPAIRED
    lock(&guard);
#endif
    if (atomic_load(&value) == 0) { // first
        PAUSE();
        atomic_store(&value, make()); // second
    }
    int result = atomic_load(&value);
#ifdef REPAIRED
    unlock(&guard);
#else
    (void)guard;
#endif
    return result;
}

static void *user(void *unused) {
    (void)get();
    return unused;
}

int main(void) {
    for (int i = 0; i < ROUNDS; i++) {
        value = 0;
        BOTH(user, user);
    }
    return RESULT(made == ROUNDS);
}
