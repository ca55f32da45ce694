/* kind: atomicity
 * source: Goetz and others, "Java Concurrency in Practice", 2006, section 2.3: the factorizer's
 * two atomics
 * function: store
 * variable: result
 */
#include "scene.h"
#include <stdatomic.h>

MUTEX(guard);
static atomic_int input;
static atomic_int result;
static atomic_int torn;

static void store(int number) {
#ifdef REPAIRED
    lock(&guard);
#endif
    atomic_store(&input, number); // first
    PAUSE();
    atomic_store(&result, number * number); // second
#ifdef REPAIRED
    unlock(&guard);
#endif
}

static void load(void) {
    lock(&guard);
    int number = atomic_load(&input);
    if (atomic_load(&result) != number * number) {
        atomic_store(&torn, 1);
    }
    unlock(&guard);
}

static void *writer(void *unused) {
    for (int i = 0; i < ROUNDS; i++) {
        store(i + 2);
    }
    return unused;
}

static void *reader(void *unused) {
    for (int i = 0; i < ROUNDS; i++) {
        PAUSE();
        load();
    }
    return unused;
}

int main(void) {
    BOTH(writer, reader);
    return RESULT(!torn);
}
