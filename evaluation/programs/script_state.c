/* kind: atomicity
 * source: Lu, Park, Seo and Zhou, "Learning from Mistakes", ASPLOS 2008: the browser's script
 * state
 * function: compile
 * variable: current
 */
#include "scene.h"
#include <stdatomic.h>

MUTEX(guard);
static atomic_int current;
static atomic_int mixed;

static void compile(int script) {
#ifdef REPAIRED
    lock(&guard);
#endif
    atomic_store(&current, script); // first
    PAUSE();
    if (atomic_load(&current) != script) { // second
        atomic_store(&mixed, 1);
    }
#ifdef REPAIRED
    unlock(&guard);
#else
    (void)guard;
#endif
}

static void *page(void *unused) {
    for (int i = 0; i < ROUNDS; i++) {
        compile(1);
    }
    return unused;
}

static void *frame(void *unused) {
    for (int i = 0; i < ROUNDS; i++) {
        compile(2);
    }
    return unused;
}

int main(void) {
    BOTH(page, frame);
    return RESULT(!mixed);
}
