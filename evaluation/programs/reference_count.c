/* kind: atomicity
 * source: Lu, Park, Seo and Zhou, "Learning from Mistakes", ASPLOS 2008: the web server's cache
 * object
 * function: drop
 * variable: count
 */
#include "scene.h"
#include <stdatomic.h>

static atomic_int count;
static atomic_int freed;

static void drop(void) {
#ifdef REPAIRED
    if (atomic_fetch_sub(&count, 1) == 1) {
        atomic_fetch_add(&freed, 1);
    }
#else
    atomic_fetch_sub(&count, 1); // first
    PAUSE();
    if (atomic_load(&count) == 0) { // second
        atomic_fetch_add(&freed, 1);
    }
#endif
}

static void *user(void *unused) {
    drop();
    return unused;
}

int main(void) {
    for (int i = 0; i < ROUNDS; i++) {
        count = 2;
        BOTH(user, user);
    }
    return RESULT(freed == ROUNDS);
}
