/* kind: right
 * source: Schmidt and Harrison, "Double-Checked Locking", 1996, with acquire and release
 */
#include "scene.h"
#include <stdatomic.h>

MUTEX(guard);
static _Atomic(int *) instance;
static int object;
static int made;

static int *get(void) {
    int *found = atomic_load_explicit(&instance, memory_order_acquire);
    if (found == NULL) {
        PAUSE();
        lock(&guard);
        found = atomic_load_explicit(&instance, memory_order_relaxed);
        if (found == NULL) {
            made++;
            object = 7;
            found = &object;
            atomic_store_explicit(&instance, found, memory_order_release);
        }
        unlock(&guard);
    }
    return found;
}

static void *user(void *unused) {
    if (*get() != 7) {
        made = -ROUNDS;
    }
    return unused;
}

int main(void) {
    for (int i = 0; i < ROUNDS; i++) {
        instance = NULL;
        BOTH(user, user);
    }
    return RESULT(made == ROUNDS);
}
