/* kind: right
 * source: Boehm and Adve, "Foundations of the C++ Concurrency Memory Model", PLDI 2008: a count
 * that frees once
 */
#include "scene.h"
#include <stdatomic.h>

static atomic_int count;
static int freed;

static void drop(void) {
    if (atomic_fetch_sub_explicit(&count, 1, memory_order_release) == 1) {
        atomic_thread_fence(memory_order_acquire);
        freed++;
    }
}

static void *user(void *unused) {
    PAUSE();
    drop();
    return unused;
}

int main(void) {
    for (int i = 0; i < ROUNDS; i++) {
        count = 2;
        BOTH(user, user);
    }
    return RESULT(freed == ROUNDS);
}
