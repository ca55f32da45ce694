/* kind: right
 * source: Anderson, "The Performance of Spin Lock Alternatives", 1990: test and set
 */
#include "scene.h"
#include <sched.h>
#include <stdatomic.h>

static atomic_flag taken = ATOMIC_FLAG_INIT;
static int total;

static void take(void) {
    while (atomic_flag_test_and_set_explicit(&taken, memory_order_acquire)) {
        sched_yield();
    }
}

static void give(void) {
    atomic_flag_clear_explicit(&taken, memory_order_release);
}

static void add(void) {
    take();
    int now = total;
    PAUSE();
    total = now + 1;
    give();
}

static void *worker(void *unused) {
    for (int i = 0; i < ROUNDS; i++) {
        add();
    }
    return unused;
}

int main(void) {
    BOTH(worker, worker);
    return RESULT(total == 2 * ROUNDS);
}
