/* kind: right
 * source: Lamport, "Proving the Correctness of Multiprocess Programs", 1977: a ring of one
 * producer and one consumer
 */
#include "scene.h"
#include <sched.h>
#include <stdatomic.h>

enum { SIZE = 4 };
static int items[SIZE];
static atomic_int head;
static atomic_int tail;
static int sum;

static int put(int item) {
    int at = atomic_load_explicit(&tail, memory_order_relaxed);
    if (at - atomic_load_explicit(&head, memory_order_acquire) == SIZE) {
        return 0;
    }
    items[at % SIZE] = item;
    PAUSE();
    atomic_store_explicit(&tail, at + 1, memory_order_release);
    return 1;
}

static int take(void) {
    int at = atomic_load_explicit(&head, memory_order_relaxed);
    if (at == atomic_load_explicit(&tail, memory_order_acquire)) {
        return 0;
    }
    int item = items[at % SIZE];
    atomic_store_explicit(&head, at + 1, memory_order_release);
    return item;
}

static void *producer(void *unused) {
    for (int i = 1; i <= ROUNDS; i++) {
        while (!put(i)) {
            sched_yield();
        }
    }
    return unused;
}

static void *consumer(void *unused) {
    for (int taken = 0; taken < ROUNDS;) {
        int item = take();
        sum += item;
        taken += item != 0;
        if (item == 0) {
            sched_yield();
        }
    }
    return unused;
}

int main(void) {
    BOTH(producer, consumer);
    return RESULT(sum == ROUNDS * (ROUNDS + 1) / 2);
}
