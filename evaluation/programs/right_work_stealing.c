/* kind: right
 * source: Chase and Lev, "Dynamic Circular Work-Stealing Deque", SPAA 2005
 */
#include "scene.h"
#include <stdatomic.h>

enum { SIZE = 64 };
static atomic_int tasks[SIZE];
static atomic_long top;
static atomic_long bottom;
static atomic_int done[SIZE];

static void push(int task) {
    long at = atomic_load(&bottom);
    atomic_store(&tasks[at % SIZE], task);
    atomic_store(&bottom, at + 1);
}

static int pop(void) {
    long at = atomic_fetch_sub(&bottom, 1) - 1;
    long first = atomic_load(&top);
    if (first > at) {
        atomic_store(&bottom, at + 1);
        return -1;
    }
    int task = atomic_load(&tasks[at % SIZE]);
    if (first == at) {
        if (!atomic_compare_exchange_strong(&top, &first, first + 1)) {
            task = -1;
        }
        atomic_store(&bottom, at + 1);
    }
    return task;
}

static int steal(void) {
    long first = atomic_load(&top);
    if (first >= atomic_load(&bottom)) {
        return -1;
    }
    int task = atomic_load(&tasks[first % SIZE]);
    PAUSE();
    return atomic_compare_exchange_strong(&top, &first, first + 1) ? task : -1;
}

static void finish(int task) {
    if (task >= 0) {
        atomic_fetch_add(&done[task], 1);
    }
}

static void *owner(void *unused) {
    for (int i = 0; i < ROUNDS; i++) {
        push(2 * i);
        push(2 * i + 1);
        finish(pop());
        PAUSE();
    }
    return unused;
}

static void *thief(void *unused) {
    for (int i = 0; i < ROUNDS; i++) {
        finish(steal());
    }
    return unused;
}

int main(void) {
    BOTH(owner, thief);
    for (int task = pop(); task >= 0; task = pop()) {
        finish(task);
    }
    int right = 1;
    for (int i = 0; i < 2 * ROUNDS; i++) {
        right &= done[i] == 1;
    }
    return RESULT(right);
}
