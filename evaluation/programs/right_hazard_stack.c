/* kind: right
 * source: Michael, "Hazard Pointers", 2004: a lock-free stack; Treiber, 1986
 */
#include "scene.h"
#include <sched.h>
#include <stdatomic.h>

struct node {
    struct node *next;
    int value;
};
static _Atomic(struct node *) top;
static _Atomic(struct node *) hazards[2];
static atomic_int sum;

static void push(int value) {
    struct node *fresh = malloc(sizeof *fresh);
    if (fresh == NULL) {
        abort();
    }
    fresh->value = value;
    fresh->next = atomic_load(&top);
    while (!atomic_compare_exchange_weak(&top, &fresh->next, fresh)) {
    }
}

static int pop(int self) {
    for (;;) {
        struct node *found = atomic_load(&top);
        if (found == NULL) {
            return 0;
        }
        atomic_store(&hazards[self], found);
        if (atomic_load(&top) != found) {
            continue;
        }
        PAUSE();
        struct node *expected = found;
        if (atomic_compare_exchange_strong(&top, &expected, found->next)) {
            int value = found->value;
            atomic_store(&hazards[self], NULL);
            while (atomic_load(&hazards[1 - self]) == found) {
                sched_yield();
            }
            free(found);
            return value;
        }
    }
}

static void work(int self) {
    for (int i = 1; i <= ROUNDS; i++) {
        push(i);
        atomic_fetch_add(&sum, pop(self));
    }
    atomic_store(&hazards[self], NULL);
}

static void *left(void *unused) {
    work(0);
    return unused;
}

static void *right(void *unused) {
    work(1);
    return unused;
}

int main(void) {
    BOTH(left, right);
    for (int value = pop(0); value; value = pop(0)) {
        atomic_fetch_add(&sum, value);
    }
    return RESULT(sum == ROUNDS * (ROUNDS + 1));
}
