/* kind: right
 * source: Mellor-Crummey and Scott, "Algorithms for Scalable Synchronization", 1991: the ticket
 * lock
 */
#include "scene.h"
#include <sched.h>
#include <stdatomic.h>

static atomic_int next_ticket;
static atomic_int serving;
static int total;

static void add(void) {
    int mine = atomic_fetch_add(&next_ticket, 1);
    while (atomic_load(&serving) != mine) {
        sched_yield();
    }
    int now = total;
    PAUSE();
    total = now + 1;
    atomic_store(&serving, mine + 1);
}

static void *worker(void *unused) {
    for (int i = 0; i < ROUNDS; i++) {
        add();
    }
    return unused;
}

int main(void) {
    BOTH(worker, worker);
    return RESULT(total == 2 * ROUNDS);
}
