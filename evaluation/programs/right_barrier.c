/* kind: right
 * source: Mellor-Crummey and Scott, "Algorithms for Scalable Synchronization", 1991: the sense-
 * reversing barrier
 */
#include "scene.h"
#include <sched.h>
#include <stdatomic.h>

static atomic_int waiting;
static atomic_int sense;
static int half[2];
static int wrong_sum;

static void meet(int *mine) {
    *mine = !*mine;
    if (atomic_fetch_add(&waiting, 1) == 1) {
        atomic_store(&waiting, 0);
        atomic_store(&sense, *mine);
        return;
    }
    while (atomic_load(&sense) != *mine) {
        sched_yield();
    }
}

static void *left(void *unused) {
    int mine = 0;
    for (int i = 0; i < ROUNDS; i++) {
        half[0] = i;
        meet(&mine);
        wrong_sum |= half[0] + half[1] != 2 * i;
        meet(&mine);
    }
    return unused;
}

static void *right(void *unused) {
    int mine = 0;
    for (int i = 0; i < ROUNDS; i++) {
        PAUSE();
        half[1] = i;
        meet(&mine);
        meet(&mine);
    }
    return unused;
}

int main(void) {
    BOTH(left, right);
    return RESULT(!wrong_sum);
}
