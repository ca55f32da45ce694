/* kind: right
 * source: Herlihy, "Wait-free synchronization", 1991: compare and swap until it comes through, as
 * in a rate limiter
 */
#include "scene.h"
#include <stdatomic.h>

static atomic_int tokens = ROUNDS;
static atomic_int spent;

static int spend(void) {
    int now = atomic_load(&tokens);
    while (now > 0) {
        PAUSE();
        if (atomic_compare_exchange_weak(&tokens, &now, now - 1)) {
            return 1;
        }
    }
    return 0;
}

static void *client(void *unused) {
    while (spend()) {
        atomic_fetch_add(&spent, 1);
    }
    return unused;
}

int main(void) {
    BOTH(client, client);
    return RESULT(spent == ROUNDS && tokens == 0);
}
