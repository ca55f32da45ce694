/* kind: atomicity
 * source: Lu, Tucek, Qin and Zhou, "AVIO", ASPLOS 2006: a counter that is compared, and then
 * reduced
 * function: spend
 * variable: tokens
 */
#include "scene.h"
#include <stdatomic.h>

static atomic_int tokens;
static atomic_int overspent;

static void spend(void) {
#ifdef REPAIRED
    int now = atomic_load(&tokens);
    while (now > 0 && !atomic_compare_exchange_weak(&tokens, &now, now - 1)) {
    }
#else
    if (atomic_load(&tokens) > 0) { // first
        PAUSE();
        if (atomic_fetch_sub(&tokens, 1) <= 0) { // second
            atomic_store(&overspent, 1);
        }
    }
#endif
}

static void *client(void *unused) {
    spend();
    return unused;
}

int main(void) {
    for (int i = 0; i < ROUNDS; i++) {
        tokens = 1;
        BOTH(client, client);
    }
    return RESULT(!overspent);
}
