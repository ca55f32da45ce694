/* kind: right
 * source: McKenney, "Is Parallel Programming Hard", chapter 5: counters that may be read at any
 * time
 */
#include "scene.h"
#include <stdatomic.h>

static atomic_long requests;
static atomic_long bytes;

static void served(long size) {
    atomic_fetch_add_explicit(&requests, 1, memory_order_relaxed);
    PAUSE();
    atomic_fetch_add_explicit(&bytes, size, memory_order_relaxed);
}

static void *server(void *unused) {
    for (int i = 0; i < ROUNDS; i++) {
        served(10);
    }
    return unused;
}

int main(void) {
    BOTH(server, server);
    return RESULT(requests == 2 * ROUNDS && bytes == 20 * ROUNDS);
}
