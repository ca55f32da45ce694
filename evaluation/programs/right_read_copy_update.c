/* kind: right
 * source: McKenney and Slingwine, "Read-Copy Update", 1998: a configuration that is replaced; old
 * ones are freed at the end
 */
#include "scene.h"
#include <stdatomic.h>

struct config {
    int port;
    int twice;
};
static struct config versions[ROUNDS + 1] = {{1, 2}};
static _Atomic(struct config *) current = versions;
static int torn;

static void look(void) {
    const struct config *now = atomic_load_explicit(&current, memory_order_acquire);
    int port = now->port;
    PAUSE();
    torn |= now->twice != 2 * port;
}

static void update(int port) {
    struct config *fresh = &versions[port];
    fresh->port = port;
    fresh->twice = 2 * port;
    atomic_store_explicit(&current, fresh, memory_order_release);
}

static void *reader(void *unused) {
    for (int i = 0; i < ROUNDS; i++) {
        look();
    }
    return unused;
}

static void *updater(void *unused) {
    for (int i = 1; i <= ROUNDS; i++) {
        PAUSE();
        update(i);
    }
    return unused;
}

int main(void) {
    BOTH(reader, updater);
    return RESULT(!torn);
}
