/* kind: atomicity
 * source: Wang and Stoller, "Runtime Analysis of Atomicity for Multithreaded Programs", 2006: a
 * vector's size and remove
 * function: take
 * variable: size
 */
#include "scene.h"

MUTEX(guard);
static int size = ROUNDS;
static int below;

static int get_size(void) {
    lock(&guard);
    int now = size;
    unlock(&guard);
    return now;
}

static void pop(void) {
    lock(&guard);
    size--;
    below |= size < 0;
    unlock(&guard);
}

static int take(void) {
#ifdef REPAIRED
    lock(&guard);
    int taken = size > 0;
    size -= taken;
    unlock(&guard);
    (void)get_size;
    (void)pop;
    return taken;
#else
    if (get_size() == 0) { // first
        return 0;
    }
    PAUSE();
    pop(); // second
    return 1;
#endif
}

static void *worker(void *unused) {
    for (int i = 0; i < ROUNDS; i++) {
        if (!take() || below) {
            break;
        }
    }
    return unused;
}

int main(void) {
    for (int i = 0; i < ROUNDS && !below; i++) {
        size = 1;
        BOTH(worker, worker);
    }
    return RESULT(!below);
}
