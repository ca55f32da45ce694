/* kind: atomicity
 * source: Artho, Havelund and Biere, "High-level data races", 2003: the coordinate pair
 * function: move_to
 * variable: y
 */
#include "scene.h"

MUTEX(guard);
static int x;
static int y;
static int torn;

static void set(int *field, int value) {
    lock(&guard);
    *field = value;
    unlock(&guard);
}

static void move_to(int value) {
#ifdef REPAIRED
    lock(&guard);
    x = value;
    y = value;
    unlock(&guard);
    (void)set;
#else
    set(&x, value); // first
    PAUSE();
    set(&y, value); // second
#endif
}

static void look(void) {
    lock(&guard);
    torn |= x != y;
    unlock(&guard);
}

static void *mover(void *unused) {
    for (int i = 0; i < ROUNDS; i++) {
        move_to(i + 1);
    }
    return unused;
}

static void *looker(void *unused) {
    for (int i = 0; i < ROUNDS; i++) {
        PAUSE();
        look();
    }
    return unused;
}

int main(void) {
    BOTH(mover, looker);
    return RESULT(!torn);
}
