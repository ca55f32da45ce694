/* kind: atomicity
 * source: Lu, Park, Seo and Zhou, "Learning from Mistakes", ASPLOS 2008: the database's log
 * rotation
 * function: rotate
 * variable: is_open
 */
#include "scene.h"

MUTEX(guard);
static int is_open = 1;
static int records;

static void set_open(int value) {
    lock(&guard);
    is_open = value;
    unlock(&guard);
}

static void rotate(void) {
#ifdef REPAIRED
    lock(&guard);
    is_open = 0;
    is_open = 1;
    unlock(&guard);
    (void)set_open;
#else
    set_open(0); // first
    PAUSE();
    set_open(1); // second
#endif
}

static void insert(void) {
    lock(&guard);
    if (is_open) {
        records++;
    }
    unlock(&guard);
}

static void *rotator(void *unused) {
    for (int i = 0; i < ROUNDS; i++) {
        rotate();
    }
    return unused;
}

static void *writer(void *unused) {
    for (int i = 0; i < ROUNDS; i++) {
        PAUSE();
        insert();
    }
    return unused;
}

int main(void) {
    BOTH(rotator, writer);
    return RESULT(records == ROUNDS);
}
