/* kind: atomicity
 * source: Flanagan, Freund and Yi, "Velodrome", PLDI 2008: an iteration over a collection that
 * another thread changes
 * function: sum
 * variable: items
 */
#include "scene.h"

enum { SIZE = 4 };
MUTEX(guard);
static int items[SIZE] = {1, 1, 1, 1};
static int wrong_sum;

static int at(int index) {
    lock(&guard);
    int item = items[index];
    unlock(&guard);
    return item;
}

static int sum(void) {
    int total = 0;
#ifdef REPAIRED
    lock(&guard);
    for (int i = 0; i < SIZE; i++) {
        total += items[i];
    }
    unlock(&guard);
    (void)at;
#else
    total += at(0); // first
    PAUSE();
    for (int i = 1; i < SIZE; i++) {
        total += at(i); // second
    }
#endif
    return total;
}

static void swap_ends(void) {
    lock(&guard);
    int front = items[0];
    items[0] = items[SIZE - 1];
    items[SIZE - 1] = front;
    unlock(&guard);
}

static void *reader(void *unused) {
    for (int i = 0; i < ROUNDS; i++) {
        wrong_sum |= sum() != SIZE;
    }
    return unused;
}

static void *changer(void *unused) {
    for (int i = 0; i < ROUNDS; i++) {
        PAUSE();
        swap_ends();
    }
    return unused;
}

int main(void) {
    items[0] = 0;
    items[SIZE - 1] = 2;
    BOTH(reader, changer);
    return RESULT(!wrong_sum);
}
