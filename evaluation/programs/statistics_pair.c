/* kind: atomicity
 * source: Artho, Havelund and Biere, "High-level data races", 2003: two values that belong
 * together
 * function: mean
 * variable: count
 */
#include "scene.h"

MUTEX(guard);
static int sum;
static int count;
static int wrong_mean;

static int get(const int *field) {
    lock(&guard);
    int now = *field;
    unlock(&guard);
    return now;
}

static void mean(void) {
#ifdef REPAIRED
    lock(&guard);
    int s = sum;
    int n = count;
    unlock(&guard);
    (void)get;
#else
    int s = get(&sum); // first
    PAUSE();
    int n = get(&count); // second
#endif
    wrong_mean |= s != 3 * n;
}

static void add(void) {
    lock(&guard);
    sum += 3;
    count++;
    unlock(&guard);
}

static void *reader(void *unused) {
    for (int i = 0; i < ROUNDS; i++) {
        mean();
    }
    return unused;
}

static void *writer(void *unused) {
    for (int i = 0; i < ROUNDS; i++) {
        PAUSE();
        add();
    }
    return unused;
}

int main(void) {
    BOTH(reader, writer);
    return RESULT(!wrong_mean);
}
