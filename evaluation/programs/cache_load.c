/* kind: atomicity
 * source: Lin and Dig, "CHECK-THEN-ACT Misuse of Java Concurrent Collections", ICST 2013: get,
 * else load and put
 * function: get_or_load
 * variable: cache
 */
#include "scene.h"

MUTEX(guard);
static int cache[ROUNDS];
static int loads;

static int get(int key) {
    lock(&guard);
    int value = cache[key];
    unlock(&guard);
    return value;
}

static void put(int key, int value) {
    lock(&guard);
    cache[key] = value;
    loads++;
    unlock(&guard);
}

static void get_or_load(int key) {
#ifdef REPAIRED
    lock(&guard);
    if (cache[key] == 0) {
        cache[key] = key + 1;
        loads++;
    }
    unlock(&guard);
    (void)get;
    (void)put;
#else
    if (get(key) == 0) { // first
        PAUSE();
        put(key, key + 1); // second
    }
#endif
}

static void *user(void *unused) {
    for (int key = 0; key < ROUNDS; key++) {
        get_or_load(key);
    }
    return unused;
}

int main(void) {
    BOTH(user, user);
    return RESULT(loads == ROUNDS);
}
