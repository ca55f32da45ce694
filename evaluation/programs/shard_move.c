/* kind: atomicity
 * source: Shacham and others, "Testing Atomicity of Composed Concurrent Operations", OOPSLA 2011:
 * a move between two maps
 * function: move
 * variable: shards
 */
#include "scene.h"

static pthread_mutex_t guards[2] = {PTHREAD_MUTEX_INITIALIZER, PTHREAD_MUTEX_INITIALIZER};
static int shards[2] = {1, 0};
static int missing;

static void change(int shard, int by) {
    lock(&guards[shard]);
    shards[shard] += by;
    unlock(&guards[shard]);
}

static void move(int from, int to) {
#ifdef REPAIRED
    lock(&guards[0]);
    lock(&guards[1]);
    shards[from]--;
    shards[to]++;
    unlock(&guards[1]);
    unlock(&guards[0]);
    (void)change;
#else
    change(from, -1); // first
    PAUSE();
    change(to, 1); // second
#endif
}

static void find(void) {
    lock(&guards[0]);
    lock(&guards[1]);
    missing |= shards[0] + shards[1] != 1;
    unlock(&guards[1]);
    unlock(&guards[0]);
}

static void *mover(void *unused) {
    for (int i = 0; i < ROUNDS; i++) {
        move(i % 2, 1 - i % 2);
    }
    return unused;
}

static void *finder(void *unused) {
    for (int i = 0; i < ROUNDS; i++) {
        PAUSE();
        find();
    }
    return unused;
}

int main(void) {
    BOTH(mover, finder);
    return RESULT(!missing);
}
