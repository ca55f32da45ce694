/* kind: right
 * source: Hoare, "Monitors: An Operating System Structuring Concept", 1974: the bounded buffer
 */
#include "scene.h"

enum { SIZE = 2 };
MUTEX(guard);
static pthread_cond_t not_full = PTHREAD_COND_INITIALIZER;
static pthread_cond_t not_empty = PTHREAD_COND_INITIALIZER;
static int items[SIZE];
static int first;
static int count;
static int sum;

static void put(int item) {
    lock(&guard);
    while (count == SIZE) {
        pthread_cond_wait(&not_full, &guard);
    }
    items[(first + count) % SIZE] = item;
    count++;
    pthread_cond_signal(&not_empty);
    unlock(&guard);
}

static int take(void) {
    lock(&guard);
    while (count == 0) {
        pthread_cond_wait(&not_empty, &guard);
    }
    int item = items[first];
    first = (first + 1) % SIZE;
    count--;
    pthread_cond_signal(&not_full);
    unlock(&guard);
    return item;
}

static void *producer(void *unused) {
    for (int i = 1; i <= ROUNDS; i++) {
        put(i);
    }
    return unused;
}

static void *consumer(void *unused) {
    for (int i = 0; i < ROUNDS; i++) {
        PAUSE();
        sum += take();
    }
    return unused;
}

int main(void) {
    BOTH(producer, consumer);
    return RESULT(sum == ROUNDS * (ROUNDS + 1) / 2);
}
