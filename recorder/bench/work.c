/* Threads that do something COUNT times each: work KIND THREADS COUNT. */
#include <pthread.h>
#include <stdatomic.h>
#include <stdio.h>
#include <stdlib.h>
#include <string.h>

enum { SIZE = 4096 };
static long shared[SIZE];
static atomic_long counter;
static pthread_mutex_t lock = PTHREAD_MUTEX_INITIALIZER;
static long count;

static long of_thread[64][SIZE];
static void *own_memory(void *a) { /* a read and a write each */
    long *mine = of_thread[(long)a];
    for (long i = 0; i < count; i++)
        mine[i * 7 % SIZE] += i;
    return a;
}
static void *shared_reads(void *a) {
    volatile long sum = 0;
    for (long i = 0; i < count; i++)
        sum += shared[i * 13 % SIZE];
    return a;
}
static void step(long i) {
    shared[i % SIZE]++;
}
static void *calls(void *a) {
    long from = (long)a * SIZE / 8;
    for (long i = 0; i < count; i++)
        step(from + i % (SIZE / 8));
    return a;
}
static void *locks(void *a) {
    for (long i = 0; i < count; i++) {
        pthread_mutex_lock(&lock);
        shared[0]++;
        pthread_mutex_unlock(&lock);
    }
    return a;
}
static void *atomics(void *a) {
    for (long i = 0; i < count; i++)
        counter++;
    return a;
}
int main(int n, char **v) {
    static const struct {
        const char *name;
        void *(*f)(void *);
    } kinds[] = {{"memory", own_memory},
                 {"reads", shared_reads},
                 {"calls", calls},
                 {"locks", locks},
                 {"atomics", atomics}};
    if (n < 4)
        return 2;
    long threads = atol(v[2]);
    pthread_t t[64];
    count = atol(v[3]);
    for (size_t k = 0; k < sizeof kinds / sizeof *kinds; k++) {
        if (strcmp(kinds[k].name, v[1]))
            continue;
        for (long i = 0; i < threads; i++)
            pthread_create(&t[i], 0, kinds[k].f, (void *)i);
        for (long i = 0; i < threads; i++)
            pthread_join(t[i], 0);
        return 0;
    }
    return 2;
}
