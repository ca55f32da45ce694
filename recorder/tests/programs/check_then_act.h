// A check and an act on `count`, each under the lock: bump() is not atomic.
#define _GNU_SOURCE
#include <errno.h>
#include <pthread.h>
#include <stdio.h>
#include <stdlib.h>
#include <string.h>
#include <sys/types.h>
#include <unistd.h>

static pthread_mutex_t m = PTHREAD_MUTEX_INITIALIZER;
static int count;

static int get(void) {
    pthread_mutex_lock(&m);
    int v = count;
    pthread_mutex_unlock(&m);
    return v;
}
static void put(int v) {
    pthread_mutex_lock(&m);
    count = v;
    pthread_mutex_unlock(&m);
}
static void bump(void) {
    int v = get();
    usleep(50);
    put(v + 1);
}
static void *bumper(void *times) {
    for (long i = 0; i < (long)times; i++)
        bump();
    return 0;
}
static void bump_by_two(long times) {
    pthread_t t[2];
    for (int i = 0; i < 2; i++)
        pthread_create(&t[i], 0, bumper, (void *)times);
    for (int i = 0; i < 2; i++)
        pthread_join(t[i], 0);
}
// Some 16 MB of records.
static void fill_trace(void) {
    static volatile int a[1024];
    for (int i = 0; i < 1000000; i++)
        a[i & 1023] = i;
}
