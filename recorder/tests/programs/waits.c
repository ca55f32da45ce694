// Functions that wait. order() waits at its start, and is wrong in what follows; reserve() is wrong
// in what comes before its wait; take() and meet() are right.
#include "check_then_act.h"
#include <semaphore.h>

enum { ROUNDS = 60, THREADS = 3 };
static pthread_mutex_t gate = PTHREAD_MUTEX_INITIALIZER;
static pthread_cond_t opened = PTHREAD_COND_INITIALIZER;
static pthread_barrier_t barrier;
static sem_t seats;
static int is_open, items, taken;

static void wait_open(void) {
    pthread_mutex_lock(&gate);
    while (!is_open)
        pthread_cond_wait(&opened, &gate);
    pthread_mutex_unlock(&gate);
}
static void order(void) {
    sem_post(&seats);
    sem_wait(&seats);
    put(get() + 1);
}
static void reserve(void) {
    put(get() + 1);
    sem_wait(&seats);
}
static void take(void) {
    pthread_mutex_lock(&gate);
    while (!items)
        pthread_cond_wait(&opened, &gate);
    items--;
    taken++;
    pthread_mutex_unlock(&gate);
}
static void give(void) {
    pthread_mutex_lock(&gate);
    items++;
    pthread_cond_broadcast(&opened);
    pthread_mutex_unlock(&gate);
}
static void touch(void) {
    pthread_mutex_lock(&gate);
    taken++;
    pthread_mutex_unlock(&gate);
}
static void meet(void) {
    touch();
    pthread_barrier_wait(&barrier);
}
static void *work(void *a) {
    for (int i = 0; i < ROUNDS; i++) {
        if (i % 20 == 0)
            meet();
        wait_open();
        order();
        sem_post(&seats);
        reserve();
        take();
    }
    return a;
}
int main(void) {
    pthread_t t[THREADS];
    pthread_barrier_init(&barrier, 0, THREADS);
    sem_init(&seats, 0, 0);
    for (int i = 0; i < THREADS; i++)
        pthread_create(&t[i], 0, work, 0);
    usleep(2000);
    pthread_mutex_lock(&gate);
    is_open = 1;
    pthread_cond_broadcast(&opened);
    pthread_mutex_unlock(&gate);
    for (int i = 0; i < ROUNDS * THREADS; i++)
        give();
    for (int i = 0; i < THREADS; i++)
        pthread_join(t[i], 0);
    return 0;
}
