/* 64 threads behind one lock: all that they report is in the log, and each call is whole. */
#define _POSIX_C_SOURCE 200809L
#include "velodrome.h"
#include <pthread.h>
#include <stdio.h>
#include <string.h>

enum { CHILDREN = 63, ROUNDS = 200 };

static velodrome *monitor;
static pthread_mutex_t order = PTHREAD_MUTEX_INITIALIZER;
static long counter;
static unsigned failures;

/* A block whose read and write stand in one hold of the lock, so that no schedule breaks it. */
static void add_one(uint8_t thread) {
    velodrome_answer answer;
    pthread_mutex_lock(&order);
    failures |= velodrome_begin(monitor, thread, 7, &answer);
    failures |= velodrome_read(monitor, thread, 0, &answer);
    if ((long)answer.value != counter)
        failures |= 1u << 31;
    failures |= velodrome_write(monitor, thread, 0, (uint64_t)++counter, &answer);
    failures |= velodrome_end(monitor, thread, &answer);
    pthread_mutex_unlock(&order);
}

static void *run(void *argument) {
    uint8_t thread = *(uint8_t *)argument;
    velodrome_answer answer;
    for (int round = 0; round < ROUNDS; round++)
        add_one(thread);
    pthread_mutex_lock(&order);
    failures |= velodrome_exit(monitor, thread, &answer);
    pthread_mutex_unlock(&order);
    return NULL;
}

int main(void) {
    pthread_t threads[CHILDREN];
    uint8_t numbers[CHILDREN];
    char text[VELODROME_REPORT_ROOM];
    velodrome_answer answer;
    size_t count = 0;
    failures |= velodrome_open(&monitor, NULL);
    for (uint8_t i = 0; i < CHILDREN; i++) {
        numbers[i] = (uint8_t)(i + 1);
        pthread_mutex_lock(&order);
        failures |= velodrome_fork(monitor, 0, numbers[i], &answer);
        pthread_mutex_unlock(&order);
        if (pthread_create(&threads[i], NULL, run, &numbers[i]))
            return 2;
    }
    for (uint8_t i = 0; i < CHILDREN; i++) {
        pthread_join(threads[i], NULL);
        pthread_mutex_lock(&order);
        failures |= velodrome_join(monitor, 0, numbers[i], &answer);
        pthread_mutex_unlock(&order);
    }
    failures |= velodrome_report(monitor, text, sizeof text, &count);
    char wanted[64];
    int length = snprintf(wanted, sizeof wanted, "events %d\nthread 0 %d\nthread 1 %d\n",
                          CHILDREN * (4 * ROUNDS + 3), 2 * CHILDREN, 4 * ROUNDS + 1);
    if (count < (size_t)length || memcmp(text, wanted, (size_t)length))
        failures |= 1u << 30;
    if (count < 14 || memcmp(text + count - 14, "verdict clean\n", 14))
        failures |= 1u << 29;
    velodrome_close(monitor);
    printf("%s: %ld times, failures %#x\n", failures ? "failed" : "passed", counter, failures);
    return failures != 0 || counter != (long)CHILDREN * ROUNDS;
}
