/* long: a program that is longer than a log: 5,000,000 events and more, 1,000 threads one after
 * another, 100,000 variables. It ends with a verdict: clean; with "lost", the alarm of the lost
 * update at its end. Prints how long an event took. */
#define _GNU_SOURCE
#include "velodrome_session.h"
#include <pthread.h>
#include <stdio.h>
#include <stdlib.h>
#include <string.h>
#include <time.h>
enum { THREADS = 1000, VARIABLES = 100000, ROUNDS = 850 };

static vs_object *variables;
static vs_object lock = VS_OBJECT("lock");
static pthread_mutex_t real = PTHREAD_MUTEX_INITIALIZER;

static void access_variable(int i, vs_kind kind) {
    vs_after(vs_before(&variables[i], kind));
}

typedef struct start {
    vs_child child;
    int number;
} start;

static void *work(void *argument) {
    start *s = argument;
    vs_born(s->child);
    for (int i = 0; i < ROUNDS; i++) {
        VELODROME_ATOMIC("round");
        pthread_mutex_lock(&real);
        vs_tell(&lock, VS_ACQUIRE);
        int x = (s->number * ROUNDS + i) % VARIABLES;
        access_variable(x, VS_READ);
        access_variable(x, VS_WRITE);
        vs_tell(&lock, VS_RELEASE);
        pthread_mutex_unlock(&real);
    }
    vs_exit(s->child);
    return NULL;
}

static void *deposit(void *unused) {
    access_variable(0, VS_WRITE);
    return unused;
}

int main(int argc, char **argv) {
    bool lost = argc > 1 && !strcmp(argv[1], "lost");
    struct timespec begun, ended;
    variables = calloc(VARIABLES, sizeof *variables);
    vs_session s = vs_open(NULL, true);
    clock_gettime(CLOCK_PROCESS_CPUTIME_ID, &begun);
    for (int i = 0; i < THREADS; i++) {
        pthread_t t;
        start one = {vs_fork(), i};
        pthread_create(&t, NULL, work, &one);
        pthread_join(t, NULL);
        vs_join(one.child);
    }
    clock_gettime(CLOCK_PROCESS_CPUTIME_ID, &ended);
    if (lost) {
        VELODROME_ATOMIC("add");
        pthread_t t;
        access_variable(0, VS_READ);
        pthread_create(&t, NULL, deposit, NULL);
        pthread_join(t, NULL);
        access_variable(0, VS_WRITE);
    }
    char *report;
    vs_verdict v = vs_close(s, &report);
    double ns =
        (double)(ended.tv_sec - begun.tv_sec) * 1e9 + (double)(ended.tv_nsec - begun.tv_nsec);
    printf("%d events, %d threads, %d variables: verdict %d, %.0f ns of the processor an event\n",
           THREADS * ROUNDS * 6 + 3 * THREADS, THREADS, VARIABLES, v, ns / (THREADS * ROUNDS * 6));
    if (report)
        fputs(report, stdout);
    vs_free(report);
    free(variables);
    return v == (lost ? VS_ALARM : VS_CLEAN) ? 0 : 1;
}
