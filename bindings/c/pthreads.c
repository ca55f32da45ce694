/* pthreads: what velodrome_pthread.h promises. With VELODROME_OFF the same program without
 * sessions. */
#include "velodrome_pthread.h"
#include <stdio.h>
#include <string.h>

static int failed;
static void expect(bool holds, const char *what, int line) {
    if (holds)
        return;
    printf("    line %d: %s\n", line, what);
    failed = 1;
}
#define EXPECT(x) expect(x, #x, __LINE__)

static vs_mutex lock = VS_MUTEX("lock");
static VS_VARIABLE(long) balance = {100, VS_OBJECT("balance")};
static VS_VARIABLE(int) step = {0, VS_OBJECT("step")};
extern VS_VARIABLE(long) declared; /* as in a header */
VS_DEFINE(declared) = {3, VS_OBJECT("declared")};
static pthread_cond_t stepped = PTHREAD_COND_INITIALIZER;

/* What makes a schedule come about is not watched: a wait in a block would be an alarm. */
static pthread_mutex_t unwatched = PTHREAD_MUTEX_INITIALIZER;
static pthread_cond_t turned = PTHREAD_COND_INITIALIZER;
static int turn;
static void turn_to(int n) {
    pthread_mutex_lock(&unwatched);
    turn = n;
    pthread_cond_broadcast(&turned);
    pthread_mutex_unlock(&unwatched);
}
static void wait_for_turn(int n) {
    pthread_mutex_lock(&unwatched);
    while (turn != n)
        pthread_cond_wait(&turned, &unwatched);
    pthread_mutex_unlock(&unwatched);
}

static void *step_on(void *unused) {
    vs_mutex_lock(&lock);
    VS_SET(step, 1);
    pthread_cond_broadcast(&stepped);
    vs_mutex_unlock(&lock);
    return unused;
}
static void wait_for_step(void) {
    vs_thread t;
    vs_mutex_lock(&lock);
    EXPECT(vs_thread_create(&t, NULL, step_on, NULL) == 0);
    while (!VS_GET(step))
        vs_cond_wait(&stepped, &lock);
    vs_mutex_unlock(&lock);
    EXPECT(vs_thread_join(&t, NULL) == 0 && step.value == 1);
}

static void *deposit(void *amount) {
    VELODROME_ATOMIC("deposit");
    vs_mutex_lock(&lock);
    VS_SET(balance, VS_GET(balance) + *(long *)amount);
    vs_mutex_unlock(&lock);
    return amount;
}

static void *careless(void *unused) { /* another thread deposits between the two holds */
    VELODROME_ATOMIC("careless");
    vs_mutex_lock(&lock);
    long before = VS_GET(balance);
    vs_mutex_unlock(&lock);
    turn_to(1);
    wait_for_turn(2);
    vs_mutex_lock(&lock);
    VS_SET(balance, before + 1);
    vs_mutex_unlock(&lock);
    return unused;
}

static void many_deposits(void) {
    vs_thread t[8];
    long amount = 5;
    void *result = NULL;
    for (int i = 0; i < 8; i++)
        EXPECT(vs_thread_create(&t[i], NULL, deposit, &amount) == 0);
    for (int i = 0; i < 8; i++)
        EXPECT(vs_thread_join(&t[i], &result) == 0 && result == &amount);
    EXPECT(balance.value == 140);
}

static void lose_one(void) {
    vs_thread t;
    long amount = 10;
    EXPECT(vs_thread_create(&t, NULL, careless, NULL) == 0);
    wait_for_turn(1);
    deposit(&amount);
    turn_to(2);
    vs_thread_join(&t, NULL);
    EXPECT(balance.value == 141);
}

static void *leave(void *unused) {
    VELODROME_ATOMIC("left");
    VS_SET(step, VS_GET(step));
    pthread_exit(unused); /* the block ends here */
}

static void the_rest(void) {
    vs_mutex m;
    vs_thread t;
    struct timespec past = {0, 0};
    pthread_cond_t never = PTHREAD_COND_INITIALIZER;
    EXPECT(vs_mutex_init(&m, NULL, "m") == 0 && vs_mutex_trylock(&m) == 0 &&
           vs_mutex_trylock(&m) != 0);
    EXPECT(vs_cond_timedwait(&never, &m, &past) != 0);
    EXPECT(vs_mutex_unlock(&m) == 0 && vs_mutex_destroy(&m) == 0);
    EXPECT(vs_thread_create(&t, NULL, leave, NULL) == 0 && vs_thread_join(&t, NULL) == 0);
    VS_SET(declared, VS_GET(declared) + 1);
    EXPECT(declared.value == 4);
}

#ifdef VELODROME_OFF
int main(void) {
    many_deposits();
    lose_one();
    wait_for_step();
    the_rest();
    return failed;
}
#else
int main(void) {
    char *report;
    vs_session s = vs_open(NULL, false);
    many_deposits();
    wait_for_step();
    the_rest();
    EXPECT(vs_close(s, NULL) == VS_CLEAN);
    s = vs_open(NULL, false);
    lose_one();
    EXPECT(vs_close(s, &report) == VS_ALARM && report &&
           strstr(report, "not atomic: careless (pthreads.c:") &&
           strstr(report, "thread 2 acquires lock"));
    vs_free(report);
    return failed;
}
#endif
