// Two fibers a thread, by swapcontext: inner() gives its turn away between two right halves, and
// lose() between a check and an act.
#include "check_then_act.h"
#include <ucontext.h>

enum { ROUNDS = 30, THREADS = 2, FIBERS = 2 };
static __thread ucontext_t caller, fiber[FIBERS];
static __thread int at, left;
static int other;

static void give_turn(void) {
    int me = at;
    at = 1 - at;
    swapcontext(&fiber[me], &fiber[at]);
}
static void leaf(void) {
    pthread_mutex_lock(&m);
    other++;
    pthread_mutex_unlock(&m);
}
static void inner(void) {
    leaf();
    give_turn();
    leaf();
}
static void lose(void) {
    put(get() + 1);
}
static void run(void) {
    for (int i = 0; i < ROUNDS; i++) {
        inner();
        leaf();
        lose();
        give_turn();
    }
    if (--left)
        give_turn();
    swapcontext(&fiber[at], &caller);
}
static void *routine(void *a) {
    left = FIBERS;
    for (int i = 0; i < FIBERS; i++) {
        getcontext(&fiber[i]);
        fiber[i].uc_stack.ss_sp = malloc(65536);
        fiber[i].uc_stack.ss_size = 65536;
        fiber[i].uc_link = 0;
        makecontext(&fiber[i], run, 0);
    }
    at = 0;
    swapcontext(&caller, &fiber[0]);
    for (int i = 0; i < ROUNDS; i++)
        leaf();
    return a;
}
int main(void) {
    pthread_t t[THREADS];
    for (int i = 0; i < THREADS; i++)
        pthread_create(&t[i], 0, routine, 0);
    for (int i = 0; i < THREADS; i++)
        pthread_join(t[i], 0);
    printf("%d\n", other);
    return 0;
}
