// A mistake at the end of a run that is longer than its trace, with what began before: a thread
// that has a name, its lock, its block, a wait, and threads that end meanwhile.
#include "check_then_act.h"

enum { DEPTH = 200, BUMPS = 30 };
static pthread_mutex_t held = PTHREAD_MUTEX_INITIALIZER, meeting = PTHREAD_MUTEX_INITIALIZER;
static pthread_cond_t filled = PTHREAD_COND_INITIALIZER;
static int is_full;
static long result;

static void tell(void) {
    pthread_mutex_lock(&meeting);
    is_full = 1;
    pthread_cond_broadcast(&filled);
    pthread_mutex_unlock(&meeting);
}
static void wait_for_it(void) {
    pthread_mutex_lock(&meeting);
    while (!is_full)
        pthread_cond_wait(&filled, &meeting);
    pthread_mutex_unlock(&meeting);
}
static void fill(void) {
    fill_trace();
    tell();
}
static void across(int deep) {
    if (deep)
        across(deep - 1);
    else
        fill();
    result++;
}
static void *first(void *unused) {
    pthread_setname_np(pthread_self(), "filler");
    pthread_mutex_lock(&held);
    across(DEPTH);
    pthread_mutex_unlock(&held);
    bumper((void *)BUMPS);
    return unused;
}
static void *second(void *unused) {
    wait_for_it();
    bumper((void *)BUMPS);
    pthread_mutex_lock(&held);
    result++;
    pthread_mutex_unlock(&held);
    return unused;
}
int main(int n, char **short_threads) {
    pthread_t before, t[2];
    for (int i = n > 1 ? atoi(short_threads[1]) : 0; i > 0; i--) {
        pthread_create(&t[0], 0, bumper, (void *)1);
        pthread_join(t[0], 0);
    }
    pthread_create(&before, 0, bumper, (void *)1);
    pthread_create(&t[0], 0, first, 0);
    pthread_create(&t[1], 0, second, 0);
    for (int i = 0; i < 2; i++)
        pthread_join(t[i], 0);
    pthread_join(before, 0);
    printf("%ld\n", result);
}
