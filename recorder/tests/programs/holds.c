// What two threads do, by the program's argument: count (a value is carried from one hold to the
// next), right, once (a routine that does not loop), hang (each waits for the other's lock), waits
// (a condition that nobody signals), fails (status 7).
#include <pthread.h>
#include <signal.h>
#include <stdlib.h>
#include <string.h>
#include <unistd.h>

static pthread_mutex_t m = PTHREAD_MUTEX_INITIALIZER;
static struct account {
    pthread_mutex_t m;
    long balance;
} first = {PTHREAD_MUTEX_INITIALIZER, 0}, second = {PTHREAD_MUTEX_INITIALIZER, 0};
static pthread_cond_t never = PTHREAD_COND_INITIALIZER;
static pthread_barrier_t both;
static int counter;

static void carry(void) {
    pthread_mutex_lock(&m);
    int old = counter;
    pthread_mutex_unlock(&m);
    pthread_mutex_lock(&m);
    counter = old + 1;
    pthread_mutex_unlock(&m);
}
static void *count(void *a) {
    for (int i = 0; i < 300; i++)
        carry();
    return a;
}
static void *right(void *a) {
    for (int i = 0; i < 300; i++) {
        pthread_mutex_lock(&m);
        counter++;
        pthread_mutex_unlock(&m);
    }
    return a;
}
static void *once(void *a) {
    carry();
    return a;
}
static void transfer(struct account *from, struct account *to) {
    pthread_mutex_lock(&from->m);
    pthread_barrier_wait(&both);
    pthread_mutex_lock(&to->m);
    from->balance--, to->balance++;
    pthread_mutex_unlock(&to->m);
    pthread_mutex_unlock(&from->m);
}
static void *forward(void *a) {
    transfer(&first, &second);
    return a;
}
static void *backward(void *a) {
    transfer(&second, &first);
    return a;
}
static void *waits(void *a) {
    pthread_mutex_lock(&m);
    pthread_barrier_wait(&both);
    pthread_cond_wait(&never, &m);
    pthread_mutex_unlock(&m);
    return a;
}
int main(int n, char **words) {
    const char *how = n > 1 ? words[1] : "count";
    int hangs = !strcmp(how, "hang"), sleeps = !strcmp(how, "waits");
    void *(*one)(void *) = hangs                   ? forward
                           : sleeps                ? waits
                           : !strcmp(how, "right") ? right
                           : !strcmp(how, "once")  ? once
                                                   : count;
    pthread_t s, t;
    pthread_barrier_init(&both, 0, 2);
    pthread_create(&s, 0, one, 0);
    pthread_create(&t, 0, hangs ? backward : one, 0);
    if (n > 2) { // a hang that ends: by this signal
        sleep(1);
        raise(atoi(words[2]));
    }
    pthread_join(s, 0);
    pthread_join(t, 0);
    return !strcmp(how, "fails") ? 7 : 0;
}
