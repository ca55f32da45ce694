/* As many threads as the first argument says, so many of them at a time as the second says. */
#include <pthread.h>
#include <stdlib.h>

static pthread_mutex_t m = PTHREAD_MUTEX_INITIALIZER;
static pthread_barrier_t all;
static int x, y;
void add(void) {
    pthread_mutex_lock(&m);
    x++;
    pthread_mutex_unlock(&m);
    y++;
}
static void *work(void *together) {
    if (together)
        pthread_barrier_wait(&all);
    add();
    return 0;
}
int main(int n, char **v) {
    int threads = n > 1 ? atoi(v[1]) : 200, alive = n > 2 ? atoi(v[2]) : 2;
    pthread_t t[1000];
    pthread_barrier_init(&all, 0, alive);
    for (int i = 0; i < threads; i += alive) {
        int k = threads - i < alive ? threads - i : alive;
        for (int j = 0; j < k; j++)
            if (pthread_create(&t[j], 0, work, k == alive ? &all : 0))
                abort();
        for (int j = 0; j < k; j++)
            pthread_join(t[j], 0);
    }
    return x != threads;
}
