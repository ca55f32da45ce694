/* Two locks taken in both orders. */
#include <pthread.h>

static pthread_mutex_t first = PTHREAD_MUTEX_INITIALIZER, second = PTHREAD_MUTEX_INITIALIZER;
static int x;
static void both(pthread_mutex_t *a, pthread_mutex_t *b) {
    pthread_mutex_lock(a);
    x++;
    pthread_mutex_lock(b);
    x++;
    pthread_mutex_unlock(b);
    pthread_mutex_unlock(a);
}
static void *forward(void *a) {
    for (int i = 0; i < 50; i++)
        both(&first, &second);
    return a;
}
static void *backward(void *a) {
    for (int i = 0; i < 50; i++)
        both(&second, &first);
    return a;
}
int main(void) {
    pthread_t s, t;
    pthread_create(&s, 0, forward, 0);
    pthread_create(&t, 0, backward, 0);
    pthread_join(s, 0);
    pthread_join(t, 0);
    return 0;
}
