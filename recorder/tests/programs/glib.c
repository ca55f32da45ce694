// GLib's own locks, used right by both() and change(); add() checks under one hold and acts under
// another, and order() does so after a wait.
#include <stdio.h>

// As glib.h has them; it is not asked for.
typedef struct {
    void *p;
    unsigned i[2];
} Cond, RWLock;
void g_mutex_lock(void **m);
void g_mutex_unlock(void **m);
void g_cond_wait(Cond *c, void **m);
void g_cond_broadcast(Cond *c);
void g_rw_lock_reader_lock(RWLock *m);
void g_rw_lock_reader_unlock(RWLock *m);
void g_rw_lock_writer_lock(RWLock *m);
void g_rw_lock_writer_unlock(RWLock *m);
void *g_thread_new(const char *name, void *(*routine)(void *), void *data);
void *g_thread_join(void *thread);
void g_usleep(unsigned long microseconds);

enum { ROUNDS = 80, THREADS = 3 };
static void *m, *gate;
static Cond opened;
static RWLock rw;
static int is_open;
static long a, b, c, n, stock;

static void both(void) {
    g_mutex_lock(&m);
    a++;
    b++;
    g_mutex_unlock(&m);
}
static long look(void) {
    g_rw_lock_reader_lock(&rw);
    long now = c;
    g_rw_lock_reader_unlock(&rw);
    return now;
}
static void change(void) {
    g_rw_lock_writer_lock(&rw);
    c++;
    g_rw_lock_writer_unlock(&rw);
}
static long get(const long *from) {
    g_mutex_lock(&m);
    long v = *from;
    g_mutex_unlock(&m);
    return v;
}
static void put(long *to, long v) {
    g_mutex_lock(&m);
    *to = v;
    g_mutex_unlock(&m);
}
static void add(void) {
    put(&n, get(&n) + 1);
}
static void wait_open(void) {
    g_mutex_lock(&gate);
    while (!is_open)
        g_cond_wait(&opened, &gate);
    g_mutex_unlock(&gate);
}
static void order(void) {
    wait_open();
    put(&stock, get(&stock) + 1);
}
static void *work(void *x) {
    for (int i = 0; i < ROUNDS; i++) {
        both();
        look();
        if (i % 10 == 0)
            change();
        add();
        order();
    }
    return x;
}
int main(void) {
    void *t[THREADS];
    for (int i = 0; i < THREADS; i++)
        t[i] = g_thread_new("worker", work, 0);
    g_usleep(2000);
    g_mutex_lock(&gate);
    is_open = 1;
    g_cond_broadcast(&opened);
    g_mutex_unlock(&gate);
    for (int i = 0; i < THREADS; i++)
        g_thread_join(t[i]);
    printf("%ld %ld %ld\n", a, b, c);
    return 0;
}
