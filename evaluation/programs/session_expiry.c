/* kind: atomicity
 * source: Jula and others, "Finding concurrency bugs in web applications": a session that ends
 * while it is used
 * function: serve
 * variable: valid
 */
#include "scene.h"

MUTEX(guard);
static int valid = 1;
static int served_after_end;

static int check(void) {
    lock(&guard);
    int now = valid;
    unlock(&guard);
    return now;
}

static void use(void) {
    lock(&guard);
    served_after_end |= !valid;
    unlock(&guard);
}

static void serve(void) {
#ifdef REPAIRED
    lock(&guard);
    if (valid) {
        served_after_end |= !valid;
    }
    unlock(&guard);
    (void)check;
    (void)use;
#else
    if (check()) { // first
        PAUSE();
        use(); // second
    }
#endif
}

static void set_valid(int value) {
    lock(&guard);
    valid = value;
    unlock(&guard);
}

static void *server(void *unused) {
    for (int i = 0; i < ROUNDS; i++) {
        serve();
    }
    return unused;
}

static void *expirer(void *unused) {
    for (int i = 0; i < ROUNDS; i++) {
        PAUSE();
        set_valid(0);
        PAUSE();
        set_valid(1);
    }
    return unused;
}

int main(void) {
    BOTH(server, expirer);
    return RESULT(!served_after_end);
}
