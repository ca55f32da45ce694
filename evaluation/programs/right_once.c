/* kind: right
 * source: POSIX.1-2017, pthread_once: an initialisation that happens once
 */
#include "scene.h"

static pthread_once_t once = PTHREAD_ONCE_INIT;
static int value;
static int made;

static void make(void) {
    PAUSE();
    value = 7;
    made++;
}

static int get(void) {
    pthread_once(&once, make);
    return value;
}

static void *user(void *seen) {
    for (int i = 0; i < ROUNDS; i++) {
        if (get() != 7) {
            abort();
        }
    }
    return seen;
}

int main(void) {
    BOTH(user, user);
    return RESULT(made == 1);
}
