/* kind: atomicity
 * source: Lu, Tucek, Qin and Zhou, "AVIO", ASPLOS 2006: a state that is read, and then stepped
 * function: start
 * variable: state
 */
#include "scene.h"
#include <stdatomic.h>

enum { IDLE, RUNNING };
static atomic_int state;
static atomic_int starts;

static void start(void) {
#ifdef REPAIRED
    int idle = IDLE;
    if (atomic_compare_exchange_strong(&state, &idle, RUNNING)) {
        atomic_fetch_add(&starts, 1);
    }
#else
    if (atomic_load(&state) == IDLE) { // first
        PAUSE();
        atomic_store(&state, RUNNING); // second
        atomic_fetch_add(&starts, 1);
    }
#endif
}

static void *caller(void *unused) {
    start();
    return unused;
}

int main(void) {
    for (int i = 0; i < ROUNDS; i++) {
        state = IDLE;
        BOTH(caller, caller);
    }
    return RESULT(starts == ROUNDS);
}
