/* kind: deadlock
 * source: Lee, "The Problem with Threads", 2006: listeners that are called under the lock
 * function: set_value
 * variable: guard
 */
#include "scene.h"
#include <signal.h>

MUTEX(guard);
MUTEX(view);
static int value;
static int shown;

static void stop(int signal) {
    (void)signal;
    _exit(DEADLOCK_STATUS);
}

static void on_change(int now) {
    lock(&view); // second
    shown = now;
    unlock(&view);
}

static void set_value(int now) {
    lock(&guard); // first
    value = now;
#ifdef REPAIRED
    unlock(&guard);
    on_change(now);
#else
    PAUSE();
    on_change(now);
    unlock(&guard);
#endif
}

static void redraw(void) {
    lock(&view);
    PAUSE();
    lock(&guard);
    shown = value;
    unlock(&guard);
    unlock(&view);
}

static void *setter(void *unused) {
    set_value(1);
    return unused;
}

static void *drawer(void *unused) {
    redraw();
    return unused;
}

int main(void) {
    WATCH_FOR_DEADLOCK(stop);
    BOTH(setter, drawer);
    return RESULT(value == 1);
}
