// Settings, the start and the end of a recording, and fork(2).
#include "runtime.h"
#include <dlfcn.h>
#include <pthread.h>
#include <stdlib.h>
#include <string.h>

void *next_function(const char *name) {
    return dlsym(RTLD_NEXT, name);
}
u64 setting(const char *name, u64 other) {
    const char *s = getenv(name);
    return s && *s ? strtoull(s, 0, 10) : other;
}
static int mode_of(const char *m) {
    if (!m || !*m || !strcmp(m, "exact"))
        return EXACT;
    if (!strcmp(m, "serial"))
        return SERIAL;
    if (!strcmp(m, "free"))
        return FREE;
    say("VELODROME_MODE=%s is none of exact, free, serial: exact is taken", m);
    return EXACT;
}
static int open_all(u64 seed) {
    threads_open();
    if (!trace_open())
        return 0;
    head->seed = seed;
    begin_thread(own, 0);
    return 1;
}
static void after_fork(void) { // in the child: a trace of its own, or none
    int was = on;
    STORE(on, 0);
    trace_leave();
    turns_reset();
    if (!was || sealed || !setting("VELODROME_FORKS", 0))
        return; // under a filter of system calls it cannot open a trace
    if (mode == SERIAL)
        mode = EXACT;
    lines_reset();
    if (open_all(setting("VELODROME_SEED", 1)))
        STORE(on, 1);
}
static void start(void) {
    static int done;
    const char *out = getenv("VELODROME_OUT"), *listed = getenv("VELODROME_SITES");
    if (done++ || !out || !*out)
        return;
    u64 seed = setting("VELODROME_SEED", 1);
    mode = mode_of(getenv("VELODROME_MODE"));
    values = mode != FREE && setting("VELODROME_VALUES", 0);
    noise_open(seed);
    if ((listed && *listed && !sites_open(listed)) || !lines_open())
        return;
    if (!open_all(seed))
        return;
    pthread_atfork(0, 0, after_fork);
    if (mode == SERIAL)
        turns_open(seed);
    STORE(on, 1);
    if (mode == SERIAL)
        turns_watch();
}
void threads_start(void) {
    start();
}
__attribute__((constructor(101))) static void early(void) {
    start();
}
API void __tsan_init(void) {
    start();
}
__attribute__((destructor)) static void finish(void) {
    if (!head)
        return;
    if (own && !own->busy)
        settle(own);
    trace_close();
    if (setting("VELODROME_VERBOSE", 0))
        say("%lu chunks of records, %lu late, %lu seized, %lu switches, %lu waits by noise, %lu "
            "lost%s",
            head->chunks, head->late, head->seized, head->switches, head->noise, head->lost,
            head->stopped && head->stopped != ENDED ? ", stopped" : "");
}
