// The locks and conditions of GLib, which it makes of futexes, in code that has no hooks where it
// is the system's. Of a GLib that was built with hooks, what its locks do inside is not told.
#include "runtime.h"

#define M ((u64)m)

// What is inside is the library's: no event, and none lost.
static void begin_inside(struct self *t) {
    if (t)
        t->busy = 3;
}
static void end_inside(struct self *t) {
    if (t)
        t->busy = 1;
}
static void got(struct self *t, int kind, int tried, void *m, u64 code) {
    if (!t)
        return;
    sync_event(t, kind | (tried ? TRIED << 8 : 0), M, code);
    leave(t);
}
static void lock(struct self *t, int kind, enum wait what, void (*wait)(void *), int (*try)(void *),
                 void *m, u64 code) {
    if (TURNS(t)) {
        for (;;) {
            begin_inside(t);
            int done = try(m);
            end_inside(t);
            if (done)
                break;
            wait_turn(t, what, m, 0, code);
        }
    } else {
        begin_inside(t);
        wait(m);
        end_inside(t);
    }
    got(t, kind, 0, m, code);
}
#define LOCK(name, try, kind, what)                                                                \
    int try(void *m);                                                                              \
    void name(void *m);                                                                            \
    API void name(void *m) {                                                                       \
        REAL(name);                                                                                \
        REAL(try);                                                                                 \
        lock(enter(), kind, what, real_##name, real_##try, m, CALLER);                             \
    }
#define TRY(name, kind)                                                                            \
    API int name(void *m) {                                                                        \
        REAL(name);                                                                                \
        struct self *t = enter();                                                                  \
        begin_inside(t);                                                                           \
        int done = real_##name(m);                                                                 \
        end_inside(t);                                                                             \
        if (done)                                                                                  \
            got(t, kind, 1, m, CALLER);                                                            \
        else if (t)                                                                                \
            leave(t);                                                                              \
        return done;                                                                               \
    }
#define UNLOCK(name, kind)                                                                         \
    void name(void *m);                                                                            \
    API void name(void *m) {                                                                       \
        REAL(name);                                                                                \
        struct self *t = enter();                                                                  \
        if (t)                                                                                     \
            sync_event(t, kind, M, CALLER);                                                        \
        begin_inside(t);                                                                           \
        real_##name(m);                                                                            \
        end_inside(t);                                                                             \
        if (TURNS(t)) {                                                                            \
            wake(m, 1);                                                                            \
            turn(t);                                                                               \
        }                                                                                          \
        if (t)                                                                                     \
            leave(t);                                                                              \
    }
LOCK(g_mutex_lock, g_mutex_trylock, ACQ, FOR_MUTEX)
TRY(g_mutex_trylock, ACQ)
UNLOCK(g_mutex_unlock, REL)
LOCK(g_rec_mutex_lock, g_rec_mutex_trylock, ACQ, FOR_MUTEX)
TRY(g_rec_mutex_trylock, ACQ)
UNLOCK(g_rec_mutex_unlock, REL)
LOCK(g_rw_lock_writer_lock, g_rw_lock_writer_trylock, ACQ, FOR_RWLOCK)
TRY(g_rw_lock_writer_trylock, ACQ)
UNLOCK(g_rw_lock_writer_unlock, REL)
LOCK(g_rw_lock_reader_lock, g_rw_lock_reader_trylock, ACQS, FOR_RWLOCK)
TRY(g_rw_lock_reader_trylock, ACQS)
UNLOCK(g_rw_lock_reader_unlock, RELS)

// ---- conditions: the mutex is released and acquired
static void before_wait(struct self *t, void *c, void *m, u64 code) {
    stamp_alone(t);
    event(t, WAIT, FOR_CONDITION, (u64)c, code);
    sync_event(t, REL, M, code);
}
void g_cond_wait(void *c, void *m);
int g_cond_wait_until(void *c, void *m, int64_t end);
static int wait_by_turns(struct self *t, void *c, void *m, u64 until, u64 code) {
    REAL(g_mutex_unlock);
    REAL(g_mutex_trylock);
    before_wait(t, c, m, code);
    begin_inside(t);
    real_g_mutex_unlock(m);
    end_inside(t);
    wake(m, 1);
    int late = wait_turn(t, FOR_CONDITION, c, until, code);
    for (;;) {
        begin_inside(t);
        int done = real_g_mutex_trylock(m);
        end_inside(t);
        if (done)
            break;
        wait_turn(t, FOR_MUTEX, m, 0, code);
    }
    got(t, ACQ, 0, m, code);
    return !late;
}
API void g_cond_wait(void *c, void *m) {
    REAL(g_cond_wait);
    struct self *t = enter();
    if (TURNS(t)) {
        wait_by_turns(t, c, m, 0, CALLER);
        return;
    }
    if (t)
        before_wait(t, c, m, CALLER);
    begin_inside(t);
    real_g_cond_wait(c, m);
    end_inside(t);
    got(t, ACQ, 0, m, CALLER);
}
// `end` is in microseconds of the monotonic clock.
API int g_cond_wait_until(void *c, void *m, int64_t end) {
    REAL(g_cond_wait_until);
    struct self *t = enter();
    if (TURNS(t)) {
        struct timespec x = {end / 1000000, end % 1000000 * 1000};
        return wait_by_turns(t, c, m, deadline(&x, CLOCK_MONOTONIC), CALLER);
    }
    if (t)
        before_wait(t, c, m, CALLER);
    begin_inside(t);
    int r = real_g_cond_wait_until(c, m, end);
    end_inside(t);
    got(t, ACQ, 0, m, CALLER);
    return r;
}
#define SIGNAL(name, all)                                                                          \
    void name(void *c);                                                                            \
    API void name(void *c) {                                                                       \
        REAL(name);                                                                                \
        struct self *t = enter();                                                                  \
        begin_inside(t);                                                                           \
        real_##name(c);                                                                            \
        end_inside(t);                                                                             \
        if (TURNS(t)) {                                                                            \
            wake(c, all);                                                                          \
            turn(t);                                                                               \
        }                                                                                          \
        if (t)                                                                                     \
            leave(t);                                                                              \
    }
SIGNAL(g_cond_signal, 0)
SIGNAL(g_cond_broadcast, 1)
