// Mutexes, spin locks, reader-writer locks. An acquire is noted once the lock is held, a release
// while it still is.
#include "runtime.h"
#include <errno.h>
#include <sys/syscall.h>
#include <threads.h>
#include <unistd.h>

typedef pthread_mutex_t mutex;
typedef pthread_rwlock_t rwlock;
typedef pthread_spinlock_t spinlock;
#define M ((u64)m)

// ---- reader-writer locks: which of them the thread holds alone, since their unlock is one call
static void alone(struct self *t, void *m) {
    if (t->nwrites < 64)
        t->writes[t->nwrites++] = m;
}
static int was_alone(struct self *t, void *m) {
    for (int i = t->nwrites; i-- > 0;)
        if (t->writes[i] == m) {
            t->writes[i] = t->writes[--t->nwrites];
            return 1;
        }
    return 0;
}

static int got(int r) {
    return !r || r == EOWNERDEAD;
}
static void acquired(struct self *t, int r, int kind, int flags, void *m, int is_rwlock, u64 code) {
    if (!t)
        return;
    if (got(r)) {
        if (is_rwlock && kind == ACQ)
            alone(t, m);
        sync_event(t, kind | flags << 8, M, code);
    }
    leave(t);
}
// A lock that is not free is told before the thread waits for it: if it waits for ever, this stays.
static void blocked(struct self *t, enum wait what, u64 lock, int ends, u64 code) {
    stamp_alone(t);
    event(t, CONTENDED | (ends ? TRIED << 8 : 0), what, lock, code);
}
// Locks that wait: by turns they try, and wait for their turn.
#define LOCK(name, parameters, arguments, type, try, kind, what, until)                            \
    API int name parameters {                                                                      \
        REAL(name);                                                                                \
        struct self *t = enter();                                                                  \
        int r;                                                                                     \
        if (TURNS(t)) {                                                                            \
            REAL(try);                                                                             \
            u64 end = until;                                                                       \
            while ((r = real_##try(m)) == EBUSY)                                                   \
                if (wait_turn(t, what, m, end, CALLER)) {                                          \
                    r = ETIMEDOUT;                                                                 \
                    break;                                                                         \
                }                                                                                  \
        } else if (t) {                                                                            \
            REAL(try);                                                                             \
            if ((r = real_##try(m)) == EBUSY)                                                      \
                blocked(t, what, (u64)m, (until) != 0, CALLER);                                    \
            leave(t);                                                                              \
            if (!got(r))                                                                           \
                r = real_##name arguments;                                                         \
            t = enter();                                                                           \
        } else                                                                                     \
            r = real_##name arguments;                                                             \
        acquired(t, r, kind, 0, (void *)m, what == FOR_RWLOCK, CALLER);                            \
        return r;                                                                                  \
    }
#define TRY(name, type, kind, is_rwlock)                                                           \
    API int name(type *m) {                                                                        \
        REAL(name);                                                                                \
        struct self *t = enter();                                                                  \
        int r = real_##name(m);                                                                    \
        acquired(t, r, kind, TRIED, (void *)m, is_rwlock, CALLER);                                 \
        return r;                                                                                  \
    }
#define UNLOCK(name, type, kind)                                                                   \
    API int name(type *m) {                                                                        \
        REAL(name);                                                                                \
        struct self *t = enter();                                                                  \
        if (t)                                                                                     \
            sync_event(t, kind, M, CALLER);                                                        \
        int r = real_##name(m);                                                                    \
        if (TURNS(t))                                                                              \
            wake(m, 1), turn(t);                                                                   \
        if (t)                                                                                     \
            leave(t);                                                                              \
        return r;                                                                                  \
    }
typedef const struct timespec *when;

static int owns(mutex *m) {
    return m->__data.__owner == (int)syscall(SYS_gettid);
}
static int lock_mutex(mutex *m, u64 code) {
    REAL(pthread_mutex_lock);
    REAL(pthread_mutex_trylock);
    struct self *t = enter();
    int r;
    if (TURNS(t)) {
        while ((r = real_pthread_mutex_trylock(m)) == EBUSY) {
            if ((m->__data.__kind & 3) == PTHREAD_MUTEX_ERRORCHECK && owns(m)) {
                r = EDEADLK;
                break;
            }
            wait_turn(t, FOR_MUTEX, m, 0, code);
        }
    } else if (t) {
        if ((r = real_pthread_mutex_trylock(m)) == EBUSY)
            blocked(t, FOR_MUTEX, M, 0, code);
        leave(t);
        if (!got(r))
            r = real_pthread_mutex_lock(m);
        t = enter();
    } else
        r = real_pthread_mutex_lock(m);
    acquired(t, r, ACQ, 0, m, 0, code);
    return r;
}
static int try_mutex(mutex *m, u64 code) {
    REAL(pthread_mutex_trylock);
    struct self *t = enter();
    int r = real_pthread_mutex_trylock(m);
    acquired(t, r, ACQ, TRIED, m, 0, code);
    return r;
}
static int unlock_mutex(mutex *m, u64 code) {
    REAL(pthread_mutex_unlock);
    struct self *t = enter();
    if (t)
        sync_event(t, REL, M, code);
    int r = real_pthread_mutex_unlock(m);
    if (TURNS(t))
        wake(m, 1), turn(t);
    if (t)
        leave(t);
    return r;
}
API int pthread_mutex_lock(mutex *m) {
    return lock_mutex(m, CALLER);
}
API int pthread_mutex_trylock(mutex *m) {
    return try_mutex(m, CALLER);
}
API int pthread_mutex_unlock(mutex *m) {
    return unlock_mutex(m, CALLER);
}
LOCK(pthread_mutex_timedlock, (mutex * m, when x), (m, x), mutex, pthread_mutex_trylock, ACQ,
     FOR_MUTEX, deadline(x, CLOCK_REALTIME))
LOCK(pthread_mutex_clocklock, (mutex * m, clockid_t c, when x), (m, c, x), mutex,
     pthread_mutex_trylock, ACQ, FOR_MUTEX, deadline(x, c))

LOCK(pthread_spin_lock, (spinlock * m), (m), spinlock, pthread_spin_trylock, ACQ, FOR_SPIN, 0)
TRY(pthread_spin_trylock, spinlock, ACQ, 0)
UNLOCK(pthread_spin_unlock, spinlock, REL)

LOCK(pthread_rwlock_rdlock, (rwlock * m), (m), rwlock, pthread_rwlock_tryrdlock, ACQS, FOR_RWLOCK,
     0)
LOCK(pthread_rwlock_timedrdlock, (rwlock * m, when x), (m, x), rwlock, pthread_rwlock_tryrdlock,
     ACQS, FOR_RWLOCK, deadline(x, CLOCK_REALTIME))
LOCK(pthread_rwlock_clockrdlock, (rwlock * m, clockid_t c, when x), (m, c, x), rwlock,
     pthread_rwlock_tryrdlock, ACQS, FOR_RWLOCK, deadline(x, c))
LOCK(pthread_rwlock_wrlock, (rwlock * m), (m), rwlock, pthread_rwlock_trywrlock, ACQ, FOR_RWLOCK, 0)
LOCK(pthread_rwlock_timedwrlock, (rwlock * m, when x), (m, x), rwlock, pthread_rwlock_trywrlock,
     ACQ, FOR_RWLOCK, deadline(x, CLOCK_REALTIME))
LOCK(pthread_rwlock_clockwrlock, (rwlock * m, clockid_t c, when x), (m, c, x), rwlock,
     pthread_rwlock_trywrlock, ACQ, FOR_RWLOCK, deadline(x, c))
TRY(pthread_rwlock_tryrdlock, rwlock, ACQS, 1)
TRY(pthread_rwlock_trywrlock, rwlock, ACQ, 1)
UNLOCK(pthread_rwlock_unlock, rwlock, was_alone(t, m) ? REL : RELS)

// ---- C11
static int c11(int r) {
    return got(r)           ? thrd_success
           : r == EBUSY     ? thrd_busy
           : r == ETIMEDOUT ? thrd_timedout
                            : thrd_error;
}
API int mtx_lock(mtx_t *m) {
    return c11(lock_mutex((mutex *)m, CALLER));
}
API int mtx_trylock(mtx_t *m) {
    return c11(try_mutex((mutex *)m, CALLER));
}
API int mtx_unlock(mtx_t *m) {
    return c11(unlock_mutex((mutex *)m, CALLER));
}
API int mtx_timedlock(mtx_t *m, when x) {
    return c11(pthread_mutex_timedlock((mutex *)m, x));
}
