/* velodrome_pthread.h: variables, mutexes, condition variables and threads of C programs, watched;
 * by velodrome_session.h.
 *
 *     static vs_mutex lock = VS_MUTEX("lock");
 *     static VS_VARIABLE(long) balance = {100, VS_OBJECT("balance")};
 *
 *     void deposit(long n) {
 *         VELODROME_ATOMIC("deposit");
 *         vs_mutex_lock(&lock);
 *         VS_SET(balance, VS_GET(balance) + n);
 *         vs_mutex_unlock(&lock);
 *     }
 *
 * Each function returns what pthread's does. With VELODROME_OFF these are pthread's own, and
 * nothing is linked.
 */
#ifndef VELODROME_PTHREAD_H
#define VELODROME_PTHREAD_H
#include "velodrome_session.h"
#include <pthread.h>
#include <stdlib.h>
#include <time.h>

#ifdef VELODROME_OFF
#define VS_TELL_(object, kind) ((void)0)
#define VS_BEFORE_(object, kind) ((void)0)
#define VS_AFTER_() ((void)0)
#else
#define VS_TELL_(object, kind) (vs_idle() ? (void)0 : vs_tell(object, kind))
#define VS_BEFORE_(object, kind) unsigned vs_token_ = vs_before_at(object, kind, VS_HERE)
#define VS_AFTER_() vs_after(vs_token_)
#endif

/* A variable that threads share; VS_GET and VS_SET are its read and its write. One that files share
 * is declared in a header as `extern VS_VARIABLE(long) balance;`, and defined in one of them as
 * `VS_DEFINE(balance) = {100, VS_OBJECT("balance")};`. */
#define VS_VARIABLE(type)                                                                          \
    struct {                                                                                       \
        type value;                                                                                \
        vs_object object;                                                                          \
    }
#define VS_DEFINE(variable) __typeof__(variable) variable
#define VS_GET(variable)                                                                           \
    __extension__({                                                                                \
        VS_BEFORE_(&(variable).object, VS_READ);                                                   \
        __typeof__((variable).value) vs_value_ = (variable).value;                                 \
        VS_AFTER_();                                                                               \
        vs_value_;                                                                                 \
    })
#define VS_SET(variable, new_value)                                                                \
    __extension__({                                                                                \
        __typeof__((variable).value) vs_value_ = (new_value);                                      \
        VS_BEFORE_(&(variable).object, VS_WRITE);                                                  \
        (variable).value = vs_value_;                                                              \
        VS_AFTER_();                                                                               \
    })

typedef struct vs_mutex {
    pthread_mutex_t inner;
    vs_object object;
} vs_mutex;
#define VS_MUTEX(name)                                                                             \
    { PTHREAD_MUTEX_INITIALIZER, VS_OBJECT(name) }

static inline int vs_told_(int status, vs_mutex *m, vs_kind kind) {
    if (!status)
        VS_TELL_(&m->object, kind);
    (void)m;
    (void)kind;
    return status;
}

static inline int vs_mutex_init(vs_mutex *m, const pthread_mutexattr_t *attributes,
                                const char *name) {
    m->object = (vs_object)VS_OBJECT(name);
    return pthread_mutex_init(&m->inner, attributes);
}
static inline int vs_mutex_destroy(vs_mutex *m) {
    return pthread_mutex_destroy(&m->inner);
}
static inline int vs_mutex_lock(vs_mutex *m) {
    return vs_told_(pthread_mutex_lock(&m->inner), m, VS_ACQUIRE);
}
static inline int vs_mutex_trylock(vs_mutex *m) {
    return vs_told_(pthread_mutex_trylock(&m->inner), m, VS_ACQUIRE);
}
static inline int vs_mutex_unlock(vs_mutex *m) {
    VS_TELL_(&m->object, VS_RELEASE);
    return pthread_mutex_unlock(&m->inner);
}

/* A wait releases the mutex and acquires it again, and both are recorded. */
static inline int vs_cond_wait(pthread_cond_t *condition, vs_mutex *m) {
    VS_TELL_(&m->object, VS_RELEASE);
    int status = pthread_cond_wait(condition, &m->inner);
    VS_TELL_(&m->object, VS_ACQUIRE);
    return status;
}
static inline int vs_cond_timedwait(pthread_cond_t *condition, vs_mutex *m,
                                    const struct timespec *until) {
    VS_TELL_(&m->object, VS_RELEASE);
    int status = pthread_cond_timedwait(condition, &m->inner, until);
    VS_TELL_(&m->object, VS_ACQUIRE);
    return status;
}

#ifdef VELODROME_OFF
typedef struct vs_thread {
    pthread_t inner;
} vs_thread;
static inline int vs_thread_create(vs_thread *t, const pthread_attr_t *attributes,
                                   void *(*body)(void *), void *argument) {
    return pthread_create(&t->inner, attributes, body, argument);
}
static inline int vs_thread_join(vs_thread *t, void **result) {
    return pthread_join(t->inner, result);
}
#else
typedef struct vs_thread {
    pthread_t inner;
    vs_child child;
} vs_thread;

typedef struct vs_start_ {
    void *(*body)(void *);
    void *argument;
    vs_child child;
} vs_start_;

static inline void vs_ended_(void *start) {
    vs_exit(((vs_start_ *)start)->child);
}

static inline void *vs_run_(void *argument) {
    vs_start_ start = *(vs_start_ *)argument;
    free(argument);
    void *result;
    vs_born(start.child);
    pthread_cleanup_push(vs_ended_, &start); /* also where it ends by pthread_exit */
    result = start.body(start.argument);
    pthread_cleanup_pop(1);
    return result;
}

/* Another name for pthread_create and pthread_join. */
static inline int vs_thread_create(vs_thread *t, const pthread_attr_t *attributes,
                                   void *(*body)(void *), void *argument) {
    vs_start_ *start = (vs_start_ *)malloc(sizeof *start);
    if (!start)
        return 11; /* EAGAIN, as pthread_create has it */
    t->child = vs_fork();
    *start = (vs_start_){body, argument, t->child};
    int status = pthread_create(&t->inner, attributes, vs_run_, start);
    if (!status)
        return 0;
    vs_exit(t->child);
    free(start);
    return status;
}

static inline int vs_thread_join(vs_thread *t, void **result) {
    int status = pthread_join(t->inner, result);
    if (!status)
        vs_join(t->child);
    return status;
}
#endif
#endif
