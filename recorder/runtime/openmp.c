// OpenMP as gcc compiles it: the start and the end of a team order what is before and after them,
// as do barriers and tasks, and critical sections are locks. What a thread does in a region is not
// the caller's: its blocks go on behind the region. libgomp itself has no hooks.
#include "runtime.h"
#include <stdlib.h>
#include <string.h>

#define HEADER 64 // bytes before a task's own data, a multiple of its alignment

typedef void (*routine)(void *);
struct team {
    routine run;
    void *data;
    char start, end, barrier, tasks; // what threads meet at
};
struct task {
    routine run;
    struct team *team;
    char *start;
    u64 header;
    void (*copy)(void *, void *);
    void *from;
};
static __thread struct team *team __attribute__((tls_model("initial-exec")));
static char any_critical, any_atomic, any_task;

static void tell(int kind, const void *at, u64 code) {
    note(kind, (u64)at, code);
}
static void wait_for(const void *at, int flags, u64 code) {
    struct self *t = enter();
    if (!t)
        return;
    stamp_alone(t);
    event(t, WAIT | flags << 8, FOR_TIME, (u64)at, code);
    leave(t);
}

// ---- teams
static void run_in_team(void *p) {
    struct team *outer = team;
    team = p;
    tell(SRD, &team->start, 0);
    team->run(team->data);
    tell(SRD, &team->tasks, 0);
    tell(SWR, &team->end, 0);
    team = outer;
}
static void begin_team(struct team *m, u64 code) {
    tell(SWR, &m->start, code);
    wait_for(m, LEAVES, code);
}
static void end_team(struct team *m, u64 code) {
    wait_for(m, RETURNS, code);
    tell(SRD, &m->end, code);
}
#define TEAM(name, parameters, arguments)                                                          \
    void name parameters;                                                                          \
    API void name parameters {                                                                     \
        REAL(name);                                                                                \
        struct team mine = {.run = run, .data = data};                                             \
        begin_team(&mine, CALLER);                                                                 \
        real_##name arguments;                                                                     \
        end_team(&mine, CALLER);                                                                   \
    }
#define LOOP(name)                                                                                 \
    TEAM(GOMP_parallel_loop_##name,                                                                \
         (routine run, void *data, unsigned n, long start, long end, long step, long chunk,        \
          unsigned flags),                                                                         \
         (run_in_team, &mine, n, start, end, step, chunk, flags))
#define LOOP_AT_RUN(name)                                                                          \
    TEAM(GOMP_parallel_loop_##name,                                                                \
         (routine run, void *data, unsigned n, long start, long end, long step, unsigned flags),   \
         (run_in_team, &mine, n, start, end, step, flags))
TEAM(GOMP_parallel, (routine run, void *data, unsigned n, unsigned flags),
     (run_in_team, &mine, n, flags))
TEAM(GOMP_parallel_sections, (routine run, void *data, unsigned n, unsigned count, unsigned flags),
     (run_in_team, &mine, n, count, flags))
LOOP(static)
LOOP(dynamic)
LOOP(guided)
LOOP(nonmonotonic_dynamic)
LOOP(nonmonotonic_guided)
LOOP_AT_RUN(runtime)
LOOP_AT_RUN(nonmonotonic_runtime)
LOOP_AT_RUN(maybe_nonmonotonic_runtime)
unsigned GOMP_parallel_reductions(routine run, void *data, unsigned n, unsigned flags);
API unsigned GOMP_parallel_reductions(routine run, void *data, unsigned n, unsigned flags) {
    REAL(GOMP_parallel_reductions);
    struct team mine = {.run = run, .data = data};
    begin_team(&mine, CALLER);
    unsigned r = real_GOMP_parallel_reductions(run_in_team, &mine, n, flags);
    end_team(&mine, CALLER);
    return r;
}

// ---- barriers
static void come(u64 code) {
    if (!team)
        return;
    wait_for(&team->barrier, LEAVES, code);
    tell(SWR, &team->barrier, code);
    wait_for(&team->barrier, RETURNS, code);
}
static void go(u64 code) {
    if (!team)
        return;
    tell(SRD, &team->barrier, code);
    tell(SRD, &team->tasks, code);
}
#define BARRIER(name, type, result, give)                                                          \
    type name(void);                                                                               \
    API type name(void) {                                                                          \
        REAL(name);                                                                                \
        come(CALLER);                                                                              \
        int left = leave_turns();                                                                  \
        result real_##name();                                                                      \
        rejoin_turns(left);                                                                        \
        go(CALLER);                                                                                \
        give;                                                                                      \
    }
BARRIER(GOMP_barrier, void, , )
BARRIER(GOMP_loop_end, void, , )
BARRIER(GOMP_sections_end, void, , )
BARRIER(GOMP_barrier_cancel, char, char r =, return r)
BARRIER(GOMP_loop_end_cancel, char, char r =, return r)
BARRIER(GOMP_sections_end_cancel, char, char r =, return r)

// ---- one thread's work, whose result the others take
void *GOMP_single_copy_start(void);
API void *GOMP_single_copy_start(void) {
    REAL(GOMP_single_copy_start);
    int left = leave_turns();
    void *r = real_GOMP_single_copy_start();
    rejoin_turns(left);
    if (r && team)
        tell(SRD, &team->barrier, CALLER);
    return r;
}
void GOMP_single_copy_end(void *data);
API void GOMP_single_copy_end(void *data) {
    REAL(GOMP_single_copy_end);
    if (team)
        tell(SWR, &team->barrier, CALLER);
    int left = leave_turns();
    real_GOMP_single_copy_end(data);
    rejoin_turns(left);
}

// ---- critical sections and locks
#define CRITICAL(name, parameters, arguments, start, end, at)                                      \
    void name##start parameters;                                                                   \
    void name##end parameters;                                                                     \
    API void name##start parameters {                                                              \
        REAL(name##start);                                                                         \
        int left = leave_turns();                                                                  \
        real_##name##start arguments;                                                              \
        rejoin_turns(left);                                                                        \
        tell(ACQ, at, CALLER);                                                                     \
    }                                                                                              \
    API void name##end parameters {                                                                \
        REAL(name##end);                                                                           \
        tell(REL, at, CALLER);                                                                     \
        real_##name##end arguments;                                                                \
    }
CRITICAL(GOMP_critical_, (void), (), start, end, &any_critical)
CRITICAL(GOMP_critical_name_, (void **at), (at), start, end, at)
CRITICAL(GOMP_atomic_, (void), (), start, end, &any_atomic)
CRITICAL(omp_, (void *at), (at), set_lock, unset_lock, at)
CRITICAL(omp_, (void *at), (at), set_nest_lock, unset_nest_lock, at)
#define TEST(name)                                                                                 \
    int name(void *at);                                                                            \
    API int name(void *at) {                                                                       \
        REAL(name);                                                                                \
        int r = real_##name(at);                                                                   \
        if (r)                                                                                     \
            tell(ACQ | TRIED << 8, at, CALLER);                                                    \
        return r;                                                                                  \
    }
TEST(omp_test_lock)
TEST(omp_test_nest_lock)

// ---- tasks: their data is copied behind a header
static void run_task(void *p) {
    struct task t = *(struct task *)p;
    struct team *outer = team;
    team = t.team;
    tell(SRD, t.start, 0);
    t.run((char *)p + t.header);
    tell(SWR, t.team ? &t.team->tasks : &any_task, 0);
    team = outer;
    free(t.start);
}
static void copy_task(void *to, void *from) {
    struct task *t = from;
    memcpy(to, from, sizeof *t);
    t->copy((char *)to + t->header, t->from);
}
typedef void (*copier)(void *, void *);
void GOMP_task(routine run, void *data, copier copy, long bytes, long alignment, char at_once,
               unsigned flags, void **depends, int priority, void *detach);
API void GOMP_task(routine run, void *data, copier copy, long bytes, long alignment, char at_once,
                   unsigned flags, void **depends, int priority, void *detach) {
    REAL(GOMP_task);
    u64 header = alignment > HEADER ? alignment : HEADER;
    struct task *t = on ? malloc(header + bytes) : 0;
    char *start = t ? malloc(1) : 0;
    if (!start) {
        free(t);
        real_GOMP_task(run, data, copy, bytes, alignment, at_once, flags, depends, priority,
                       detach);
        return;
    }
    *t = (struct task){run, team, start, header, copy, data};
    tell(SWR, start, CALLER);
    if (!copy)
        memcpy((char *)t + header, data, bytes);
    real_GOMP_task(run_task, t, copy ? copy_task : 0, header + bytes,
                   alignment > 16 ? alignment : 16, at_once, flags, depends, priority, detach);
    free(t);
}
#define TASKS_DONE(name)                                                                           \
    void name(void);                                                                               \
    API void name(void) {                                                                          \
        REAL(name);                                                                                \
        wait_for(&any_task, 0, CALLER);                                                            \
        int left = leave_turns();                                                                  \
        real_##name();                                                                             \
        rejoin_turns(left);                                                                        \
        tell(SRD, team ? &team->tasks : &any_task, CALLER);                                        \
    }
TASKS_DONE(GOMP_taskwait)
TASKS_DONE(GOMP_taskgroup_end)
