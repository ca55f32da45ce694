// Serial mode: one thread runs between hooks, and a seed says which one goes on. Waits for locks,
// conditions, semaphores, barriers, joins, time and descriptors are the scheduler's own, so that
// nobody waits in the kernel. A thread that is away in code without hooks loses its turn after a
// while.
#include "runtime.h"
#include <errno.h>
#include <linux/futex.h>
#include <sched.h>
#include <signal.h>
#include <stdio.h>
#include <stdlib.h>
#include <string.h>
#include <sys/syscall.h>
#include <unistd.h>

#define TURN_TAKES 100 // nanoseconds, by the program's clocks
#define A_WHILE 200000 // nanoseconds that one waits for what is outside
enum state { NONE, READY, RUNS, BLOCKED, AWAY, DONE };
static struct thread {
    enum state state;
    int go, timed, cancelled;
    enum wait what;
    const volatile void *at;
    u64 until, polled, code;
    long priority;
    struct self *self;
} threads[TURNS_MOST];
static enum { RANDOM, PCT, ROUND_ROBIN } strategy;
static int guard, runs = -1, top = 1, woken = -1;
static u64 chance, period, steps, slice, turns_taken, seize_after, changes[64], change_count;
static long lowest;
static u64 next_end; // of the waits that end by time, 0 if there is none

// ---- the scheduler's own lock. Who goes on is woken once it is open.
static void lock(void) {
    for (int n = 0; __atomic_exchange_n(&guard, 1, __ATOMIC_ACQUIRE); n++)
        if (n < 50)
            __builtin_ia32_pause();
        else
            syscall(SYS_sched_yield);
}
static void unlock(void) {
    int w = woken;
    woken = -1;
    STORE(guard, 0);
    if (w >= 0)
        futex(&threads[w].go, FUTEX_WAKE_PRIVATE, 1, 0);
}

// ---- who goes on
static int better(int i, int than) {
    return than < 0 || threads[i].priority > threads[than].priority;
}
// A thread that may go on, other than `but`. One that polls does not where nothing has happened
// since, unless forced.
static int choose(int but, int forced) {
    int seen = 0, pick = -1;
    for (int i = 0; i < top; i++) {
        if (threads[i].state != READY || i == but || (!forced && threads[i].polled == tick + 1ull))
            continue;
        if (strategy == PCT)
            pick = better(i, pick) ? i : pick;
        else if (strategy == RANDOM)
            pick = draw(&chance) % ++seen == 0 ? i : pick;
        else if (i > but)
            return i;
        else if (pick < 0)
            pick = i;
    }
    return pick;
}
static void end_wait(int n) { // its time is up
    u64 time = now();
    threads[n].timed = 1;
    if (threads[n].until > time)
        pass_time(threads[n].until - time);
}
static int soonest(void) {
    int pick = -1;
    for (int i = 0; i < top; i++)
        if (threads[i].state == BLOCKED && threads[i].until &&
            (pick < 0 || threads[i].until < threads[pick].until))
            pick = i;
    return pick;
}
static int is_any(enum state s) {
    for (int i = 0; i < top; i++)
        if (threads[i].state == s)
            return 1;
    return 0;
}
static void give(int n) {
    threads[n].state = RUNS, threads[n].polled = 0;
    STORE(runs, n);
    STORE(threads[n].go, 1);
    woken = n, slice = 0;
    head->switches++;
}
static void await(struct self *t) {
    struct thread *me = &threads[t->id];
    while (!LOAD(me->go))
        futex(&me->go, FUTEX_WAIT_PRIVATE, 0, 0);
    STORE(me->go, 0);
}
// The turn goes on; the caller, if it has to, waits until it has it again.
static void pass(struct self *t, enum state state) {
    int me = t->id, n = -1, waits = state == READY || state == BLOCKED;
    lock();
    threads[me].state = state;
    if (runs == me) { // else it was seized
        n = choose(state == READY && strategy != ROUND_ROBIN ? -1 : me, 0);
        if (n < 0)
            n = choose(state == READY ? -1 : me, 1);
        if (n < 0 && !is_any(AWAY) && (n = soonest()) >= 0)
            end_wait(n);
        if (n == me) {
            threads[me].state = RUNS, slice = 0;
            unlock();
            return;
        }
        if (n >= 0)
            give(n);
        else
            STORE(runs, -1);
    }
    unlock();
    if (waits)
        await(t);
}
static void come_back(struct self *t) {
    lock();
    if (runs == -1) {
        threads[t->id].state = RUNS;
        STORE(runs, (int)t->id);
        unlock();
        return;
    }
    threads[t->id].state = READY;
    unlock();
    await(t);
}
static int mine(const struct self *t) {
    return LOAD(runs) == (int)t->id;
}
static void turn_by_priority(struct self *t) {
    struct thread *me = &threads[t->id];
    for (u64 i = 0; i < change_count; i++)
        if (changes[i] == steps)
            me->priority = --lowest;
    if (slice > 20000)
        me->priority = --lowest, slice = 0; // it may wait in a loop for another one
    lock();
    int n = choose(t->id, 0), passes = n >= 0 && better(n, t->id);
    unlock();
    if (passes)
        pass(t, READY);
}
// Those whose time is up may go on.
static void end_waits(void) {
    u64 time = now();
    if (!next_end || time < next_end)
        return;
    lock();
    next_end = 0;
    for (int i = 0; i < top; i++) {
        if (threads[i].state != BLOCKED || !threads[i].until)
            continue;
        if (threads[i].until <= time) {
            threads[i].state = READY;
            threads[i].timed = 1;
        } else if (!next_end || threads[i].until < next_end)
            next_end = threads[i].until;
    }
    unlock();
}
// Before an event: the thread has the turn, and may have to pass it on.
void turn(struct self *t) {
    if (!t->turns)
        return;
    if (!mine(t))
        come_back(t);
    pass_time(TURN_TAKES);
    if (next_end)
        end_waits();
    steps++, slice++;
    __atomic_add_fetch(&turns_taken, 1, __ATOMIC_RELAXED);
    if (strategy == PCT)
        turn_by_priority(t);
    else if (strategy == RANDOM ? draw(&chance) % period == 0 : slice >= period)
        pass(t, READY);
}
void yield_turn(struct self *t) {
    if (strategy == PCT)
        threads[t->id].priority = --lowest;
    pass(t, READY);
}

// ---- waits
static int ends_by_cancel(enum wait w) {
    return w == FOR_TIME || w == FOR_CONDITION || w == FOR_SEMAPHORE || w == FOR_THREAD;
}
// A cancellation came, and the thread is to follow it at its next wait.
int cancelled(struct self *t) {
    int state;
    if (!t->turns || !threads[t->id].cancelled)
        return 0;
    pthread_setcancelstate(PTHREAD_CANCEL_DISABLE, &state);
    pthread_setcancelstate(state, 0);
    return state == PTHREAD_CANCEL_ENABLE;
}
int wait_turn(struct self *t, enum wait what, const volatile void *at, u64 until, u64 code) {
    struct thread *me = &threads[t->id];
    if (ends_by_cancel(what) && cancelled(t))
        return 1;
    me->what = what, me->at = at, me->until = until, me->timed = 0, me->code = code;
    if (until && (!next_end || until < next_end))
        next_end = until;
    pass(t, BLOCKED);
    me->until = 0;
    return me->timed;
}
void wake(const volatile void *at, int all) {
    int seen = 0, pick = -1;
    lock();
    for (int i = 0; i < top; i++) {
        if (threads[i].state != BLOCKED || threads[i].at != at)
            continue;
        if (all)
            threads[i].state = READY;
        else if (draw(&chance) % ++seen == 0)
            pick = i;
    }
    if (pick >= 0)
        threads[pick].state = READY;
    unlock();
}
void rest(struct self *t, u64 nanoseconds, u64 code) {
    if (strategy == PCT)
        threads[t->id].priority = --lowest;
    wait_turn(t, FOR_TIME, 0, now() + nanoseconds + 1, code);
}
void turns_cancel(u32 id) {
    if (id >= TURNS_MOST)
        return;
    lock();
    threads[id].cancelled = 1;
    if (threads[id].state == BLOCKED && ends_by_cancel(threads[id].what))
        threads[id].state = READY, threads[id].timed = 1;
    unlock();
}

// ---- threads
void turns_fork(u32 id) {
    if (id >= TURNS_MOST)
        return;
    lock();
    threads[id].priority = draw(&chance) >> 20, threads[id].state = READY;
    if ((int)id >= top)
        top = id + 1;
    unlock();
}
void turns_unfork(u32 id) {
    if (id < TURNS_MOST)
        threads[id].state = DONE;
}
void turns_begin(struct self *t) {
    t->turns = t->id < TURNS_MOST;
    if (!t->turns)
        return;
    threads[t->id].self = t;
    await(t);
}
void turns_end(struct self *t) {
    if (!t->turns)
        return;
    wake(turns_key(t->id), 1);
    threads[t->id].self = 0;
    pass(t, DONE);
}
int turns_ended(u32 id) {
    return id >= TURNS_MOST || threads[id].state == DONE;
}
const void *turns_key(u32 id) {
    return id < TURNS_MOST ? &threads[id] : 0;
}

// ---- calls that wait outside: the turn goes on meanwhile
int leave_turns(void) {
    struct self *t = own;
    if (!on || !t || t->busy)
        return 0;
    t->busy = 1;
    settle(t);
    int leaves = mode == SERIAL && t->turns;
    if (leaves) {
        if (!mine(t))
            come_back(t);
        pass(t, AWAY);
    }
    t->busy = 0;
    return leaves;
}
void rejoin_turns(int left) {
    int e = errno;
    if (!left)
        return;
    own->busy = 1;
    come_back(own);
    own->busy = 0;
    errno = e;
}
// Nothing can happen but from outside or by time: the next that polls looks again, in a while.
static void look_in_turn(struct self *t) {
    int me = t->id, n, idle = 0;
    lock();
    if ((n = soonest()) >= 0 && threads[n].until <= now())
        end_wait(n);
    else
        for (n = (me + 1) % top; n != me && threads[n].state != READY; n = (n + 1) % top) {
        }
    if (n == me)
        idle = 1;
    else
        threads[me].state = READY, give(n);
    unlock();
    if (!idle)
        await(t);
    struct timespec little = {0, A_WHILE};
    syscall(SYS_nanosleep, &little, 0);
    pass_time(A_WHILE);
    __atomic_add_fetch(&turns_taken, 1, __ATOMIC_RELAXED);
}
// A call that found nothing to do: 1, after others ran, if it is to look again; 0 if it has to wait
// outside.
int look_again(u64 until) {
    struct self *t = own;
    if (!TURNS_HERE || (until && now() >= until))
        return 0;
    int e = errno;
    t->busy = 1;
    settle(t);
    if (!mine(t))
        come_back(t);
    struct thread *me = &threads[t->id];
    lock();
    me->polled = tick + 1ull;
    int n = choose(t->id, 0);
    unlock();
    if (n >= 0 && strategy == PCT)
        me->priority = --lowest;
    if (n >= 0)
        pass(t, READY);
    else
        look_in_turn(t);
    me->polled = 0, t->busy = 0;
    errno = e;
    return 1;
}

// ---- the watchman lets others run while the thread that has the turn is away in code without
// hooks, and tells deadlocks
static u32 holder_of(const struct thread *t) { // plus one
    const pthread_mutex_t *m = (const pthread_mutex_t *)t->at;
    const pthread_rwlock_t *w = (const pthread_rwlock_t *)t->at;
    if (t->what == FOR_MUTEX)
        return thread_of_tid(m->__data.__owner);
    if (t->what == FOR_RWLOCK)
        return thread_of_tid(w->__data.__cur_writer);
    if (t->what == FOR_THREAD)
        return (const struct thread *)t->at - threads + 1;
    return 0;
}
static void tell_stuck(void) {
    static const char *const what[] = {
        "time",    "mutex", "reader-writer lock", "spin lock", "condition", "semaphore",
        "barrier", "once",  "the end of thread",  "futex"};
    say("deadlock. No thread can go on:");
    for (int i = 0; i < top; i++) {
        struct thread *t = &threads[i];
        if (t->state != BLOCKED)
            continue;
        u32 holder = holder_of(t);
        if (t->what == FOR_THREAD)
            say("  thread %d waits for the end of thread %u", i, holder - 1);
        else if (holder)
            say("  thread %d waits for the %s at %p, held by thread %u", i, what[t->what],
                (void *)t->at, holder - 1);
        else
            say("  thread %d waits for the %s at %p", i, what[t->what], (void *)t->at);
        if (!t->self)
            continue;
        stamp_alone(t->self);
        if (event(t->self, STUCK, t->what, t->what == FOR_THREAD ? 0 : (u64)t->at, t->code))
            more(t->self, 0, holder);
    }
    head->stuck = 1;
    _exit(97);
}
// Nobody can go on: each looks again whether what it waits for was done outside. If that changes
// nothing, it is a deadlock.
static void nobody(u64 idle_since) {
    static u64 asked_at;
    if (real_now() - idle_since < 200000000)
        return;
    if (asked_at == turns_taken + 1)
        tell_stuck();
    asked_at = turns_taken + 1;
    for (int i = 0; i < top; i++)
        if (threads[i].state == BLOCKED && threads[i].what != FOR_CONDITION &&
            threads[i].what != FOR_BARRIER)
            threads[i].state = READY;
}
static int stays_away(u64 since) { // who has the turn
    return since > seize_after && (since > 10 * seize_after ||
                                   is_asleep(runs)); // else it runs, or the system does not let it
}
static void look_around(u64 n, u64 *when, u64 *idle) {
    if (runs >= 0 && !stays_away(n - *when))
        return; // before anything is drawn
    int p = choose(-1, 1);
    if (p < 0 && (p = soonest()) >= 0) {
        if (threads[p].until <= now() || (runs < 0 && !is_any(AWAY)))
            end_wait(p);
        else
            p = -1;
    }
    if (p >= 0) {
        if (runs >= 0)
            threads[runs].state = AWAY, head->seized++;
        give(p), *when = n, *idle = 0;
    } else if (runs < 0 && is_any(BLOCKED) && !is_any(AWAY) && soonest() < 0) {
        if (!*idle)
            *idle = n;
        nobody(*idle);
    }
}
static void *watchman(void *unused) {
    u64 seen = 0, when = real_now(), looked = when, idle = 0;
    hide_thread();
    for (;;) {
        struct timespec little = {0, 2000000};
        syscall(SYS_nanosleep, &little, 0);
        u64 taken = LOAD(turns_taken), n = real_now();
        if (taken == seen && (LOAD(runs) < 0 || n - when > seize_after))
            pass_time(n - looked); // it passes outside
        looked = n;
        if (taken != seen) {
            seen = taken, when = n, idle = 0;
            if (LOAD(runs) >= 0)
                continue;
        }
        lock();
        look_around(n, &when, &idle);
        unlock();
    }
    return unused;
}

// ---- the start
void turns_open(u64 seed) {
    clocks_open();
    const char *s = getenv("VELODROME_STRATEGY");
    strategy = !s || !strcmp(s, "random") ? RANDOM : !strcmp(s, "pct") ? PCT : ROUND_ROBIN;
    chance = scramble(seed);
    period = setting("VELODROME_PERIOD", strategy == ROUND_ROBIN ? 100000 : 100);
    if (!period)
        period = 1;
    seize_after = setting("VELODROME_SEIZE_MS", 200) * 1000000;
    u64 most = setting("VELODROME_STEPS", 100000), depth = setting("VELODROME_DEPTH", 3);
    for (change_count = 0; change_count < depth && change_count < 64; change_count++)
        changes[change_count] = 1 + draw(&chance) % (most ? most : 1);
    cpu_set_t one; // a switch is cheapest on one processor
    CPU_ZERO(&one);
    CPU_SET(sched_getcpu(), &one);
    sched_setaffinity(0, sizeof one, &one);
    threads[0].state = RUNS, threads[0].priority = draw(&chance) >> 20, threads[0].self = own,
    runs = 0;
    own->turns = 1;
}
void turns_watch(void) {
    REAL(pthread_create);
    pthread_t w;
    sigset_t all, old;
    sigfillset(&all);
    pthread_sigmask(SIG_SETMASK, &all, &old);
    if (real_pthread_create(&w, 0, watchman, 0))
        say("no watchman: a thread that stays away keeps its turn");
    else
        pthread_detach(w);
    pthread_sigmask(SIG_SETMASK, &old, 0);
}
// In the child of a fork there is one thread, and it does not wait for turns.
void turns_reset(void) {
    guard = 0, runs = -1;
    clocks_close();
}
