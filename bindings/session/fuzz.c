/* fuzz [RUNS [SEED]]: the session against the plain calls. A random run, with threads that are
 * played by one, is told to a session whose log is so short that it is cut again and again, and to
 * one handle that has room for all of it. The session has its alarm at the very event at which the
 * handle has it, and is incomplete only where a block stood open for too long. */
#include "velodrome.h"
#include "velodrome_session.h"
#include <stdio.h>
#include <stdlib.h>
#include <string.h>
enum { THREADS = 6, VARIABLES = 4, LOCKS = 3, DEPTH = 3, MOST = 120 };

static uint64_t state;
static unsigned draw(unsigned n) {
    state ^= state << 13;
    state ^= state >> 7;
    state ^= state << 17;
    return (unsigned)((state * 0x2545f4914f6cdd1dull >> 32) % n);
}

/* What is so in the run, to tell only what can be. Thread 0 is nobody; 1 opened the session. */
static struct {
    vs_self *self[THREADS];
    vs_child child[THREADS];
    int life[THREADS]; /* 0: not there, 1: acts, 2: its end was told, 3: joined */
    int depth[THREADS], told[THREADS], label[THREADS][DEPTH];
    int owner[LOCKS], times[LOCKS], share[LOCKS][THREADS];
    vs_object variable[VARIABLES], lock[LOCKS], labels[3];
    velodrome *handle;
    long events;
} run;

static bool refused;
static bool alarm_of_handle;
static void answered(velodrome_status status, const velodrome_answer *a) {
    refused |= status != 0;
    if (!status)
        run.events++;
    if (!status)
        alarm_of_handle = a->alarmed;
}

/* The handle is told of blocks when their first event comes, as the session does. */
static void in_blocks(int t) {
    velodrome_answer a;
    for (; run.told[t] < run.depth[t]; run.told[t]++)
        answered(velodrome_begin(run.handle, (uint32_t)t, (uint32_t)run.label[t][run.told[t]], &a),
                 &a);
}

static void open_block(int t) {
    if (run.depth[t] == DEPTH)
        return;
    run.label[t][run.depth[t]] = (int)draw(3);
    vs_begin(&run.labels[run.label[t][run.depth[t]++]]);
}

static void close_block(int t) {
    velodrome_answer a;
    vs_end();
    if (!run.depth[t])
        return;
    if (run.told[t] == run.depth[t]--) {
        answered(velodrome_end(run.handle, (uint32_t)t, &a), &a);
        run.told[t]--;
    }
}

static void access_variable(int t, bool write) {
    velodrome_answer a;
    int x = (int)draw(VARIABLES);
    in_blocks(t);
    vs_after(vs_before(&run.variable[x], write ? VS_WRITE : VS_READ));
    answered(write ? velodrome_write(run.handle, (uint32_t)t, (uint32_t)x, 0, &a)
                   : velodrome_read(run.handle, (uint32_t)t, (uint32_t)x, &a),
             &a);
}

static int sharers(int m) {
    int n = 0;
    for (int t = 0; t < THREADS; t++)
        n += run.share[m][t] > 0;
    return n;
}

static void use_lock(int t) {
    velodrome_answer a;
    int m = (int)draw(LOCKS);
    bool release = draw(2);
    if (run.owner[m] == t && release) {
        vs_tell(&run.lock[m], VS_RELEASE);
        if (--run.times[m])
            return;
        run.owner[m] = 0;
        in_blocks(t);
        answered(velodrome_release(run.handle, (uint32_t)t, (uint32_t)m, &a), &a);
    } else if (run.owner[m] == t || (!run.owner[m] && !sharers(m))) {
        vs_tell(&run.lock[m], VS_ACQUIRE);
        run.owner[m] = t;
        if (run.times[m]++)
            return;
        in_blocks(t);
        answered(velodrome_acquire(run.handle, (uint32_t)t, (uint32_t)m, &a), &a);
    }
}

static void use_share(int t) {
    velodrome_answer a;
    int m = (int)draw(LOCKS);
    bool release = draw(2);
    if (run.share[m][t] && release) {
        vs_tell(&run.lock[m], VS_RELEASE_SHARED);
        if (--run.share[m][t])
            return;
        in_blocks(t);
        answered(velodrome_release_shared(run.handle, (uint32_t)t, (uint32_t)m, &a), &a);
    } else if (!run.owner[m]) {
        vs_tell(&run.lock[m], VS_ACQUIRE_SHARED);
        if (run.share[m][t]++)
            return;
        in_blocks(t);
        answered(velodrome_acquire_shared(run.handle, (uint32_t)t, (uint32_t)m, &a), &a);
    }
}

static bool holds(int t) {
    for (int m = 0; m < LOCKS; m++)
        if (run.owner[m] == t || run.share[m][t])
            return true;
    return false;
}

static void start_thread(int t, int child) {
    velodrome_answer a;
    in_blocks(t);
    run.child[child] = vs_fork();
    run.self[child] = vs_self_new();
    vs_switch(run.self[child]);
    vs_born(run.child[child]);
    vs_switch(run.self[t]);
    run.life[child] = 1;
    answered(velodrome_fork(run.handle, (uint32_t)t, (uint32_t)child, &a), &a);
}

static void end_thread(int t) {
    if (run.depth[t] || holds(t))
        return;
    vs_exit(run.child[t]);
    run.life[t] = 2;
}

static void join_thread(int t, int child) {
    velodrome_answer a;
    answered(velodrome_exit(run.handle, (uint32_t)child, &a), &a);
    in_blocks(t);
    vs_join(run.child[child]);
    answered(velodrome_join(run.handle, (uint32_t)t, (uint32_t)child, &a), &a);
    run.life[child] = 3;
}

static void thread_step(int t) {
    int other = (int)draw(THREADS);
    if (other < 2 || other == t)
        return;
    if (run.life[other] == 0)
        start_thread(t, other);
    else if (run.life[other] == 2)
        join_thread(t, other);
    else if (run.life[other] == 1 && draw(8) == 0) {
        vs_switch(run.self[other]);
        end_thread(other);
    }
}

static void step(int t) {
    switch (draw(12)) {
    case 0:
    case 1:
        open_block(t);
        break;
    case 2:
    case 3:
    case 4:
        close_block(t);
        break;
    case 5:
    case 6:
        access_variable(t, false);
        break;
    case 7:
        access_variable(t, true);
        break;
    case 8:
    case 9:
        use_lock(t);
        break;
    case 10:
        use_share(t);
        break;
    default:
        thread_step(t);
    }
}

static void begin_run(uint32_t room) {
    velodrome_answer a;
    vs_options limits = {.events = room, .variables = 8, .locks = 8, .seed = 1};
    memset(&run, 0, sizeof run);
    alarm_of_handle = refused = false;
    velodrome_limits whole = {THREADS, VARIABLES, LOCKS, 100000, 64};
    velodrome_open(&run.handle, &whole);
    answered(velodrome_fork(run.handle, 0, 1, &a), &a);
    vs_open(&limits, false);
    run.self[1] = vs_self_new();
    run.life[1] = 1;
}

/* Whether the session stopped for another reason than that a block stood open for too long. */
static bool end_run(vs_session s) {
    char *report;
    vs_switch(NULL);
    bool other = vs_close(s, &report) == VS_INCOMPLETE && !strstr(report, "while a block was open");
    vs_free(report);
    velodrome_close(run.handle);
    for (int t = 0; t < THREADS; t++)
        vs_self_free(run.self[t]);
    return other;
}

/* 0: nothing, 1: an alarm, 2: the session gave up; -1: the two differ. */
static int one_run(uint32_t room) {
    begin_run(room);
    vs_session s = vs_current();
    int result = 0;
    for (long i = 0, n = 100 + draw(500); i < n && !result; i++) {
        int t = 1 + (int)draw(THREADS - 1);
        if (run.life[t] != 1)
            continue;
        vs_switch(run.self[t]);
        step(t);
        vs_verdict v = vs_so_far(s);
        if (v == VS_INCOMPLETE)
            result = 2;
        else if ((v == VS_ALARM) != alarm_of_handle || refused)
            result = -1;
        else if (v == VS_ALARM)
            result = 1;
    }
    return end_run(s) ? -1 : result;
}

int main(int argc, char **argv) {
    long runs = argc > 1 ? atol(argv[1]) : 20000, counts[4] = {0}, events = 0;
    state = argc > 2 ? strtoull(argv[2], NULL, 10) | 1 : 88172645463325252ull;
    for (long i = 0; i < runs; i++) {
        uint64_t seed = state;
        int result = one_run(MOST - draw(100));
        events += run.events;
        if (result < 0)
            printf("run %ld, seed %llu: they differ\n", i, (unsigned long long)seed);
        counts[result + 1]++;
    }
    printf("%ld runs, %ld events: %ld with an alarm, %ld where a block stood open for too long, "
           "%ld differ\n",
           runs, events, counts[2], counts[3], counts[0]);
    return counts[0] != 0 || counts[2] == 0 || counts[1] == 0;
}
