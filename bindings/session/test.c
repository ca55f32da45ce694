/* test: what velodrome_session.h promises and a shell does not show. Threads come and go as they
 * like; run it under ThreadSanitizer. */
#define _GNU_SOURCE
#include "velodrome_session.h"
#include <pthread.h>
#include <sched.h>
#include <setjmp.h>
#include <signal.h>
#include <stdatomic.h>
#include <stdio.h>
#include <stdlib.h>
#include <string.h>
#include <sys/stat.h>
#include <sys/time.h>
#include <sys/wait.h>
#include <time.h>
#include <unistd.h>

static int failed;
static void expect(bool holds, const char *what, int line) {
    if (holds)
        return;
    printf("    line %d: %s\n", line, what);
    failed = 1;
}
#define EXPECT(x) expect(x, #x, __LINE__)

static void get(vs_object *o) {
    vs_after(vs_before(o, VS_READ));
}
static void set(vs_object *o) {
    vs_after(vs_before(o, VS_WRITE));
}
static void *set_it(void *o) {
    set(o);
    return NULL;
}
/* By a thread that nobody told of. */
static void set_apart(vs_object *o) {
    pthread_t t;
    pthread_create(&t, NULL, set_it, o);
    pthread_join(t, NULL);
}
static void pause_for(long us) {
    nanosleep(&(struct timespec){0, us * 1000}, NULL);
}

static void lost_update(vs_object *o) {
    VELODROME_ATOMIC("add");
    get(o);
    set_apart(o);
    set(o);
}

static void what_is_not_there(void) {
    vs_session old = vs_open(NULL, true);
    EXPECT(vs_so_far(old) == VS_CLEAN && vs_close(old, NULL) == VS_INCOMPLETE);
    for (int i = 0; i < 3; i++) {
        vs_session s = i == 0 ? 0 : i == 1 ? old : 1234567;
        char *report = "x";
        bool fails;
        EXPECT(vs_close(s, &report) == VS_INCOMPLETE && !report == (s != 0) &&
               vs_so_far(s) == VS_INCOMPLETE && !vs_save(s, "none.vlog"));
        vs_free(report);
        EXPECT(vs_finish(s, "none", &report, &fails) == VS_INCOMPLETE && fails);
        vs_free(report);
        vs_enter(s);
        EXPECT(vs_current() == 0);
        vs_child child = {s, 1};
        vs_born(child);
        vs_join(child);
        vs_exit(child);
    }
    vs_object x = VS_OBJECT("x");
    set(&x);
    vs_after(0);
    vs_end();
    vs_free(NULL);
    vs_self_free(NULL);
    EXPECT(vs_idle() && x.tag == 0);
    vs_session s = vs_open(NULL, true);
    EXPECT(s != old);
    vs_close(s, NULL);
}

static int left_early(int how) {
    static vs_object x = VS_OBJECT("x");
    for (int i = 0; i < 3; i++) {
        VELODROME_ATOMIC("b");
        set(&x);
        if (how == 0)
            return 1;
        if (how == 1)
            break;
        if (how == 2)
            continue;
        goto out;
    }
out:
    set_apart(&x);
    return 0;
}
static void blocks_end_with_their_scope(void) {
    vs_session s = vs_open(NULL, true);
    for (int how = 0; how < 4; how++)
        left_early(how);
    vs_object y = VS_OBJECT("y");
    set(&y);
    set_apart(&y);
    set(&y); /* outside blocks, so no cycle */
    EXPECT(vs_close(s, NULL) == VS_CLEAN);
}

static void sessions_nest(void) {
    vs_object x = VS_OBJECT("x"), y = VS_OBJECT("y");
    vs_session a = vs_open(NULL, false), b = vs_open(NULL, true);
    EXPECT(vs_current() == b);
    lost_update(&y);
    EXPECT(vs_close(b, NULL) == VS_ALARM && vs_current() == a);
    lost_update(&x);
    EXPECT(vs_close(a, NULL) == VS_ALARM && vs_current() == 0);
}

static void
an_object_of_a_closed_session_is_anyones(void) { /* also where another session has its slot */
    static vs_object x = VS_OBJECT("x");
    vs_session a = vs_open(NULL, false);
    set(&x);
    EXPECT(vs_close(a, NULL) == VS_CLEAN);
    vs_session b = vs_open(NULL, false);
    vs_enter(0);
    vs_session c = vs_open(NULL, true);
    lost_update(&x);
    EXPECT(vs_close(c, NULL) == VS_ALARM && vs_close(b, NULL) == VS_INCOMPLETE);
}

static void tasks_are_themselves(void) { /* two tasks of one thread lose an update, and the end of
                                            one's block is not the other's */
    vs_session s = vs_open(NULL, true);
    vs_object x = VS_OBJECT("x"), label = VS_OBJECT("task");
    vs_self *task[2] = {vs_self_new(), vs_self_new()};
    for (int i = 0; i < 2; i++) {
        EXPECT(vs_switch(task[i]) == NULL);
        vs_begin(&label);
        get(&x);
        EXPECT(vs_switch(NULL) == task[i]);
    }
    for (int i = 0; i < 2; i++) {
        vs_switch(task[i]);
        set(&x);
        vs_end();
        vs_switch(NULL);
    }
    EXPECT(vs_close(s, NULL) == VS_ALARM);
    for (int i = 0; i < 2; i++)
        vs_self_free(task[i]);
}

static void *act_as(void *self) {
    static vs_object x = VS_OBJECT("x");
    vs_switch(self);
    get(&x);
    set(&x);
    vs_end();
    return NULL;
}
static void a_task_goes_from_thread_to_thread(void) {
    vs_session s = vs_open(NULL, false);
    static vs_object label = VS_OBJECT("task");
    vs_self *task = vs_self_new();
    for (int i = 0; i < 100; i++) {
        vs_self *mine = vs_switch(task);
        vs_begin(&label);
        vs_switch(mine);
        pthread_t t;
        pthread_create(&t, NULL, act_as, task);
        pthread_join(t, NULL);
    }
    EXPECT(vs_close(s, NULL) == VS_CLEAN);
    vs_self_free(task);
}

static _Atomic int hook_state;
static void slow_hook(void *data, const vs_alarm *a) {
    EXPECT(data == &hook_state && a->first.event && strcmp(a->second.event, "writes x") == 0 &&
           strstr(a->report, "not atomic: add"));
    hook_state = 1;
    pause_for(30000);
    set(&(vs_object)VS_OBJECT("of the hook"));
    hook_state = 2;
}
static void *lose(void *o) {
    lost_update(o);
    return NULL;
}
static void close_waits_for_the_hook(void) {
    vs_options o = {.alarm = slow_hook, .data = &hook_state};
    vs_session s = vs_open(&o, true);
    vs_object x = VS_OBJECT("x");
    pthread_t t;
    pthread_create(&t, NULL, lose, &x);
    while (!hook_state)
        sched_yield();
    char *report;
    EXPECT(vs_close(s, &report) == VS_ALARM && hook_state == 2 && report);
    vs_free(report);
    pthread_join(t, NULL);
}
static void closing_hook(void *data, const vs_alarm *a) {
    *(vs_verdict *)data = vs_close(a->session, NULL);
}
static void a_hook_may_close(void) {
    vs_verdict v = VS_CLEAN;
    vs_options o = {.alarm = closing_hook, .data = &v};
    vs_session s = vs_open(&o, true);
    vs_object x = VS_OBJECT("x");
    lost_update(&x);
    EXPECT(v == VS_ALARM && vs_so_far(s) == VS_INCOMPLETE && vs_idle());
}

/* Threads act without a stop while sessions come and go. */
static _Atomic bool over;
static vs_object shared_variable = VS_OBJECT("v"), shared_lock = VS_OBJECT("l");
static pthread_mutex_t real_lock = PTHREAD_MUTEX_INITIALIZER;
static void *act(void *unused) {
    (void)unused;
    while (!over) {
        VELODROME_ATOMIC("act");
        pthread_mutex_lock(&real_lock);
        vs_tell(&shared_lock, VS_ACQUIRE);
        get(&shared_variable);
        set(&shared_variable);
        vs_tell(&shared_lock, VS_RELEASE);
        pthread_mutex_unlock(&real_lock);
        sched_yield();
    }
    return NULL;
}
static void sessions_come_and_go(void) {
    pthread_t t[4];
    for (int i = 0; i < 4; i++)
        pthread_create(&t[i], NULL, act, NULL);
    int wrong = 0;
    for (int i = 0; i < 300; i++) {
        vs_options o = {.events = 100, .variables = 8, .locks = 8, .noise = i % 3 == 0 ? 8 : 0};
        vs_session s = vs_open(&o, true);
        pause_for(200);
        wrong += vs_close(s, NULL) ==
                 VS_ALARM; /* it may have been too short for the blocks, but none is to blame */
    }
    over = true;
    for (int i = 0; i < 4; i++)
        pthread_join(t[i], NULL);
    EXPECT(!wrong);
}
static void
a_crowded_run_is_cut(void) { /* blocks are open nearly always, and yet it has a verdict */
    pthread_t t[4];
    over = false;
    vs_options o = {.events = 20000};
    vs_session s = vs_open(&o, true);
    for (int i = 0; i < 4; i++)
        pthread_create(&t[i], NULL, act, NULL);
    pause_for(900000);
    over = true;
    for (int i = 0; i < 4; i++)
        pthread_join(t[i], NULL);
    char *report;
    EXPECT(vs_close(s, &report) == VS_CLEAN);
    if (report)
        printf("    %s", report);
    vs_free(report);
}

/* Two sessions used inside one another, crosswise: nobody waits for ever. */
static vs_object crossing[2] = {VS_OBJECT("a"), VS_OBJECT("b")};
static pthread_barrier_t both;
static void *cross(void *mine) {
    vs_object *first = mine, *second = &crossing[first == crossing];
    unsigned token = vs_before(first, VS_WRITE);
    pthread_barrier_wait(&both);
    set(second);
    vs_after(token);
    return NULL;
}
static void sessions_crosswise(void) {
    vs_session s[2];
    pthread_t t[2];
    pthread_barrier_init(&both, NULL, 2);
    for (int i = 0; i < 2; i++) {
        s[i] = vs_open(NULL, false);
        set(&crossing[i]);
    }
    vs_enter(0);
    for (int i = 0; i < 2; i++)
        pthread_create(&t[i], NULL, cross, &crossing[i]);
    for (int i = 0; i < 2; i++)
        pthread_join(t[i], NULL);
    int incomplete = 0;
    for (int i = 0; i < 2; i++)
        incomplete += vs_close(s[i], NULL) == VS_INCOMPLETE;
    EXPECT(incomplete >= 1);
}

static void a_child_of_fork_is_on_its_own(void) {
    vs_session s = vs_open(NULL, true);
    static vs_object x = VS_OBJECT("x");
    set(&x);
    int status;
    pid_t child = fork();
    if (!child) {
        bool fine = vs_idle() && vs_so_far(s) == VS_INCOMPLETE;
        vs_session mine = vs_open(NULL, true);
        lost_update(&x);
        fine = fine && mine && mine != s && vs_close(mine, NULL) == VS_ALARM;
        _exit(fine ? 0 : 1);
    }
    waitpid(child, &status, 0);
    EXPECT(status == 0 && vs_close(s, NULL) == VS_CLEAN);
}

static void a_thread_met_in_a_block_is_no_child_of_it(
    void) { /* such as one of a pool that is older than the session */
    vs_session s = vs_open(NULL, true);
    vs_object x = VS_OBJECT("x"), y = VS_OBJECT("y"), label = VS_OBJECT("block");
    vs_begin(&label);
    set(&x);
    set_apart(&y);
    get(&y);
    vs_end();
    EXPECT(vs_close(s, NULL) == VS_CLEAN);
}

static void a_full_log_is_told_and_nothing_else(void) {
    vs_options few = {.events = 20};
    vs_session s = vs_open(&few, true);
    vs_object x = VS_OBJECT("x"), l = VS_OBJECT("l"), label = VS_OBJECT("block");
    vs_begin(&label);
    for (int i = 0; i < 100; i++) {
        vs_tell(&l, VS_ACQUIRE);
        set(&x);
        vs_tell(&l, VS_RELEASE);
    }
    vs_end();
    set_apart(&x);
    char *report;
    EXPECT(vs_close(s, &report) == VS_INCOMPLETE &&
           strstr(report, "too many events while a block was open"));
    vs_free(report);
}

static void a_lock_of_another_kind(void) { /* released by a thread that did not take it: it cannot
                                              be told, and the program goes on */
    vs_session s = vs_open(NULL, true);
    static vs_object l = VS_OBJECT("l");
    vs_tell(&l, VS_ACQUIRE);
    vs_switch(vs_self_new());
    vs_tell(&l, VS_RELEASE);
    vs_self_free(vs_switch(NULL));
    char *report;
    EXPECT(vs_close(s, &report) == VS_INCOMPLETE &&
           strstr(report, "released by a thread that does not hold it"));
    vs_free(report);
}

/* ---- whose block it is */

static void expect_report(vs_session s, vs_verdict wanted, const char *words, int line) {
    char *report;
    vs_verdict got = vs_close(s, &report);
    bool fine = got == wanted && (!words || (report && strstr(report, words)));
    expect(fine, words ? words : "the verdict", line);
    if (!fine)
        printf("    %d: %s\n", got, report ? report : "");
    vs_free(report);
}
#define EXPECT_END(session, verdict, words) expect_report(session, verdict, words, __LINE__)

/* In another thread, which ends then. */
static void apart(void *(*body)(void *), void *argument) {
    pthread_t t;
    pthread_create(&t, NULL, body, argument);
    pthread_join(t, NULL);
}

/* Reads, and lets another thread write, and writes: an alarm where it is all in one block. */
static void add_around(vs_object *o) {
    get(o);
    set_apart(o);
    set(o);
}

static vs_block begin(void) {
    static vs_object label = VS_OBJECT("block");
    return vs_begin_block(&label);
}

static void *end_it(void *block) {
    vs_end_block(*(vs_block *)block);
    return NULL;
}

static jmp_buf out_of_test;
static void jump_out(vs_object *o) {
    VELODROME_ATOMIC("left by a jump");
    get(o);
    longjmp(out_of_test, 1);
}
static void a_test_that_is_left(vs_object *o) {
    vs_session s = vs_open(NULL, true);
    add_around(o);
    if (!setjmp(out_of_test))
        jump_out(o);
    EXPECT_END(s, VS_CLEAN, NULL);
}
static void
a_jump_out_of_a_block(void) { /* as an assertion leaves its test: the next one has no block */
    static vs_object x = VS_OBJECT("x");
    for (int i = 0; i < 100; i++)
        a_test_that_is_left(&x);
    vs_session s = vs_open(NULL, true);
    lost_update(&x); /* and its own blocks count */
    EXPECT_END(s, VS_ALARM, "not atomic: add");
}

static void a_jump_out_of_an_inner_block(void) { /* it ends with the outer one */
    vs_object x = VS_OBJECT("x");
    vs_session s = vs_open(NULL, true);
    vs_block outer = begin();
    if (!setjmp(out_of_test))
        jump_out(&x);
    vs_end_block(outer);
    add_around(&x);
    EXPECT_END(s, VS_CLEAN, NULL);
}

static void a_block_is_ended_by_another_thread(void) { /* and what its own thread does then is in no
                                                          block; but what was, is not known */
    vs_object x = VS_OBJECT("x");
    vs_session s = vs_open(NULL, true);
    vs_block block = begin();
    get(&x);
    apart(end_it, &block);
    add_around(&x);
    EXPECT_END(s, VS_INCOMPLETE, "a block was ended by another thread");
    s = vs_open(NULL, true);
    add_around(&x);
    EXPECT_END(s, VS_CLEAN, NULL);
}

static void an_alarm_in_a_block_that_another_thread_ends(void) {
    vs_object x = VS_OBJECT("x");
    vs_session s = vs_open(NULL, true);
    vs_block block = begin();
    add_around(&x);
    EXPECT(vs_so_far(s) == VS_ALARM);
    apart(end_it, &block);
    EXPECT_END(s, VS_INCOMPLETE, "not atomic: block");
}

static void *add_in_a_block_and_end(void *block) {
    static vs_object x = VS_OBJECT("x");
    vs_block mine = begin();
    get(&x);
    vs_end_block(*(vs_block *)block);
    set_apart(&x);
    set(&x);
    vs_end_block(mine);
    return NULL;
}
static void an_end_of_anothers_block_is_not_that_of_ones_own(void) {
    vs_session s = vs_open(NULL, true);
    vs_block block = begin(); /* without an event: its end by another does no harm */
    apart(add_in_a_block_and_end, &block);
    EXPECT_END(s, VS_ALARM, "not atomic: block");
}

static void blocks_of_one_thread_that_do_not_nest(void) { /* as those of two fibers */
    vs_object x = VS_OBJECT("x");
    vs_session s = vs_open(NULL, true);
    vs_block one = begin();
    get(&x);
    vs_block two = begin();
    get(&x);
    set(&x);
    vs_end_block(one);
    set(&x);
    vs_end_block(two);
    EXPECT_END(s, VS_INCOMPLETE, "do not nest");
}

static void a_block_outlives_its_session(void) { /* its end is not that of a later one */
    vs_object x = VS_OBJECT("x");
    vs_session s = vs_open(NULL, true);
    vs_block old = begin();
    get(&x);
    EXPECT_END(s, VS_CLEAN, NULL);
    s = vs_open(NULL, true);
    add_around(&x); /* in no block of this session */
    vs_block own = begin();
    get(&x);
    vs_end_block(old);
    set_apart(&x);
    set(&x);
    vs_end_block(own);
    EXPECT_END(s, VS_ALARM, "not atomic: block");
}

static void the_blocks_of_a_task_that_goes(void) { /* end with it, and nobody else's do */
    vs_object x = VS_OBJECT("x");
    vs_session s = vs_open(NULL, true);
    vs_block own = begin();
    get(&x);
    vs_self *task = vs_self_new();
    vs_switch(task);
    vs_block its = begin();
    get(&x);
    vs_switch(NULL);
    vs_self_free(task);
    vs_end_block(its);
    set_apart(&x);
    set(&x);
    vs_end_block(own);
    EXPECT_END(s, VS_ALARM, "not atomic: block");
}

static void ends_that_came_already(void) {
    vs_object x = VS_OBJECT("x");
    vs_session s = vs_open(NULL, true);
    vs_block first = begin();
    get(&x);
    vs_end_block(first);
    vs_block own = begin();
    get(&x);
    vs_end_block(first);
    vs_end_block((vs_block){0, 0});
    set_apart(&x);
    set(&x);
    vs_end_block(own);
    EXPECT_END(s, VS_ALARM, NULL);
}

/* ---- threads and their numbers */

typedef struct started {
    vs_child child;
    vs_object *object;
    vs_block block;
} started;
static void *act_once(void *argument) {
    started *it = argument;
    vs_born(it->child);
    set(it->object);
    vs_exit(it->child);
    return NULL;
}
static void *start_many(void *object) {
    for (int i = 0; i < 300; i++) {
        started one = {.child = vs_fork(), .object = object};
        apart(act_once, &one);
        vs_join(one.child);
    }
    get(object);
    return NULL;
}
static void numbers_of_joined_threads_are_used_again(void) { /* also while a block is open */
    static vs_object x = VS_OBJECT("x"), y = VS_OBJECT("y");
    vs_session s = vs_open(NULL, true);
    vs_block block = begin();
    set(&y);
    apart(start_many, &x);
    set(&y);
    vs_end_block(block);
    EXPECT_END(s, VS_CLEAN, NULL);
    s = vs_open(NULL, true);
    block = begin();
    set(&x);
    apart(start_many, &x); /* it is told of them all: between the two writes of a block */
    set(&x);
    vs_end_block(block);
    EXPECT_END(s, VS_ALARM, "not atomic: block");
}

static void *read_then_joined(void *argument) {
    started *it = argument;
    vs_born(it->child);
    it->block = begin();
    get(it->object);
    vs_exit(it->child);
    return NULL;
}
static void a_number_is_used_again_by_its_joiner_alone(void) {
    /* A block reads a; one thread writes it, and is joined; another one starts a thread that writes
     * b; the block reads b. Were the two threads one, that would be a cycle. */
    static vs_object a = VS_OBJECT("a"), b = VS_OBJECT("b"), unused = VS_OBJECT("unused");
    vs_session s = vs_open(NULL, true);
    vs_self *joiner = vs_self_new(), *starter = vs_self_new();
    vs_block block = begin();
    get(&a);
    vs_switch(joiner);
    for (int i = 0; i < 50; i++) {
        started one = {.child = vs_fork(), .object = i < 49 ? &unused : &a};
        apart(act_once, &one);
        if (i == 49)
            vs_join(one.child);
    }
    vs_switch(starter);
    started two = {.child = vs_fork(), .object = &b};
    apart(act_once, &two);
    vs_join(two.child);
    vs_switch(NULL);
    get(&b);
    vs_end_block(block);
    EXPECT_END(s, VS_CLEAN, NULL);
    vs_self_free(joiner);
    vs_self_free(starter);
}

static void a_thread_acts_after_it_was_joined(void) { /* as what is local to it goes */
    static vs_object x = VS_OBJECT("x");
    vs_session s = vs_open(NULL, true);
    vs_self *thread = vs_self_new();
    started it = {.child = vs_fork(), .object = &x};
    vs_switch(thread);
    read_then_joined(&it);
    vs_switch(NULL);
    vs_join(it.child);
    vs_switch(thread);
    set(&x);
    vs_switch(NULL);
    get(&x);
    EXPECT_END(s, VS_CLEAN, NULL);
    vs_self_free(thread);
}

static _Atomic int come;
static void *be_in_a_block(void *object) {
    vs_block block = begin();
    set(object);
    come = 1;
    while (come < 2)
        sched_yield();
    pause_for(50000);
    set(object);
    vs_end_block(block);
    return NULL;
}
static void who_is_crowded_waits(void) { /* more threads than numbers, until the block has ended */
    static vs_object x = VS_OBJECT("x"), y = VS_OBJECT("y");
    pthread_t t;
    vs_session s = vs_open(NULL, true);
    come = 0;
    pthread_create(&t, NULL, be_in_a_block, &x);
    while (come < 1)
        sched_yield();
    for (int i = 0; i < 40; i++)
        set_apart(&y);
    come = 2;
    for (int i = 0; i < 60; i++)
        set_apart(&y);
    pthread_join(t, NULL);
    EXPECT_END(s, VS_CLEAN, NULL);
}

/* ---- incomplete is seen */

static void nothing_was_recorded(void) {
    vs_session s = vs_open(NULL, true);
    char *report;
    bool fails;
    EXPECT(vs_finish(s, "nothing", &report, &fails) == VS_INCOMPLETE && fails &&
           strstr(report, "nothing was recorded") && access("nothing.vlog", F_OK) != 0);
    vs_free(report);
    setenv("VELODROME_INCOMPLETE", "warn", 1);
    s = vs_open(NULL, true);
    EXPECT(vs_finish(s, "nothing", &report, &fails) == VS_INCOMPLETE && !fails && report);
    vs_free(report);
    unsetenv("VELODROME_INCOMPLETE");
}

static void wrong_settings_are_told(void) {
    static const char *const wrong[][2] = {{"VELODROME_EVENTS", "1e6"},
                                           {"VELODROME_EVENTS", "16777217"},
                                           {"VELODROME_EVENTS", "abc"},
                                           {"VELODROME_NOISE", "yes"},
                                           {"VELODROME_NOISE", "-1"},
                                           {"VELODROME_NOISE", "4294967296"},
                                           {"VELODROME_SEED", "18446744073709551616"},
                                           {"VELODROME_INCOMPLETE", "Fail"}};
    vs_object x = VS_OBJECT("x");
    for (size_t i = 0; i < sizeof wrong / sizeof *wrong; i++) {
        vs_options o = {0};
        char *report;
        bool fails;
        setenv(wrong[i][0], wrong[i][1], 1);
        vs_environment(&o);
        EXPECT(o.events == 0 && o.noise == 0 && o.seed == 0);
        vs_session s = vs_open(&o, true);
        set(&x);
        EXPECT(vs_finish(s, "wrong", &report, &fails) == VS_CLEAN && fails &&
               strstr(report, wrong[i][0]) && strstr(report, wrong[i][1]));
        vs_free(report);
        unsetenv(wrong[i][0]);
    }
    setenv("VELODROME_EVENTS", "16777216", 1);
    EXPECT(vs_wrong_settings() == NULL);
    unsetenv("VELODROME_EVENTS");
}

static void the_folder_of_logs_is_made(void) {
    vs_object x = VS_OBJECT("x");
    char *report;
    bool fails;
    setenv("VELODROME_LOGS", "made/for/it", 1);
    vs_session s = vs_open(NULL, true);
    lost_update(&x);
    EXPECT(vs_finish(s, "log", &report, &fails) == VS_ALARM && fails &&
           strstr(report, "velodrome explain made/for/it/log.vlog"));
    vs_free(report);
    unsetenv("VELODROME_LOGS");
    EXPECT(remove("made/for/it/log.vlog") == 0 && remove("made/for/it/log.vlog.names") == 0 &&
           remove("made/for/it/log.vlog.sites") == 0);
    EXPECT(rmdir("made/for/it") == 0 && rmdir("made/for") == 0 && rmdir("made") == 0);
}

static void write_report(const char *script) {
    FILE *f = fopen("told.report", "w");
    if (script)
        fputs(script, f);
    fclose(f);
    chmod("told.report", script ? 0700 : 0600);
}
static void an_alarm_is_told_by_the_report(void) { /* else by the explanation */
    static const char *const scripts[] = {
        "#!/bin/sh\n"
        "[ -s \"$1\" ] && printf 'add is not atomic\\n    by whom\\n\\nthe rest\\n'\n"
        "exit 3\n",
        "#!/bin/sh\nprintf 'nothing by whom\\n\\n'\n", "#!/bin/sh\nkill -9 $$\n", NULL};
    vs_object x = VS_OBJECT("x");
    setenv("VELODROME_REPORT", "./told.report", 1);
    for (int i = 0; i < 4; i++) {
        char *report;
        bool fails, told = i == 0;
        write_report(scripts[i]);
        vs_session s = vs_open(NULL, true);
        lost_update(&x);
        EXPECT(vs_finish(s, "told", &report, &fails) == VS_ALARM && fails &&
               strstr(report, "not atomic: add (test.c:") == report);
        EXPECT(!strstr(report, "\n    by whom\nvelodrome explain ./told.vlog") == !told);
        EXPECT(!strstr(report, "closes a cycle") == told);
        vs_free(report);
    }
    unsetenv("VELODROME_REPORT");
    remove("told.report");
    remove("told.vlog");
    remove("told.vlog.names");
    remove("told.vlog.sites");
}

static void *update_on(void *o) {
    while (!over) {
        VELODROME_ATOMIC("update");
        get(o);
        set(o);
    }
    return NULL;
}
static void a_test_ends_while_threads_are_at_work(void) { /* what it came to, and whether it fails,
                                                             are of one look */
    static vs_object x = VS_OBJECT("x");
    pthread_t t[2];
    int odd = 0;
    over = false;
    setenv("VELODROME_INCOMPLETE", "warn", 1);
    for (int i = 0; i < 2; i++)
        pthread_create(&t[i], NULL, update_on, &x);
    for (int i = 0; i < 60; i++) {
        vs_session s = vs_open(NULL, true);
        set(&x);
        for (volatile int k = 0; k < i * 10; k++)
            ;
        bool fails;
        odd += (vs_finish(s, "once", NULL, &fails) == VS_ALARM) != fails;
    }
    over = true;
    for (int i = 0; i < 2; i++)
        pthread_join(t[i], NULL);
    unsetenv("VELODROME_INCOMPLETE");
    remove("once.vlog");
    remove("once.vlog.names");
    remove("once.vlog.sites");
    EXPECT(odd == 0);
}

/* ---- names and places */

static void places_are_copied(void) { /* as a plugin's that is unloaded */
    vs_object x = VS_OBJECT("x");
    vs_session s = vs_open(NULL, true);
    char *file = strdup("somewhere/plugin.c");
    vs_block block = begin();
    vs_after(vs_before_at(&x, VS_READ, &(vs_place){file, 0, 7}));
    memset(file, 'x', strlen(file));
    free(file);
    set_apart(&x);
    set(&x);
    vs_end_block(block);
    EXPECT_END(s, VS_ALARM, "reads x at plugin.c:7");
}

static char *read_whole(const char *path) {
    static char text[10000];
    FILE *f = fopen(path, "r");
    text[f ? fread(text, 1, sizeof text - 1, f) : 0] = 0;
    if (f)
        fclose(f);
    return text;
}

static void names_of_any_bytes(void) {
    static const char *const name[] = {
        "\xff\xfe",     "\xc2\x85",         "a",   "a", "a #2", "x\u2028y", "tab\tname",
        "\xed\xa0\x80", "r\u00e9sum\u00e9", "\xc3"};
    vs_object x[10];
    vs_session s = vs_open(NULL, true);
    for (int i = 0; i < 10; i++) {
        x[i] = (vs_object)VS_OBJECT(name[i]);
        set(&x[i]);
    }
    EXPECT(vs_save(s, "names.vlog"));
    EXPECT(strcmp(read_whole("names.vlog.names"),
                  "variable 0 \\xff\\xfe\nvariable 1 \\u0085\nvariable 2 a\nvariable 3 a #2\n"
                  "variable 4 a \\#2\nvariable 5 x\u2028y\nvariable 6 tab name\n"
                  "variable 7 \\xed\\xa0\\x80\nvariable 8 r\u00e9sum\u00e9\nvariable 9 \\xc3\n") ==
           0);
    remove("names.vlog");
    remove("names.vlog.names");
    remove("names.vlog.sites");
    EXPECT_END(s, VS_CLEAN, NULL);
}

static void use_lock(vs_object *lock) {
    vs_tell(lock, VS_ACQUIRE);
    vs_tell(lock, VS_RELEASE);
}
static void a_held_lock_keeps_its_number(void) { /* and all others may be given anew at a cut */
    static vs_object held = VS_OBJECT("held"), lock[100];
    vs_options few = {.locks = 8};
    vs_session s = vs_open(&few, true);
    for (int i = 0; i < 7; i++)
        use_lock(&lock[i]);
    vs_tell(&held, VS_ACQUIRE);
    for (int i = 7; i < 100; i++)
        use_lock(&lock[i]);
    EXPECT(vs_save(s, "held.vlog"));
    EXPECT(strstr(read_whole("held.vlog.names"), "lock 7 held\n"));
    remove("held.vlog");
    remove("held.vlog.names");
    remove("held.vlog.sites");
    vs_tell(&held, VS_RELEASE);
    use_lock(&held);
    EXPECT_END(s, VS_CLEAN, NULL);
}

static void sites_stand_beside_a_log(void) {
    vs_object x = VS_OBJECT("x");
    vs_session s = vs_open(NULL, true);
    set(&x);
    vs_after(vs_before_at(&x, VS_READ, &(vs_place){"src/bank.c", 0, 12}));
    set(&x);
    EXPECT(vs_save(s, "sites.vlog"));
    EXPECT(strcmp(read_whole("sites.vlog.sites"), "vsites 1 1 4\nsrc/bank.c:12 -\n0\n0\n1\n0\n") ==
           0);
    remove("sites.vlog");
    remove("sites.vlog.names");
    remove("sites.vlog.sites");
    EXPECT_END(s, VS_CLEAN, NULL);
}

static void names_that_go(void) {
    char name[] = "a name that goes";
    const char *kept = vs_keep_name(name);
    EXPECT(kept && kept != name && strcmp(kept, name) == 0);
    EXPECT(vs_keep_name("a name that goes") == kept && vs_keep_name(NULL) == NULL);
    for (int i = 0; i < 300; i++) {
        snprintf(name, sizeof name, "name %d", i);
        EXPECT(vs_keep_name(name) && strcmp(vs_keep_name(name), name) == 0);
    }
}

/* ---- what is left out */

static void what_is_left_out_makes_no_alarm(void) {
    vs_object x = VS_OBJECT("counter of hits"), l = VS_OBJECT("l"), y = VS_OBJECT("y");
    for (int kind = 0; kind < 3; kind++) {
        vs_session s = vs_open(NULL, true);
        EXPECT(vs_ignore(s, (vs_named)kind, kind == 0 ? "counter*hits" : kind == 1 ? "l" : "ad*"));
        if (kind == 0)
            lost_update(&x);
        if (kind == 1)
            for (int i = 0; i < 2; i++) {
                VELODROME_ATOMIC("two holds");
                vs_tell(&l, VS_ACQUIRE);
                set(&y);
                vs_tell(&l, VS_RELEASE);
            }
        if (kind == 2)
            lost_update(&y);
        EXPECT(vs_so_far(s) == VS_CLEAN);
        lost_update(kind == 0 ? &y : &x);
        EXPECT_END(s, kind == 2 ? VS_CLEAN : VS_ALARM, NULL);
    }
    setenv("VELODROME_IGNORE_VARIABLE", "nothing,counter of hits", 1);
    vs_session s = vs_open(NULL, true);
    set(&y);
    lost_update(&x);
    EXPECT_END(s, VS_CLEAN, NULL);
    unsetenv("VELODROME_IGNORE_VARIABLE");
}

/* ---- locks that are tried */

static vs_object first_lock = VS_OBJECT("first"), second_lock = VS_OBJECT("second");
static void *hold_first(void *unused) {
    vs_tell(&first_lock, VS_ACQUIRE);
    vs_tell(&first_lock, VS_RELEASE);
    return unused;
}
static void tries_that_back_off_are_no_events(void) {
    vs_object x = VS_OBJECT("x");
    for (int fails = 0; fails < 2; fails++) {
        vs_session s = vs_open(NULL, true);
        vs_block block = begin();
        vs_acquired(&first_lock, VS_ACQUIRE); /* as std::lock does */
        if (fails)
            vs_try_failed();
        vs_tell(&first_lock, VS_RELEASE);
        apart(hold_first, NULL);
        vs_acquired(&second_lock, VS_ACQUIRE);
        vs_acquired(&first_lock, VS_ACQUIRE);
        set(&x);
        vs_tell(&first_lock, VS_RELEASE);
        vs_tell(&second_lock, VS_RELEASE);
        vs_end_block(block);
        EXPECT_END(s, fails ? VS_CLEAN : VS_ALARM, NULL);
    }
}
static void an_acquire_is_told_before_what_follows(void) {
    vs_object x = VS_OBJECT("x");
    vs_session s = vs_open(NULL, true);
    vs_acquired(&first_lock, VS_ACQUIRE); /* outside the block */
    vs_block block = begin();
    set(&x);
    vs_tell(&first_lock, VS_RELEASE);
    vs_end_block(block);
    vs_acquired(&second_lock, VS_ACQUIRE);
    EXPECT(vs_save(s, "locks.vlog"));
    EXPECT(strstr(read_whole("locks.vlog"),
                  "0 fork 1\n1 acq 0\n1 begin 0\n1 wr 0 0\n1 rel 0\n1 end\n1 acq 1\n"));
    remove("locks.vlog");
    remove("locks.vlog.names");
    remove("locks.vlog.sites");
    vs_tell(&second_lock, VS_RELEASE);
    EXPECT_END(s, VS_CLEAN, NULL);
}

/* ---- signals */

static vs_object ticks = VS_OBJECT("ticks");
static volatile sig_atomic_t signals;
static void tick(int number) {
    (void)number;
    signals++;
    set(&ticks);
}
static void handlers_of_signals_act(void) { /* also within a call: that is left out, and told */
    vs_object x = VS_OBJECT("x");
    struct itimerval every = {{0, 200}, {0, 200}}, never = {{0, 0}, {0, 0}};
    vs_session s = vs_open(NULL, true);
    set(&ticks);
    signal(SIGALRM, tick);
    setitimer(ITIMER_REAL, &every, NULL);
    for (int i = 0; i < 20000; i++) {
        vs_block block = begin();
        set(&x);
        vs_end_block(block);
    }
    setitimer(ITIMER_REAL, &never, NULL);
    raise(SIGALRM);
    signal(SIGALRM, SIG_DFL);
    char *report;
    vs_verdict v = vs_close(s, &report);
    EXPECT(signals > 0 &&
           (v == VS_CLEAN || (v == VS_INCOMPLETE && strstr(report, "signal handlers"))));
    vs_free(report);
}

int main(void) {
    static const struct {
        const char *name;
        void (*run)(void);
    } tests[] = {
#define T(f) {#f, f}
        T(what_is_not_there),
        T(blocks_end_with_their_scope),
        T(sessions_nest),
        T(an_object_of_a_closed_session_is_anyones),
        T(tasks_are_themselves),
        T(a_task_goes_from_thread_to_thread),
        T(close_waits_for_the_hook),
        T(a_hook_may_close),
        T(sessions_come_and_go),
        T(a_crowded_run_is_cut),
        T(sessions_crosswise),
        T(a_child_of_fork_is_on_its_own),
        T(a_thread_met_in_a_block_is_no_child_of_it),
        T(a_full_log_is_told_and_nothing_else),
        T(a_lock_of_another_kind),
        T(a_jump_out_of_a_block),
        T(a_jump_out_of_an_inner_block),
        T(a_block_is_ended_by_another_thread),
        T(an_alarm_in_a_block_that_another_thread_ends),
        T(an_end_of_anothers_block_is_not_that_of_ones_own),
        T(blocks_of_one_thread_that_do_not_nest),
        T(a_block_outlives_its_session),
        T(the_blocks_of_a_task_that_goes),
        T(ends_that_came_already),
        T(numbers_of_joined_threads_are_used_again),
        T(a_number_is_used_again_by_its_joiner_alone),
        T(a_thread_acts_after_it_was_joined),
        T(who_is_crowded_waits),
        T(nothing_was_recorded),
        T(wrong_settings_are_told),
        T(the_folder_of_logs_is_made),
        T(an_alarm_is_told_by_the_report),
        T(a_test_ends_while_threads_are_at_work),
        T(places_are_copied),
        T(names_of_any_bytes),
        T(a_held_lock_keeps_its_number),
        T(sites_stand_beside_a_log),
        T(names_that_go),
        T(what_is_left_out_makes_no_alarm),
        T(tries_that_back_off_are_no_events),
        T(an_acquire_is_told_before_what_follows),
        T(handlers_of_signals_act)};
    for (size_t i = 0; i < sizeof tests / sizeof *tests; i++) {
        printf("%s\n", tests[i].name);
        fflush(stdout);
        tests[i].run();
    }
    puts(failed ? "failed" : "passed");
    return failed;
}
