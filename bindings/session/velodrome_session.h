/* velodrome_session.h: the layer between a program and the calls of velodrome.h, for all languages.
 *
 * A session is one run that is watched, such as a test. The program reports its accesses, locks,
 * blocks and threads by the objects that they are about; the session numbers them, takes the lock
 * that the calls need, and keeps the verdict.
 *
 *  - No call fails its caller. What cannot be recorded stops the session with a reason, and the
 * program runs on.
 *  - Threads are met, not declared: any thread may report an event at any time.
 *  - A session records up to its first alarm. Limits of events, threads, variables and locks count
 * between moments at which no block is open, so a program may be as long as it likes.
 *  - Any call may come from any thread, also with a session that was closed. In the child of a
 * fork(2) there is no session.
 *  - A call from a signal handler that interrupts another one is left out; the session is
 * incomplete then. Any other is recorded, and may allocate.
 *
 * The calls are proved. This layer is tested.
 */
#ifndef VELODROME_SESSION_H
#define VELODROME_SESSION_H
#include <stdbool.h>
#include <stddef.h>
#include <stdint.h>
#ifdef __cplusplus
extern "C" {
#endif

/* 0: none. A number that is never used again, so one that is out of date does nothing. */
typedef uint64_t vs_session;

/* Stands in each variable and each lock, and for each label. It is its own identity: once it was
 * used it is not copied, and moved only while no thread uses it. The tag is zero at first and the
 * session's then. The name is for people, may be null or the same for many, and may go with the
 * object. Where the line is not 0, the name is that of the source file in which the object was
 * declared. */
typedef struct vs_object {
    uint64_t tag;
    const char *name;
    uint64_t line;
} vs_object;
#define VS_OBJECT(name)                                                                            \
    { 0, name, 0 }

typedef enum vs_kind {
    VS_READ = 0,
    VS_WRITE = 1, /* also an access that reads and writes */
    VS_ACQUIRE = 2,
    VS_RELEASE = 3,
    VS_ACQUIRE_SHARED = 4,
    VS_RELEASE_SHARED = 5
} vs_kind;

/* The statuses of `velodrome check`. */
typedef enum vs_verdict { VS_CLEAN = 0, VS_ALARM = 3, VS_INCOMPLETE = 4 } vs_verdict;

/* Where an event stands in the source. The file need not end in a zero byte where file_bytes is not
 * 0. It is copied. */
typedef struct vs_place {
    const char *file;
    uint32_t file_bytes;
    uint32_t line;
} vs_place;

/* One of the two events that collide at the alarm. */
typedef struct vs_side {
    uint64_t position; /* in the log */
    uint32_t thread;
    const char *event; /* such as "writes balance" */
    const char *block; /* the name of its outermost block, or null */
    const char *place; /* such as "bank.c:12", or null */
} vs_side;

/* The alarm: `second` closed the cycle, and `first` came before it. All that it points to goes when
 * the hook returns. */
typedef struct vs_alarm {
    vs_session session;
    vs_side first, second;
    const char *report;
} vs_alarm;

/* All zero: the defaults. */
typedef struct vs_options {
    uint32_t events;    /* most events between two cuts; 0: 1,048,576 */
    uint16_t variables; /* 0: 65,471 */
    uint16_t locks;     /* 0: 4,096 */
    uint32_t noise;     /* one event in `noise` waits up to 200 us before it happens; 0: none */
    uint64_t seed;      /* which ones; 0: by the clock */
    void (*alarm)(
        void *data,
        const vs_alarm *alarm); /* called once, in the thread of the event, after it; may be null.
                                   Another thread's vs_close waits for its return */
    void *data;
    void (*wait)(uint32_t nanoseconds); /* how a thread waits, where it has to give something up
                                           meanwhile, such as an interpreter's lock; null: it
                                           sleeps. No session's lock is held */
} vs_options;

/* Sets what the environment asks for: VELODROME_NOISE, VELODROME_SEED, VELODROME_EVENTS. */
void vs_environment(vs_options *options);

/* What is wrong with the settings of the environment, a line for each; to be freed by vs_free.
 * NULL: nothing is. vs_finish tells it. */
char *vs_wrong_settings(void);

/* A session for this thread and those that it starts; `everywhere`: also for threads that never
 * entered one. 0 where there is no memory, or 256 are open; all goes on without it. `options` may
 * be null. */
vs_session vs_open(const vs_options *options, bool everywhere);

/* The verdict, for good. The report has names and places, and is NULL where there is nothing to
 * say; free it by vs_free. The thread is then in the session again that it was in before.
 * VS_INCOMPLETE for a session that is not there. */
vs_verdict vs_close(vs_session session, char **report);

/* The same at the end of a test, in one look. *fails: whether the test fails: by an alarm; since it
 * could not be watched to its end, or nothing was recorded, unless VELODROME_INCOMPLETE is `warn`;
 * or by a setting of the environment that is wrong. The log of a test that fails is kept as
 * NAME.vlog, NAME.vlog.names and NAME.vlog.sites in the folder VELODROME_LOGS (or here), which is
 * made if need be, and the report says how to read it. The report of an alarm is the first finding
 * of `velodrome-report` on this log, where that is on the path, or VELODROME_REPORT names it, and
 * answers within 20 seconds; else it is the explanation. */
vs_verdict vs_finish(vs_session session, const char *name, char **report, bool *fails);

/* The verdict so far, while the session goes on. */
vs_verdict vs_so_far(vs_session session);

/* Leaves out, from here on, the events of the variables or locks with this name, or the begins and
 * ends of the blocks with this label; a star in it stands for any characters. So it makes no alarm,
 * and recording goes on. VELODROME_IGNORE_VARIABLE, VELODROME_IGNORE_LOCK and
 * VELODROME_IGNORE_LABEL do the same for all sessions: names with commas between. */
typedef enum vs_named { VS_NAMED_VARIABLE = 0, VS_NAMED_LOCK = 1, VS_NAMED_LABEL = 2 } vs_named;
bool vs_ignore(vs_session session, vs_named kind, const char *name);

/* PATH gets the log since the last cut, PATH.names the names and PATH.sites the places: for
 * `velodrome explain PATH --names PATH.names --sites PATH.sites`. */
bool vs_save(vs_session session, const char *path);
void vs_free(char *text);

/* A copy of the name that stays for good, one for each text: for an object whose name may go. NULL
 * where there is no memory. */
const char *vs_keep_name(const char *name);

/* This thread, and those that it starts, are of this session; 0: of none. */
void vs_enter(vs_session session);
vs_session vs_current(void);

/* Ends the recording of the session that this thread is in, for a reason that its shell knows: it
 * is incomplete then. */
void vs_stop(const char *why);

/* How many sessions record. Where it is 0, vs_before and vs_tell do nothing, and may be left out.
 */
extern uint32_t vs_recording;
static inline bool vs_idle(void) {
    return __atomic_load_n(&vs_recording, __ATOMIC_RELAXED) == 0;
}

/* An access: vs_before, the access itself, vs_after with its token. Between the two only this
 * thread reports events to the session, so keep the access short. It may report others meanwhile.
 */
unsigned vs_before(vs_object *object, vs_kind kind);
unsigned vs_before_at(vs_object *object, vs_kind kind,
                      const vs_place *place); /* place may be null */
void vs_after(unsigned token);

/* The same without an event, which vs_tell reports before vs_after: for an access that is known to
 * be a read or a write only once it is done, as a compare-exchange is, or that has a lock of its
 * own to try. */
unsigned vs_hold(vs_object *object);

/* A lock: an acquire is reported after it, a release before it. Each hold of a lock that its thread
 * takes again may be reported: only the outermost is an event. */
void vs_tell(vs_object *object, vs_kind kind);
void vs_tell_at(vs_object *object, vs_kind kind, const vs_place *place);

/* An acquire by VS_ACQUIRE or VS_ACQUIRE_SHARED that is told with the next event of its thread.
 * Where a try for another lock fails before that, which vs_try_failed reports, and the lock is
 * released then, neither is an event: so whatever std::lock tries is one acquire. */
void vs_acquired(vs_object *lock, vs_kind kind);
void vs_acquired_at(vs_object *lock, vs_kind kind, const vs_place *place);
void vs_try_failed(void);

/* A block of who acts that is meant to be atomic. It is recorded once an event is in it. The label
 * stays until the block has ended, or the sessions that are open when it begins; labels of one name
 * are one label. Each block has an identity, by which it ends:
 *
 *  - Blocks that began within it and are still open, as after a longjmp, end with it.
 *  - Another thread may end it. Where events were in it, the session is incomplete then, as what
 * its own thread did since cannot be told apart. vs_switch tells who acts.
 *  - An end of a block that is no longer open does nothing, but that of one which outlived the
 * block that it stood in: the session is incomplete then.
 *  - A session begins with no block of any thread: a block that is older is none of its own. */
typedef struct vs_block {
    uint64_t who; /* 0: none. It began while no session recorded, or in a signal handler */
    uint64_t nth;
} vs_block;
vs_block vs_begin_block(vs_object *label);
void vs_end_block(vs_block block);

/* The same by nesting alone: vs_end ends the innermost; without one it does nothing. */
void vs_begin(vs_object *label);
void vs_end(void);

/* A thread that this one starts: vs_fork before the start, vs_born as its first call, vs_exit as
 * its last one (or for a thread that could not be started), vs_join after it was joined. */
typedef struct vs_child {
    vs_session session;
    uint64_t who;
} vs_child;
vs_child vs_fork(void);
vs_child vs_fork_at(const vs_place *place);
void vs_born(vs_child child);
void vs_exit(vs_child child);
void vs_join(vs_child child);
void vs_join_at(vs_child child, const vs_place *place);

/* Who acts, where that is no thread: a task, a fiber. It has blocks of its own, and may go from
 * thread to thread. It begins in the session that its maker is in. NULL where there is no memory.
 */
typedef struct vs_self vs_self;
vs_self *vs_self_new(void);
vs_self *vs_switch(vs_self *self); /* this thread acts as self from here on, and returns who it was;
                                      NULL: as the thread itself */
void vs_self_free(vs_self *self);  /* no thread acts as it; its blocks end */

/* VELODROME_ATOMIC("name"): a block from here to the end of this scope, however it is left. For C;
 * C++ has its own. */
#if !defined(__cplusplus) && defined(__GNUC__)
#define VS_JOIN_(a, b) a##b
#define VS_NAME_(a, b) VS_JOIN_(a, b)
#define VS_TEXT_(x) #x
#define VS_LINE_(x) VS_TEXT_(x)
#ifdef __FILE_NAME__
#define VS_FILE_ __FILE_NAME__
#else
#define VS_FILE_ __FILE__
#endif
#define VS_HERE (&(const vs_place){VS_FILE_, sizeof VS_FILE_ - 1, __LINE__})
static inline void vs_end_of_scope_(const vs_block *block) {
    vs_end_block(*block);
}
#ifdef VELODROME_OFF
#define VELODROME_ATOMIC(name) ((void)0)
#else
#define VELODROME_ATOMIC(name)                                                                     \
    VS_ATOMIC_(name, VS_NAME_(vs_label_, __LINE__), VS_NAME_(vs_block_, __LINE__))
#define VS_ATOMIC_(name, label, block)                                                             \
    static vs_object label = VS_OBJECT(name " (" VS_FILE_ ":" VS_LINE_(__LINE__) ")");             \
    __attribute__((cleanup(vs_end_of_scope_), unused)) const vs_block block = vs_begin_block(&label)
#endif
#endif

#ifdef __cplusplus
}
#endif
#endif
