/* velodrome.h: a proved checker of atomic blocks, in process.
 *
 * What each call does is proved, except for a shell in C (velodrome.c) that keeps the handle's
 * memory, takes null pointers and passes on the words of the statuses. Nothing checks what you have
 * to ensure:
 *
 *  - One call at a time has a handle. Hold a lock of your own round each call.
 *  - The access that a call reports is in the same hold of that lock: lock, access, report, unlock.
 *  - Buffers do not overlap, and lengths are what they say.
 *  - No call comes from a signal handler, nor from the forked child of a process with threads.
 *
 * A pointer to what a call returns, such as an answer or a count, may be null: then it is not
 * returned. A null handle has the status VELODROME_CLOSED.
 */
#ifndef VELODROME_H
#define VELODROME_H
#include <stdbool.h>
#include <stddef.h>
#include <stdint.h>
#ifdef __cplusplus
extern "C" {
#endif

#define VELODROME_VERSION "0.2.0"
#define VELODROME_VERSION_NUMBER 200 /* 10000 * major + 100 * minor + patch */

/* The version of the library that is linked: VELODROME_VERSION, where it is that of this header. */
const char *velodrome_version(void);

/* A run that is watched. */
typedef struct velodrome velodrome;

/* Limits of a run, and of what is reported of it. */
#define VELODROME_MAX_THREADS 64
#define VELODROME_MAX_VARIABLES 65535
#define VELODROME_MAX_LOCKS 4096
#define VELODROME_MAX_EVENTS 16777216
#define VELODROME_MAX_NODES 4096
#define VELODROME_MAX_BLAMED 32
#define VELODROME_REPORT_ROOM 4096 /* bytes, always enough for a report without names */

/* 1 to 19: the event is refused. Where a status is not VELODROME_DONE nothing has changed, and
 * nothing is returned, except what VELODROME_TOO_SHORT, VELODROME_BAD_NAMES, VELODROME_BAD_SITES
 * and VELODROME_OTHER_SITES put into *count. */
typedef enum velodrome_status {
    VELODROME_DONE = 0,
    VELODROME_HALTED = 1,
    VELODROME_NOT_LIVE = 2,
    VELODROME_NO_SUCH_VARIABLE = 3,
    VELODROME_NO_SUCH_LOCK = 4,
    VELODROME_NO_SUCH_THREAD = 5,
    VELODROME_BUSY = 6,
    VELODROME_ALREADY_HELD = 7,
    VELODROME_NOT_HOLDER = 8,
    VELODROME_NO_OPEN_BLOCK = 9,
    VELODROME_TOO_DEEP = 10,
    VELODROME_ALREADY_FORKED = 11,
    VELODROME_NOT_FORKED = 12,
    VELODROME_NOT_EXITED = 13,
    VELODROME_ALREADY_JOINED = 14,
    VELODROME_BLOCK_OPEN = 15,
    VELODROME_LOCK_HELD = 16,
    VELODROME_LOG_FULL = 17,
    VELODROME_GRAPH_FULL = 18,
    VELODROME_EVENT_MEMORY = 19,
    VELODROME_CLOSED = 100,     /* the handle is null */
    VELODROME_BAD_NUMBER = 102, /* a number is out of its range */
    VELODROME_NO_MEMORY = 103,
    VELODROME_TOO_SHORT = 104, /* *count says how much room it takes; the buffer is as it was */
    VELODROME_BAD_NAMES =
        105, /* *count says which line of the names is wrong; 0: they are too many, or no UTF-8 */
    VELODROME_IN_BLOCK = 106,  /* a thread has a block open */
    VELODROME_ALARMED = 107,   /* there is an alarm */
    VELODROME_BAD_SITES = 108, /* *count says which line of the sites is wrong; 0: they are too many
                                  bytes, or no UTF-8 */
    VELODROME_OTHER_SITES =
        109 /* *count says of how many events the sites are; the log has another number */
} velodrome_status;

/* The words of a status, such as "lock busy". */
const char *velodrome_strerror(velodrome_status status);

/* What an event came to: its position in the log; the value that a read read, else 0; whether there
 * is an alarm now. */
typedef struct velodrome_answer {
    uint64_t position;
    uint64_t value;
    bool alarmed;
} velodrome_answer;

/* The verdict so far. Without an alarm all but the number of events is 0. */
typedef struct velodrome_summary {
    uint64_t events;
    uint64_t position;    /* of the first event that closed a cycle */
    uint64_t transaction; /* the first position of its transaction */
    uint64_t blamed;      /* how many blocks are to blame */
    bool alarmed;
} velodrome_summary;

/* A block to blame: the position of its begin, and its label. */
typedef struct velodrome_block {
    uint64_t first;
    uint32_t label;
} velodrome_block;

/* How many of each a run may have; 0 stands for the default. */
typedef struct velodrome_limits {
    uint32_t threads;   /* at most 64, which is the default; thread 0 is there from the start */
    uint32_t variables; /* at most 65535, the default */
    uint32_t locks;     /* at most 4096, the default */
    uint32_t events;    /* at most 16777216; 1048576 by default */
    uint32_t nodes; /* of the graph: at most 4096; by default threads * threads, which are always
                       enough */
} velodrome_limits;

/* *monitor is a run without events, to be closed; null, where the status is not VELODROME_DONE.
 * What it was before is not read. The limits may be null: all of them are the default then. */
velodrome_status velodrome_open(velodrome **monitor, const velodrome_limits *limits);

/* Frees what the run held. Of null it does nothing. */
void velodrome_close(velodrome *monitor);

/* One call for each event, by the number of the thread that does it. Yours: the call is made under
 * the lock that the access itself is under, the thread is the one that did it, and a number always
 * means the same variable, lock or thread.
 *
 * A read returns the value that was written last by velodrome_write, 0 at first. Where your values
 * are of no interest, write 0. */
velodrome_status velodrome_read(velodrome *monitor, uint32_t thread, uint32_t variable,
                                velodrome_answer *answer);
velodrome_status velodrome_write(velodrome *monitor, uint32_t thread, uint32_t variable,
                                 uint64_t value, velodrome_answer *answer);

/* Report an acquire after the lock was acquired, and a release before it is released. Locks are not
 * re-entrant. */
velodrome_status velodrome_acquire(velodrome *monitor, uint32_t thread, uint32_t lock,
                                   velodrome_answer *answer);
velodrome_status velodrome_release(velodrome *monitor, uint32_t thread, uint32_t lock,
                                   velodrome_answer *answer);
velodrome_status velodrome_acquire_shared(velodrome *monitor, uint32_t thread, uint32_t lock,
                                          velodrome_answer *answer);
velodrome_status velodrome_release_shared(velodrome *monitor, uint32_t thread, uint32_t lock,
                                          velodrome_answer *answer);

/* An atomic block from begin to end; blocks nest up to 32 deep. Labels are yours, and blocks may
 * share one. */
velodrome_status velodrome_begin(velodrome *monitor, uint32_t thread, uint32_t label,
                                 velodrome_answer *answer);
velodrome_status velodrome_end(velodrome *monitor, uint32_t thread, velodrome_answer *answer);

/* Report a fork before the thread is started, its exit as its last event, and a join after it was
 * joined. The number of a thread is never used again, but for that of a joined one after
 * velodrome_renew. */
velodrome_status velodrome_fork(velodrome *monitor, uint32_t thread, uint32_t child,
                                velodrome_answer *answer);
velodrome_status velodrome_join(velodrome *monitor, uint32_t thread, uint32_t child,
                                velodrome_answer *answer);
velodrome_status velodrome_exit(velodrome *monitor, uint32_t thread, velodrome_answer *answer);

/* Goes on in a new log, with the same threads, values, holders and sharers of locks, so that the
 * limits count anew: whatever comes after is judged as by the whole run, the closing event and the
 * blame included. The new log begins with as many events as it takes to say all that. Threads that
 * were joined are forgotten, and their numbers may be used again. An alarm's position, and those of
 * the blocks to blame, count from the new log's first event.
 *
 * VELODROME_IN_BLOCK where a thread has a block open; VELODROME_ALARMED where there is an alarm;
 * VELODROME_LOG_FULL where the new log would be full already. */
velodrome_status velodrome_renew(velodrome *monitor);

/* The verdict of the events so far: an alarm exactly where no serial order of the transactions
 * explains them. */
velodrome_status velodrome_verdict(velodrome *monitor, velodrome_summary *summary);

/* The blocks to blame, outermost first, and how many they are; none without an alarm.
 * VELODROME_TOO_SHORT where there is no room for all. Room for 32 is always enough. */
velodrome_status velodrome_blamed(velodrome *monitor, velodrome_block *buffer, size_t room,
                                  size_t *count);

/* The text of the log in pieces of whole lines: from the event `from` on, the header before the
 * first. *count says how many bytes were put into the buffer, and *next the event to go on from;
 * the number of events is the end. The pieces together are the text that `velodrome check` reads.
 * VELODROME_TOO_SHORT where not even one line has room. Room for 180 bytes is always enough.
 *
 *     size_t from = 0, count;
 *     do {
 *         if (velodrome_log(monitor, from, buffer, sizeof buffer, &count, &from)) break;
 *         fwrite(buffer, 1, count, file);
 *     } while (from < events);
 */
velodrome_status velodrome_log(velodrome *monitor, size_t from, char *buffer, size_t room,
                               size_t *count, size_t *next);

/* The report of the events so far, and their explanation: the bytes that `velodrome check` and
 * `velodrome explain` write for the text of the log, all of them or none; of the explanation the
 * words, without the accesses that follow where edges are by locks. *count says how many bytes were
 * put into the buffer, without a zero byte after them. VELODROME_TOO_SHORT where there is no room
 * for all. The run goes on after each.
 *
 * The report is short. An explanation takes time and memory in proportion to the log, each time
 * that it is asked for. */
velodrome_status velodrome_report(velodrome *monitor, char *buffer, size_t room, size_t *count);
velodrome_status velodrome_explanation(velodrome *monitor, char *buffer, size_t room,
                                       size_t *count);

/* The same by names: what `velodrome check --names FILE` and `velodrome explain --names FILE`
 * write, where the file has these bytes. They are lines such as "variable 3 balance" (also thread,
 * lock, label). */
velodrome_status velodrome_report_named(velodrome *monitor, const char *names, size_t bytes,
                                        char *buffer, size_t room, size_t *count);
velodrome_status velodrome_explanation_named(velodrome *monitor, const char *names, size_t bytes,
                                             char *buffer, size_t room, size_t *count);

/* The explanation with places in the source: the words that `velodrome explain --names FILE --sites
 * SITES` writes, and the places after them, where the files have these bytes. The sites are of the
 * log so far, such as
 *
 *     vsites 1 2 3
 *     bank.c:12 deposit
 *     bank.c:20 withdraw
 *     1
 *     0
 *     2
 *
 * of 2 sites and 3 events: the lines of the sites, then a line for each event with the number of
 * its site, 0 where it is unknown. No bytes of names are no names, and no bytes of sites no sites.
 * Names are read before sites; a fault of either comes before the room. */
velodrome_status velodrome_explanation_sited(velodrome *monitor, const char *names, size_t bytes,
                                             const char *sites, size_t site_bytes, char *buffer,
                                             size_t room, size_t *count);

#ifdef __cplusplus
}
#endif
#endif
