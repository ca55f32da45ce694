/* velodrome.c: the shell round the proved calls. It keeps the handle's memory, puts something of
 * its own in the place of null pointers, and hands on the words of the statuses. */
#include "proved.h"
#include <stdlib.h>

const char *velodrome_version(void) {
    return VELODROME_VERSION;
}

/* The words of each status, and at the end those of any other number, as the proved call gives
 * them. They are written when the library is loaded, before any thread and any constructor of the
 * program (101: the first of theirs) may read them. */
enum { STATUSES = VELODROME_OTHER_SITES + 1, WORDS_ROOM = 31 };
static char words[STATUSES + 1][WORDS_ROOM + 1];

__attribute__((constructor(101))) static void write_words(void) {
    for (uint32_t status = 0; status <= STATUSES; status++) {
        size_t count;
        velo_words(status, words[status], WORDS_ROOM, &count);
    }
}

const char *velodrome_strerror(velodrome_status status) {
    unsigned at = (unsigned)status;
    return words[at < STATUSES ? at : STATUSES];
}

static uint32_t or_default(uint32_t asked, uint32_t otherwise) {
    return asked ? asked : otherwise;
}

velodrome_status velodrome_open(velodrome **monitor, const velodrome_limits *limits) {
    static const velodrome_limits none;
    const velodrome_limits *asked = limits ? limits : &none;
    uint32_t threads = or_default(asked->threads, VELODROME_MAX_THREADS);
    uint32_t nodes = threads < VELODROME_MAX_THREADS ? threads * threads : VELODROME_MAX_NODES;
    *monitor = NULL;
    velodrome *fresh = malloc(sizeof *fresh);
    if (!fresh)
        return VELODROME_NO_MEMORY;
    uint32_t status =
        velo_open(fresh, threads, or_default(asked->variables, VELODROME_MAX_VARIABLES),
                  or_default(asked->locks, VELODROME_MAX_LOCKS),
                  or_default(asked->events, 1u << 20), or_default(asked->nodes, nodes));
    if (status)
        free(fresh);
    else
        *monitor = fresh;
    return (velodrome_status)status;
}

void velodrome_close(velodrome *monitor) {
    if (monitor)
        velo_close(monitor);
    free(monitor);
}

/* ---- events */

#define CALL(call) (monitor ? (velodrome_status)(call) : VELODROME_CLOSED)
#define TOLD (answer ? answer : &(velodrome_answer){0, 0, false})

velodrome_status velodrome_read(velodrome *monitor, uint32_t thread, uint32_t variable,
                                velodrome_answer *answer) {
    return CALL(velo_read(monitor, thread, variable, TOLD));
}

velodrome_status velodrome_write(velodrome *monitor, uint32_t thread, uint32_t variable,
                                 uint64_t value, velodrome_answer *answer) {
    return CALL(velo_write(monitor, thread, variable, value, TOLD));
}

velodrome_status velodrome_acquire(velodrome *monitor, uint32_t thread, uint32_t lock,
                                   velodrome_answer *answer) {
    return CALL(velo_acquire(monitor, thread, lock, TOLD));
}

velodrome_status velodrome_release(velodrome *monitor, uint32_t thread, uint32_t lock,
                                   velodrome_answer *answer) {
    return CALL(velo_release(monitor, thread, lock, TOLD));
}

velodrome_status velodrome_acquire_shared(velodrome *monitor, uint32_t thread, uint32_t lock,
                                          velodrome_answer *answer) {
    return CALL(velo_acquire_shared(monitor, thread, lock, TOLD));
}

velodrome_status velodrome_release_shared(velodrome *monitor, uint32_t thread, uint32_t lock,
                                          velodrome_answer *answer) {
    return CALL(velo_release_shared(monitor, thread, lock, TOLD));
}

velodrome_status velodrome_begin(velodrome *monitor, uint32_t thread, uint32_t label,
                                 velodrome_answer *answer) {
    return CALL(velo_begin(monitor, thread, label, TOLD));
}

velodrome_status velodrome_end(velodrome *monitor, uint32_t thread, velodrome_answer *answer) {
    return CALL(velo_end(monitor, thread, TOLD));
}

velodrome_status velodrome_fork(velodrome *monitor, uint32_t thread, uint32_t child,
                                velodrome_answer *answer) {
    return CALL(velo_fork(monitor, thread, child, TOLD));
}

velodrome_status velodrome_join(velodrome *monitor, uint32_t thread, uint32_t child,
                                velodrome_answer *answer) {
    return CALL(velo_join(monitor, thread, child, TOLD));
}

velodrome_status velodrome_exit(velodrome *monitor, uint32_t thread, velodrome_answer *answer) {
    return CALL(velo_exit(monitor, thread, TOLD));
}

velodrome_status velodrome_renew(velodrome *monitor) {
    return CALL(velo_renew(monitor));
}

/* ---- what is told of them */

#define COUNT (count ? count : &(size_t){0})
#define TEXT buffer ? buffer : (char[1]){0}, buffer ? room : 0
#define NAMES names ? names : "", names ? bytes : 0
#define SITES sites ? sites : "", sites ? site_bytes : 0

velodrome_status velodrome_verdict(velodrome *monitor, velodrome_summary *summary) {
    velodrome_summary ignored;
    return CALL(velo_verdict(monitor, summary ? summary : &ignored));
}

velodrome_status velodrome_blamed(velodrome *monitor, velodrome_block *buffer, size_t room,
                                  size_t *count) {
    velodrome_block none[1];
    return CALL(velo_blamed(monitor, buffer ? buffer : none, buffer ? room : 0, COUNT));
}

velodrome_status velodrome_log(velodrome *monitor, size_t from, char *buffer, size_t room,
                               size_t *count, size_t *next) {
    size_t ignored;
    return CALL(velo_log(monitor, from, TEXT, COUNT, next ? next : &ignored));
}

velodrome_status velodrome_report_named(velodrome *monitor, const char *names, size_t bytes,
                                        char *buffer, size_t room, size_t *count) {
    return CALL(velo_report(monitor, NAMES, TEXT, COUNT));
}

velodrome_status velodrome_report(velodrome *monitor, char *buffer, size_t room, size_t *count) {
    return velodrome_report_named(monitor, NULL, 0, buffer, room, count);
}

velodrome_status velodrome_explanation_named(velodrome *monitor, const char *names, size_t bytes,
                                             char *buffer, size_t room, size_t *count) {
    return CALL(velo_explanation(monitor, NAMES, TEXT, COUNT));
}

velodrome_status velodrome_explanation_sited(velodrome *monitor, const char *names, size_t bytes,
                                             const char *sites, size_t site_bytes, char *buffer,
                                             size_t room, size_t *count) {
    return CALL(velo_explanation_sited(monitor, NAMES, SITES, TEXT, COUNT));
}

velodrome_status velodrome_explanation(velodrome *monitor, char *buffer, size_t room,
                                       size_t *count) {
    return velodrome_explanation_named(monitor, NULL, 0, buffer, room, count);
}
