/* Each growth is refused in turn: a call does all that it was asked for, or answers want of memory,
 * and nothing has changed. */
#include "velodrome.h"
#include <stdio.h>
#include <stdlib.h>
#include <string.h>

void *__real_malloc(size_t size);
void *__real_realloc(void *block, size_t size);

static long until_refusal =
    -1; /* growths that are granted before one is refused; below 0 all are */
static bool refused;

static bool refuses(void) {
    if (until_refusal < 0)
        return false;
    if (until_refusal-- > 0)
        return false;
    refused = true;
    return true;
}

void *__wrap_malloc(size_t size) {
    return refuses() ? NULL : __real_malloc(size);
}
void *__wrap_realloc(void *block, size_t size) {
    return refuses() ? NULL : __real_realloc(block, size);
}

static const velodrome_limits limits = {
    .threads = 2, .variables = 1, .locks = 1, .events = 100, .nodes = 64};
static int failed;
static void expect(const char *what, uint64_t got, uint64_t wanted) {
    if (got == wanted)
        return;
    printf("%s, growth %ld: got %llu, wanted %llu\n", what, until_refusal, (unsigned long long)got,
           (unsigned long long)wanted);
    failed = 1;
}

/* A lost update, whose events are refused at first where a growth is. */
static void play(velodrome *m) {
    velodrome_answer a = {77, 78, false};
    static const struct {
        uint8_t thread, kind;
    } events[] = {{0, 0}, {0, 1}, {0, 2}, {1, 3}, {0, 3}, {0, 4}};
    for (size_t i = 0; i < 6; i++) {
        velodrome_status status;
        uint64_t before = a.position;
        do {
            uint8_t t = events[i].thread;
            refused = false;
            status = events[i].kind == 0   ? velodrome_fork(m, t, 1, &a)
                     : events[i].kind == 1 ? velodrome_begin(m, t, 7, &a)
                     : events[i].kind == 2 ? velodrome_read(m, t, 0, &a)
                     : events[i].kind == 3 ? velodrome_write(m, t, 0, 5, &a)
                                           : velodrome_end(m, t, &a);
            expect("event", status, refused ? VELODROME_EVENT_MEMORY : VELODROME_DONE);
            if (status)
                expect("answer as it was", a.position, before);
        } while (status == VELODROME_EVENT_MEMORY);
        expect("position", a.position, i);
    }
    expect("alarm", a.alarmed, true);
}

/* A text, with this growth of its call refused; whether there was one. */
static bool short_of(velodrome *m, velodrome_status (*call)(velodrome *, char *, size_t, size_t *),
                     long growth, const char *text) {
    char buffer[2048];
    size_t count = 99;
    memset(buffer, 98, sizeof buffer);
    until_refusal = growth;
    refused = false;
    velodrome_status status = call(m, buffer, sizeof buffer, &count);
    until_refusal = -1;
    expect("text", status, refused ? VELODROME_NO_MEMORY : VELODROME_DONE);
    if (!refused) {
        expect("length", count, strlen(text));
        expect("bytes", memcmp(buffer, text, strlen(text)), 0);
    } else {
        expect("count as it was", count, 99);
        for (size_t i = 0; i < sizeof buffer; i++)
            if (buffer[i] != 98) {
                expect("buffer as it was", i, sizeof buffer);
                break;
            }
    }
    return refused;
}

/* The explanation with names, and with sites of so many events. */
static const char *given_sites;
static velodrome_status sited(velodrome *m, char *buffer, size_t room, size_t *count) {
    static const char names[] = "thread 1 the other\nlabel 7 transfer\n";
    return velodrome_explanation_sited(m, names, sizeof names - 1, given_sites, strlen(given_sites),
                                       buffer, room, count);
}

/* A text, each growth of its call refused in turn. How many growths there are. */
static long short_in_turn(velodrome *m,
                          velodrome_status (*call)(velodrome *, char *, size_t, size_t *)) {
    char words[2048];
    size_t count = 0;
    long growth = 0;
    expect("explanation", call(m, words, sizeof words - 1, &count), VELODROME_DONE);
    words[count] = 0;
    while (short_of(m, call, growth, words) && !failed)
        growth++;
    return growth;
}

/* A run goes on in a new log, each growth of that call refused in turn: nothing has changed then.
 * How many growths there are. */
static long renewed(void) {
    for (long growth = 0;; growth++) {
        velodrome *m;
        velodrome_summary s;
        expect("open", velodrome_open(&m, &limits), VELODROME_DONE);
        expect("fork", velodrome_fork(m, 0, 1, NULL), VELODROME_DONE);
        expect("write", velodrome_write(m, 1, 0, 5, NULL), VELODROME_DONE);
        expect("write", velodrome_write(m, 1, 0, 6, NULL), VELODROME_DONE);
        until_refusal = growth;
        refused = false;
        velodrome_status status = velodrome_renew(m);
        until_refusal = -1;
        expect("renew", status, refused ? VELODROME_NO_MEMORY : VELODROME_DONE);
        expect("verdict", velodrome_verdict(m, &s), VELODROME_DONE);
        expect("events", s.events, refused ? 3 : 2);
        expect("goes on", velodrome_write(m, 1, 0, 7, NULL), VELODROME_DONE);
        velodrome_close(m);
        if (!refused || failed)
            return growth;
    }
}

int main(void) {
    const char *report =
        "events 6\nthread 0 5\nthread 1 1\nverdict alarm 4\ntransaction 1\nblame 1 7\n";
    long opened = 0, told = 0, placed = 0;
    for (bool more = true; more && !failed; opened++) {
        velodrome *m = (velodrome *)&limits; /* is not read */
        until_refusal = opened;
        refused = false;
        velodrome_status status = velodrome_open(&m, &limits);
        expect("open", status, refused ? VELODROME_NO_MEMORY : VELODROME_DONE);
        expect("the handle is null", !m, refused);
        more = refused;
        velodrome_close(m);
    }
    for (long growth = 0; growth < 40 && !failed; growth++) {
        velodrome *m;
        until_refusal = -1;
        expect("open", velodrome_open(&m, &limits), VELODROME_DONE);
        until_refusal = growth;
        play(m);
        until_refusal = -1;
        for (told = 0; short_of(m, velodrome_report, told, report); told++) {
        }
        told = short_in_turn(m, velodrome_explanation);
        given_sites = "vsites 1 1 6\nbank.c:12 transfer\n1\n0\n1\n1\n1\n1\n";
        placed = short_in_turn(m, sited);
        velodrome_close(m);
    }
    long renewing = renewed();
    printf("%s: %ld growths to open, %ld to renew, %ld to explain, %ld with places\n",
           failed ? "failed" : "passed", opened - 1, renewing, told, placed);
    return failed;
}
