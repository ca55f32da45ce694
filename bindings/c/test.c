/* What no contract says: that the header, the layout of its structs, the shell and the linked
 * library fit together. */
#include "velodrome.h"
#include <stdio.h>
#include <stdlib.h>
#include <string.h>

static int failed;
static void expect(const char *what, uint64_t got, uint64_t wanted) {
    if (got == wanted)
        return;
    printf("%s: got %llu, wanted %llu\n", what, (unsigned long long)got,
           (unsigned long long)wanted);
    failed = 1;
}

static void expect_words(const char *got, const char *wanted) {
    if (strcmp(got, wanted) == 0)
        return;
    printf("got \"%s\", wanted \"%s\"\n", got, wanted);
    failed = 1;
}

typedef velodrome_status text_call(velodrome *, char *, size_t, size_t *);

/* The text comes whole into each buffer that has room for it; where one has not, its length is
 * told, and the buffer is as it was. */
static void expect_text(const char *what, velodrome *m, text_call *call, const char *text) {
    static char buffer[4096];
    size_t length = strlen(text), count = 0;
    for (size_t room = 0; room <= sizeof buffer; room += room < length + 2 ? 1 : 511) {
        memset(buffer, 99, sizeof buffer);
        velodrome_status status = call(m, buffer, room, &count);
        expect(what, status, room < length ? VELODROME_TOO_SHORT : VELODROME_DONE);
        expect(what, count, length);
        size_t put = room < length ? 0 : length;
        if (memcmp(buffer, text, put)) {
            printf("%s: got\n%.*s", what, (int)count, buffer);
            failed = 1;
            return;
        }
        for (size_t i = put; i < sizeof buffer; i++)
            if (buffer[i] != 99) {
                expect(what, i, sizeof buffer);
                break;
            }
    }
    expect(what, call(m, NULL, 99, &count), VELODROME_TOO_SHORT);
    expect(what, call(m, buffer, sizeof buffer, NULL), VELODROME_DONE);
}

static velodrome *opened(velodrome_limits limits) {
    velodrome *m;
    memset(&m, 99, sizeof m); /* is not read */
    expect("open", velodrome_open(&m, &limits), VELODROME_DONE);
    return m;
}

/* A number that is out of its range: the handle is null, whatever it was. */
static void expect_bad(velodrome_limits limits) {
    velodrome *m;
    memset(&m, 99, sizeof m);
    expect("bad number", velodrome_open(&m, &limits), VELODROME_BAD_NUMBER);
    expect("null", m != NULL, 0);
}

static void null_handle(void) {
    velodrome_answer a = {77, 78, true};
    velodrome_summary s = {1, 2, 3, 4, true};
    size_t untold = 79, unmoved = 80;
    velodrome_close(NULL);
    expect("null read", velodrome_read(NULL, 0, 0, &a), VELODROME_CLOSED);
    expect("null verdict", velodrome_verdict(NULL, &s), VELODROME_CLOSED);
    expect("null renew", velodrome_renew(NULL), VELODROME_CLOSED);
    expect("null report", velodrome_report(NULL, NULL, 0, &untold), VELODROME_CLOSED);
    expect("null explanation", velodrome_explanation(NULL, NULL, 0, &untold), VELODROME_CLOSED);
    expect("null explanation, sited",
           velodrome_explanation_sited(NULL, "x", 1, "x", 1, NULL, 0, &untold), VELODROME_CLOSED);
    expect("null log", velodrome_log(NULL, 0, NULL, 0, &untold, &unmoved), VELODROME_CLOSED);
    expect("null blamed", velodrome_blamed(NULL, NULL, 0, &untold), VELODROME_CLOSED);
    expect("count kept", untold, 79);
    expect("next kept", unmoved, 80);
    expect("answer kept", a.position, 77);
    expect("summary kept", s.blamed, 4);
}

static void bad_numbers(void) {
    expect_bad((velodrome_limits){.threads = 65});
    expect_bad((velodrome_limits){.threads = 257}); /* 1, cut to a byte */
    expect_bad((velodrome_limits){.variables = 65536});
    expect_bad((velodrome_limits){.locks = 4097});
    expect_bad((velodrome_limits){.locks = 65537});
    expect_bad((velodrome_limits){.events = 16777217});
    expect_bad((velodrome_limits){.nodes = 4097});
    expect_bad((velodrome_limits){.nodes = 65537});
    velodrome *m = opened((velodrome_limits){.threads = 3, .variables = 2, .locks = 2});
    velodrome_answer a = {77, 78, true};
    const uint32_t cut[] = {256, (uint32_t)-1}; /* 0 and 255, cut to a byte */
    for (int i = 0; i < 2; i++) {
        expect("read", velodrome_read(m, cut[i], 0, &a), VELODROME_BAD_NUMBER);
        expect("write", velodrome_write(m, cut[i], 0, 1, &a), VELODROME_BAD_NUMBER);
        expect("acquire", velodrome_acquire(m, cut[i], 0, &a), VELODROME_BAD_NUMBER);
        expect("release", velodrome_release(m, cut[i], 0, &a), VELODROME_BAD_NUMBER);
        expect("acquire shared", velodrome_acquire_shared(m, cut[i], 0, &a), VELODROME_BAD_NUMBER);
        expect("release shared", velodrome_release_shared(m, cut[i], 0, &a), VELODROME_BAD_NUMBER);
        expect("begin", velodrome_begin(m, cut[i], 0, &a), VELODROME_BAD_NUMBER);
        expect("end", velodrome_end(m, cut[i], &a), VELODROME_BAD_NUMBER);
        expect("fork", velodrome_fork(m, cut[i], 1, &a), VELODROME_BAD_NUMBER);
        expect("join", velodrome_join(m, cut[i], 1, &a), VELODROME_BAD_NUMBER);
        expect("exit", velodrome_exit(m, cut[i], &a), VELODROME_BAD_NUMBER);
    }
    expect("variable 65536", velodrome_read(m, 0, 65536, &a), VELODROME_BAD_NUMBER);
    expect("variable 65536", velodrome_write(m, 0, 65536, 1, &a), VELODROME_BAD_NUMBER);
    expect("lock 65536", velodrome_acquire(m, 0, 65536, &a), VELODROME_BAD_NUMBER);
    expect("lock 65536", velodrome_release(m, 0, 65536, &a), VELODROME_BAD_NUMBER);
    expect("lock 65536", velodrome_acquire_shared(m, 0, 65536, &a), VELODROME_BAD_NUMBER);
    expect("lock 65536", velodrome_release_shared(m, 0, 65536, &a), VELODROME_BAD_NUMBER);
    expect("child 257", velodrome_fork(m, 0, 257, &a), VELODROME_BAD_NUMBER);
    expect("child 257", velodrome_join(m, 0, 257, &a), VELODROME_BAD_NUMBER);
    expect("thread 3", velodrome_exit(m, 3, &a), VELODROME_NOT_LIVE);
    expect("answer kept", a.position, 77);
    velodrome_summary s;
    expect("verdict", velodrome_verdict(m, &s), 0);
    expect("no events", s.events, 0);
    velodrome_close(m);
}

/* Each kind of event once, and most refusals. */
static void each_event(velodrome *m) {
    velodrome_answer a = {77, 78, true};
    expect("not live", velodrome_read(m, 1, 0, &a), VELODROME_NOT_LIVE);
    expect("fork", velodrome_fork(m, 0, 1, &a), 0);
    expect("position", a.position, 0);
    expect("fork again", velodrome_fork(m, 0, 1, &a), VELODROME_ALREADY_FORKED);
    expect("no such thread", velodrome_fork(m, 0, 3, &a), VELODROME_NO_SUCH_THREAD);
    expect("write", velodrome_write(m, 0, 1, 18446744073709551615ull, &a), 0);
    expect("read", velodrome_read(m, 1, 1, &a), 0);
    expect("value", a.value, 18446744073709551615ull);
    expect("position", a.position, 2);
    expect("no such variable", velodrome_read(m, 1, 2, &a), VELODROME_NO_SUCH_VARIABLE);
    expect("acquire", velodrome_acquire(m, 0, 0, &a), 0);
    expect("busy", velodrome_acquire_shared(m, 1, 0, &a), VELODROME_BUSY);
    expect("already held", velodrome_acquire(m, 0, 0, &a), VELODROME_ALREADY_HELD);
    expect("not holder", velodrome_release(m, 1, 0, &a), VELODROME_NOT_HOLDER);
    expect("release", velodrome_release(m, 0, 0, NULL), 0);
    expect("acquire shared", velodrome_acquire_shared(m, 0, 1, NULL), 0);
    expect("acquire shared", velodrome_acquire_shared(m, 1, 1, &a), 0);
    expect("lock held", velodrome_exit(m, 1, &a), VELODROME_LOCK_HELD);
    expect("release shared", velodrome_release_shared(m, 1, 1, &a), 0);
    expect("begin", velodrome_begin(m, 1, 4294967295u, &a), 0);
    expect("block open", velodrome_exit(m, 1, &a), VELODROME_BLOCK_OPEN);
    expect("end", velodrome_end(m, 1, &a), 0);
    expect("no open block", velodrome_end(m, 1, &a), VELODROME_NO_OPEN_BLOCK);
    expect("not exited", velodrome_join(m, 0, 1, &a), VELODROME_NOT_EXITED);
    expect("exit", velodrome_exit(m, 1, &a), 0);
    expect("join", velodrome_join(m, 0, 1, &a), 0);
    expect("log full", velodrome_read(m, 0, 0, &a), VELODROME_LOG_FULL);
}

/* The log in pieces of each size is the text in one piece. */
static void log_in_pieces(velodrome *m) {
    char whole[1024], part[1024], joined[1024];
    size_t count = 5, next = 6, length = 0;
    expect("log", velodrome_log(m, 0, whole, sizeof whole, &count, &next), 0);
    expect("all events", next, 12);
    length = count;
    const char *text =
        "vlog 2 3 2 2\n0 fork 1\n0 wr 1 18446744073709551615\n1 rd 1 18446744073709551615\n0 acq "
        "0\n0 rel 0\n0 acqs 1\n1 acqs 1\n1 rels 1\n1 begin 4294967295\n1 end\n1 exit\n0 join 1\n";
    expect("length", length, strlen(text));
    expect("text", memcmp(whole, text, length), 0);
    for (size_t room = 36; room < 200; room++) {
        size_t at = 0, from = 0;
        while (from < 12) {
            size_t before = from;
            expect("piece", velodrome_log(m, from, part, room, &count, &from), 0);
            if (from == before || count > room) {
                expect("progress", 0, 1);
                break;
            }
            memcpy(joined + at, part, count);
            at += count;
        }
        expect("joined", at == length && memcmp(joined, whole, length) == 0, 1);
    }
    part[0] = 99;
    expect("too short", velodrome_log(m, 0, part, 21, &count, &next), VELODROME_TOO_SHORT);
    expect("needed", count, 22);
    expect("as it was", part[0], 99);
    expect("next as it was", next, 12);
    expect("beyond", velodrome_log(m, 13, part, sizeof part, &count, &next), VELODROME_BAD_NUMBER);
    expect("at the end", velodrome_log(m, 12, part, 0, &count, &next), 0);
    expect("nothing", count, 0);
    expect("null", velodrome_log(m, 0, NULL, 99, &count, NULL), VELODROME_TOO_SHORT);
}

static void clean_run(void) {
    velodrome *m = opened((velodrome_limits){3, 2, 2, 12, 64});
    velodrome_summary s;
    velodrome_block blocks[1];
    size_t count = 5;
    each_event(m);
    expect("verdict", velodrome_verdict(m, &s), 0);
    expect("verdict for nobody", velodrome_verdict(m, NULL), 0);
    expect("events", s.events, 12);
    expect("clean", s.alarmed, 0);
    expect("blamed", s.blamed, 0);
    log_in_pieces(m);
    expect("blamed", velodrome_blamed(m, blocks, 0, &count), 0);
    expect("none", count, 0);
    expect_text("clean report", m, velodrome_report,
                "events 12\nthread 0 6\nthread 1 6\nthread 2 0\nverdict clean\n");
    expect_text("clean explanation", m, velodrome_explanation,
                "The blocks of this log can be serialized.\nEvents: 12\nTransactions, which can "
                "follow one another: 11\n");
    velodrome_close(m);
}

/* Two blocks to blame, outermost first. */
static velodrome *alarmed_run(void) {
    velodrome *m =
        opened((velodrome_limits){.threads = 2, .variables = 1, .events = 100, .nodes = 64});
    velodrome_answer a;
    velodrome_fork(m, 0, 1, &a);
    velodrome_begin(m, 0, 7, &a);
    velodrome_begin(m, 0, 8, &a);
    velodrome_read(m, 0, 0, &a);
    velodrome_write(m, 1, 0, 5, &a);
    expect("no alarm yet", a.alarmed, 0);
    velodrome_write(m, 0, 0, 1, &a);
    expect("alarm", a.alarmed, 1);
    return m;
}

static void alarm_is_told(void) {
    velodrome *m = alarmed_run();
    velodrome_summary s;
    velodrome_block blocks[VELODROME_MAX_BLAMED];
    size_t count = 0;
    velodrome_verdict(m, &s);
    expect("alarmed", s.alarmed, 1);
    expect("alarm's position", s.position, 5);
    expect("transaction", s.transaction, 1);
    expect("two blocks", s.blamed, 2);
    blocks[0].label = 55;
    expect("too short", velodrome_blamed(m, blocks, 1, &count), VELODROME_TOO_SHORT);
    expect("needed", count, 2);
    expect("as it was", blocks[0].label, 55);
    expect("null", velodrome_blamed(m, NULL, 32, &count), VELODROME_TOO_SHORT);
    expect("blamed", velodrome_blamed(m, blocks, 2, &count), 0);
    expect("outer", blocks[0].first * 100 + blocks[0].label, 107);
    expect("inner", blocks[1].first * 100 + blocks[1].label, 208);
    expect_text(
        "report", m, velodrome_report,
        "events 6\nthread 0 5\nthread 1 1\nverdict alarm 5\ntransaction 1\nblame 1 7\nblame 2 8\n");
    expect_text(
        "explanation", m, velodrome_explanation,
        "The blocks of this log cannot be serialized.\n"
        "    line  thread 0                            thread 1\n"
        "       3  begin 7\n"
        "       4  begin 8\n"
        "       5  rd 0 0\n"
        "       6                                      wr 0 5\n"
        "       7  wr 0 1\n"
        "Line 7 `0 wr 0 1` closes a cycle of 2 transactions:\n"
        "  T1: thread 0, block 7, lines 3 to 7\n"
        "  T2: thread 1, outside blocks, line 6\n"
        "Each must come before the next, and the last before the first:\n"
        "  T1 before T2: line 5 `0 rd 0 0`, then line 6 `1 wr 0 5`\n"
        "  T2 before T1: line 6 `1 wr 0 5`, then line 7 `0 wr 0 1`\n"
        "To blame in thread 0:\n"
        "  block 7, from line 3: line 6 `1 wr 0 5` must come after its begin and before line 7\n"
        "  block 8, from line 4: line 6 `1 wr 0 5` must come after its begin and before line 7\n");
    expect("goes on", velodrome_end(m, 0, NULL), 0);
    expect_text(
        "report of one more", m, velodrome_report,
        "events 7\nthread 0 6\nthread 1 1\nverdict alarm 5\ntransaction 1\nblame 1 7\nblame 2 8\n");
    velodrome_close(m);
}

/* Words that every program has to say, each a status' own. */
static void words(void) {
    expect_words(velodrome_strerror(VELODROME_DONE), "done");
    expect_words(velodrome_strerror(VELODROME_BUSY), "lock busy");
    expect_words(velodrome_strerror(VELODROME_EVENT_MEMORY), "out of memory");
    expect_words(velodrome_strerror(VELODROME_BAD_NUMBER), "a number is out of its range");
    expect_words(velodrome_strerror(VELODROME_ALARMED), "there is an alarm");
    expect_words(velodrome_strerror(VELODROME_BAD_SITES), "the sites have a fault");
    expect_words(velodrome_strerror(VELODROME_OTHER_SITES), "the sites are of another log");
    expect_words(velodrome_strerror((velodrome_status)110), "unknown status");
    expect_words(velodrome_strerror((velodrome_status)50), "unknown status");
    expect_words(velodrome_strerror((velodrome_status)101), "unknown status");
    expect_words(velodrome_strerror((velodrome_status)4000000000u), "unknown status");
    for (int i = 0; i <= VELODROME_EVENT_MEMORY; i++)
        expect("has words", strcmp(velodrome_strerror((velodrome_status)i), "unknown status") != 0,
               1);
    expect_words(velodrome_version(), VELODROME_VERSION);
    int major, minor, patch;
    expect("version", sscanf(VELODROME_VERSION, "%d.%d.%d", &major, &minor, &patch), 3);
    expect("version number", (uint64_t)(10000 * major + 100 * minor + patch),
           VELODROME_VERSION_NUMBER);
}

/* A file, whole; to be freed. */
static char *contents(const char *folder, const char *name, size_t *bytes) {
    char path[512];
    snprintf(path, sizeof path, "%s/%s", folder, name);
    FILE *f = fopen(path, "rb");
    char *text = calloc(1, 1 << 16);
    *bytes = f ? fread(text, 1, (1 << 16) - 1, f) : 0;
    if (!f) {
        printf("no %s\n", path);
        failed = 1;
    } else
        fclose(f);
    return text;
}

/* Report and explanation with names: `data` has what the program writes for this log and these
 * names. */
static void names(const char *data) {
    velodrome *m = alarmed_run();
    char buffer[8192];
    size_t bytes, wanted_bytes, count = 0;
    char *file = contents(data, "names", &bytes), *wanted = contents(data, "report", &wanted_bytes);
    expect("named report", velodrome_report_named(m, file, bytes, buffer, sizeof buffer, &count),
           0);
    expect("as check --names", count == wanted_bytes && memcmp(buffer, wanted, count) == 0, 1);
    free(wanted);
    wanted = contents(data, "explanation", &wanted_bytes);
    expect("named explanation",
           velodrome_explanation_named(m, file, bytes, buffer, sizeof buffer, &count), 0);
    expect("as explain --names", count == wanted_bytes && memcmp(buffer, wanted, count) == 0, 1);
    expect("too short", velodrome_report_named(m, file, bytes, buffer, 20, &count),
           VELODROME_TOO_SHORT);
    free(wanted);
    free(file);
    expect("bad line",
           velodrome_report_named(m, "label 7 x\nlabel\n", 16, buffer, sizeof buffer, &count),
           VELODROME_BAD_NAMES);
    expect("its number", count, 2);
    expect(
        "named twice",
        velodrome_explanation_named(m, "label 7 x\n\nlabel 7 y", 20, buffer, sizeof buffer, &count),
        VELODROME_BAD_NAMES);
    expect("its number", count, 3);
    expect("no UTF-8", velodrome_report_named(m, "label 7 \xff", 9, buffer, sizeof buffer, &count),
           VELODROME_BAD_NAMES);
    expect("of the whole", count, 0);
    expect("no names", velodrome_report_named(m, NULL, 99, buffer, sizeof buffer, &count), 0);
    expect("report", count, 81);
    velodrome_close(m);
}

/* What the explanation with sites is given; both end in a zero byte. */
static const char *given_names, *given_sites;
static velodrome_status sited(velodrome *m, char *buffer, size_t room, size_t *count) {
    size_t names = given_names ? strlen(given_names) : 99,
           sites = given_sites ? strlen(given_sites) : 99; /* 99: of null, not read */
    return velodrome_explanation_sited(m, given_names, names, given_sites, sites, buffer, room,
                                       count);
}

/* The call with these files: its text is that of a file of `data`, which the program writes for
 * them. */
static void expect_sited(velodrome *m, const char *data, const char *names_file,
                         const char *sites_file, const char *text_file) {
    size_t ignored;
    char *names = names_file ? contents(data, names_file, &ignored) : NULL;
    char *sites = sites_file ? contents(data, sites_file, &ignored) : NULL;
    char *text = contents(data, text_file, &ignored);
    given_names = names;
    given_sites = sites;
    expect_text(text_file, m, sited, text);
    free(names);
    free(sites);
    free(text);
}

/* It is refused with this status and count, and the buffer is as it was. */
static void expect_unsited(const char *what, velodrome *m, const char *names, const char *sites,
                           velodrome_status status, size_t line) {
    char buffer[8] = "as was";
    size_t count = 77;
    given_names = names;
    given_sites = sites;
    expect(what, sited(m, buffer, sizeof buffer, &count), status);
    expect(what, count, line);
    expect_words(buffer, "as was");
    expect(what, sited(m, NULL, 0, NULL), status);
}

/* The explanation with sites: as the program writes it, or why not. */
static void sites(const char *data) {
    const char *clean = "The blocks of this log can be serialized.\nEvents: 1\nTransactions, which "
                        "can follow one another: 1\n";
    velodrome *m = alarmed_run();
    expect_sited(m, data, "names", "sites", "explanation_sited");
    expect_sited(m, data, "names", NULL, "explanation");
    expect_unsited("bad place", m, NULL, "vsites 1 1 6\n\n1\n", VELODROME_BAD_SITES, 2);
    expect_unsited("no such site", m, NULL, "vsites 1 1 6\nb.c:1 f\n0\n2\n", VELODROME_BAD_SITES,
                   4);
    expect_unsited("ends early", m, "label 7 x\n", "vsites 1 1 6\nb.c:1 f\n0\n",
                   VELODROME_BAD_SITES, 3);
    expect_unsited("no UTF-8", m, "", "vsites 1 1 6\n\xff\n", VELODROME_BAD_SITES, 0);
    expect_unsited("names first", m, "label 7 x\nlabel\n", "no sites", VELODROME_BAD_NAMES, 2);
    expect_unsited("names before a count", m, "label", "vsites 1 0 2\n0\n0\n", VELODROME_BAD_NAMES,
                   1);
    expect_unsited("a fault before a count", m, NULL, "vsites 1 0 2\n0\n0\n0\n",
                   VELODROME_BAD_SITES, 4);
    expect_unsited("fewer events", m, NULL, "vsites 1 0 2\n0\n0\n", VELODROME_OTHER_SITES, 2);
    expect_unsited("no events", m, NULL, "vsites 1 0 0\n", VELODROME_OTHER_SITES, 0);
    expect_unsited("more events", m, "label 7 x\n", "vsites 1 0 7\n0\n0\n0\n0\n0\n0\n0\n",
                   VELODROME_OTHER_SITES, 7);
    velodrome_end(m, 0, NULL);
    given_names = NULL;
    expect("of the log so far", sited(m, NULL, 0, NULL), VELODROME_TOO_SHORT);
    expect_unsited("fewer than now", m, NULL, "vsites 1 0 6\n0\n0\n0\n0\n0\n0\n",
                   VELODROME_OTHER_SITES, 6);
    velodrome_close(m);
    m = opened((velodrome_limits){.threads = 2, .variables = 1, .locks = 1});
    velodrome_fork(m, 0, 1, NULL);
    given_sites = "vsites 1 1 1\nb.c:1 f\n1\n";
    expect_text("clean", m, sited, clean);
    expect_unsited("clean, of another log", m, NULL, "vsites 1 0 0\n", VELODROME_OTHER_SITES, 0);
    velodrome_close(m);
}

/* The log of a run, which is short. */
static void expect_log(velodrome *m, const char *text) {
    char buffer[1024];
    size_t count = 0;
    expect("log", velodrome_log(m, 0, buffer, sizeof buffer - 1, &count, NULL), 0);
    buffer[count] = 0;
    expect_words(buffer, text);
}

/* A run goes on in a new log: threads, values, holders and sharers stay, and joined threads are
 * forgotten. */
static void renewed_run(void) {
    velodrome *m =
        opened((velodrome_limits){.threads = 6, .variables = 3, .locks = 3, .events = 40});
    velodrome_answer a;
    velodrome_summary s;
    for (uint32_t child = 1; child < 5; child++)
        expect("fork", velodrome_fork(m, 0, child, NULL), 0);
    velodrome_write(m, 1, 2, 7, NULL);
    velodrome_acquire(m, 1, 0, NULL);
    velodrome_acquire_shared(m, 2, 1, NULL);
    velodrome_acquire_shared(m, 1, 1, NULL);
    velodrome_exit(m, 3, NULL);
    velodrome_exit(m, 4, NULL);
    velodrome_join(m, 0, 4, NULL);
    velodrome_begin(m, 2, 9, NULL);
    expect("in a block", velodrome_renew(m), VELODROME_IN_BLOCK);
    velodrome_end(m, 2, &a);
    expect("as it was", a.position, 12);
    expect("renew", velodrome_renew(m), 0);
    expect_log(m, "vlog 2 6 3 3\n0 fork 1\n0 fork 2\n0 fork 3\n0 wr 2 7\n1 acq 0\n1 acqs 1\n2 acqs "
                  "1\n3 exit\n");
    expect("read", velodrome_read(m, 2, 2, &a), 0);
    expect("value", a.value, 7);
    expect("position", a.position, 8);
    expect("held", velodrome_acquire(m, 2, 0, NULL), VELODROME_BUSY);
    expect("shared", velodrome_acquire(m, 0, 1, NULL), VELODROME_BUSY);
    expect("is not there again", velodrome_fork(m, 0, 2, NULL), VELODROME_ALREADY_FORKED);
    expect("may be joined", velodrome_join(m, 0, 3, NULL), 0);
    expect("may come again", velodrome_fork(m, 0, 4, NULL), 0);
    expect("release", velodrome_release(m, 1, 0, NULL), 0);
    expect("release shared", velodrome_release_shared(m, 2, 1, NULL), 0);
    velodrome_begin(m, 0, 5, NULL);
    velodrome_read(m, 0, 0, NULL);
    velodrome_write(m, 4, 0, 1, NULL);
    velodrome_write(m, 0, 0, 1, &a);
    expect("alarm", a.alarmed, true);
    velodrome_end(m, 0, NULL);
    expect("alarm", velodrome_renew(m), VELODROME_ALARMED);
    expect("verdict", velodrome_verdict(m, &s), 0);
    expect("alarm's position", s.position, a.position);
    velodrome_close(m);
    m = opened((velodrome_limits){.threads = 4, .events = 2});
    velodrome_fork(m, 0, 1, NULL);
    velodrome_write(m, 0, 0, 1, NULL);
    expect("as long as may be", velodrome_renew(m), 0);
    velodrome_close(m);
}

/* A thousand times as many events as a log takes. */
static void endless_run(void) {
    velodrome *m =
        opened((velodrome_limits){.threads = 2, .variables = 1, .locks = 1, .events = 100});
    for (uint32_t i = 0; i < 100000; i++) {
        if (i % 50 == 0)
            expect("renew", velodrome_renew(m), 0);
        expect("write", velodrome_write(m, 0, 0, i, NULL), 0);
    }
    velodrome_close(m);
}

/* Opened and closed again and again: a checker of leaks sees what is left. */
static void again_and_again(void) {
    for (uint32_t i = 0; i < 1000; i++) {
        velodrome *m =
            opened((velodrome_limits){.threads = 2, .variables = 16, .locks = 4, .events = 1000});
        expect("write", velodrome_write(m, 0, i % 16, 1, NULL), 0);
        velodrome_close(m);
    }
    velodrome *m = NULL;
    expect("all by default", velodrome_open(&m, NULL), 0);
    expect("the last variable", velodrome_write(m, 0, 65534, 1, NULL), 0);
    expect("one more", velodrome_write(m, 0, 65535, 1, NULL), VELODROME_NO_SUCH_VARIABLE);
    velodrome_close(m);
}

int main(int argc, char **argv) {
    null_handle();
    bad_numbers();
    clean_run();
    alarm_is_told();
    words();
    renewed_run();
    endless_run();
    names(argc > 1 ? argv[1] : "data");
    sites(argc > 1 ? argv[1] : "data");
    again_and_again();
    puts(failed ? "failed" : "passed");
    return failed;
}
