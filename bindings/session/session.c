/* session.c: see velodrome_session.h. Everything in a slot but its atomic fields is touched under
 * its lock alone. */
#define _GNU_SOURCE
#include "velodrome_session.h"
#include "velodrome.h"
#include <elf.h>
#include <errno.h>
#include <fcntl.h>
#include <link.h>
#include <poll.h>
#include <pthread.h>
#include <signal.h>
#include <spawn.h>
#include <stdarg.h>
#include <stdatomic.h>
#include <stdio.h>
#include <stdlib.h>
#include <string.h>
#include <sys/stat.h>
#include <sys/wait.h>
#include <time.h>
#include <unistd.h>
#define SLOTS 256 /* sessions at a time */
#define SEATS 4   /* sessions that one thread acts in at a time */
#define DEPTH 32  /* blocks that are told; the outermost decide */
#define THREADS VELODROME_MAX_THREADS
#define VARIABLES                                                                                  \
    (VELODROME_MAX_VARIABLES - THREADS) /* the rest are starts and ends of threads                 \
                                         */
#define PATH_BYTES 900
#define NAME_ROOM 256
#define NAME_BYTES 150 /* with a kind, a line and an ordinal it fits a names file */
#define NUMBER_BITS 20 /* of a tag; the rest is the epoch */
#define NOT_TOLD UINT32_MAX
#define IGNORED ((1u << NUMBER_BITS) - 1) /* the number of all that is left out */
#define REUSED_FROM (THREADS * 3 / 4)     /* so many numbers are given before one is given again */
#define RESERVE 256          /* events of the log beyond those of a piece: ends at a cut */
#define NO_WORD UINT32_MAX   /* of a number that nobody has */
#define ENDS 256             /* ends of blocks by others that are kept for their owners */
#define PENDING 8            /* locks that std::lock takes at a time */
#define BETWEEN_LOOKS 100000 /* nanoseconds, of who waits for open blocks */
#define MOST_LOOKS 10000     /* a second, and five where there is no number else */
#define SPINS 20             /* looks at a lock that another thread has, before sleeping */
#define FIRST_SLEEP                                                                                \
    50000 /* nanoseconds; each is twice as long as the one before, up to the longest */
#define LONGEST_SLEEP 400000
#define LONGEST_REPORT 20 /* seconds that velodrome-report may take */
#define HOT static inline __attribute__((always_inline)) /* what every event passes */
#define COLD static __attribute__((noinline))

/* ---- what a session has */

/* A text that objects or labels have as their name, and how many variables and locks of this piece
 * have it. */
typedef struct word {
    char *text;
    uint32_t met[2]; /* variables, locks */
    uint32_t label;  /* its number, plus one */
} word;

/* The object of a number: the nth of its name. */
typedef struct named {
    uint32_t word, nth;
} named;

typedef struct names {
    named *at;
    uint32_t count, room;
} names;

typedef struct share {
    uint64_t who;
    uint32_t times;
} share;

/* Who holds a lock, by its number. */
typedef struct hold {
    uint64_t owner; /* 0: nobody holds it alone */
    uint32_t times;
    share *share;
    uint32_t shares, room;
    uint64_t old; /* the tag of its object, where it was taken before the last cut and not used
                     since; else 0 */
} hold;

/* A number of this piece of the run. A thread that was joined is no longer there, and its number
 * may be that of another one which the same thread starts. */
typedef struct thread {
    uint64_t who;     /* 0: nobody */
    uint64_t actor;   /* whose blocks these are */
    uint64_t system;  /* the thread of the system that began its outermost block */
    uint64_t deepest; /* the innermost of its blocks that were told; 0: none is open */
    uint32_t locks;   /* that it holds */
    uint8_t joiner;   /* who joined it */
    bool ended, joined;
    bool lived; /* its start or its end was told by its variable */
} thread;

typedef struct ignored {
    vs_named kind;
    char *pattern;
} ignored;

/* A place in the source, by a copy: what it came from may be unloaded. */
typedef struct placed {
    const char *file; /* to find it again, and never read */
    uint32_t line;
    bool is_of_library; /* so it says nothing */
    char *path;
} placed;

/* What is said of an alarm. */
typedef struct finding {
    vs_alarm alarm;
    char *words[2][3]; /* event, block, place of each side */
    char *report;
    void (*hook)(void *, const vs_alarm *);
    void *data;
} finding;

typedef struct slot {
    _Atomic bool taken;       /* its lock */
    uint32_t held;            /* how often, by its keeper */
    _Atomic uint64_t id;      /* while it is open; else 0 */
    _Atomic uint64_t last;    /* the epoch: of the numbers in tags since the last cut, from id on */
    _Atomic uintptr_t keeper; /* the thread that has it */
    _Atomic bool recording;
    _Atomic bool slow;      /* noise is wanted, or it is crowded: events may have to wait */
    _Atomic bool crowded;   /* it can only be cut once the open blocks have ended */
    _Atomic uint32_t looks; /* of those who waited for open blocks in this piece */
    _Atomic bool in_hook;
    _Atomic bool missed;       /* an event, since its lock could not be had */
    _Atomic uint64_t left_out; /* calls of signal handlers */
    _Atomic uint32_t noise;
    void (*_Atomic wait)(uint32_t nanoseconds);
    bool abandoned; /* it was in use when this process was forked */

    velodrome *handle;
    uint32_t events, near, most; /* of this piece; from `near` on it is cut where it can be */
    uint64_t earlier;            /* events of the pieces before */
    uint16_t variables, locks;
    uint64_t born, seed;
    uint32_t open;  /* threads in a block: a cut is made where it is 0 */
    uint64_t since; /* the blocks that began from there on are its own */
    vs_session outer, outer_everywhere;

    thread thread[THREADS];
    uint32_t threads, threads_end; /* how many have a number, and where the numbers end */
    names variable, lock, label;
    uint32_t locks_used, locks_from; /* how many have a number; all before this one are given */
    hold *holds;                     /* one for each lock */
    uint32_t holds_room;
    word *words;
    uint32_t word_count, word_room, *word_table, table_room;
    placed *places; /* each place once; the first is none */
    uint32_t place_count, place_room, *place_table, place_table_room;
    const char *library;   /* the last file of these, as nearly all locks are taken there */
    uint32_t *event_place; /* by position; nothing from event_places on */
    uint32_t event_places, event_room;

    ignored *ignored; /* what is left out by its name */
    uint32_t ignored_count, ignored_room;

    char why[200];   /* it stopped; empty: it did not */
    char doubt[200]; /* why the alarm may be none; empty: it is one */
    bool alarmed;
    char *report;
    finding *found; /* not yet handed to the hook */
    void (*hook)(void *, const vs_alarm *);
    void *hook_data;
} slot;

static slot slots[SLOTS];
static pthread_mutex_t opening = PTHREAD_MUTEX_INITIALIZER;
static _Atomic uint64_t everywhere;
uint32_t vs_recording;

/* ---- what a thread has */

typedef struct seat {
    slot *in;
    uint64_t id, since, who, epoch, random;
    uint32_t told; /* a bit for each of its blocks: it is in the log */
    uint8_t number;
    int done; /* how many of its blocks were looked at */
} seat;

/* A block that is open. */
typedef struct open_block {
    vs_object *label;
    uint64_t nth;   /* of all that its owner began */
    uint64_t since; /* how many sessions had been opened */
} open_block;

struct vs_self {
    uint64_t id; /* a number that is never used again; 0: it had no block yet */
    uint64_t current;
    seat seat[SEATS];
    int recent, depth;
    uint64_t nth;    /* of the block that began last */
    uint64_t seen;   /* ends by others */
    uint64_t looked; /* how many sessions there were at its last look */
    uint64_t left_from, left_to,
        left_since; /* blocks that were still open when an outer one ended */
    open_block block[DEPTH];
    struct {
        vs_object *lock;
        vs_kind kind;
        vs_place place;
    } pending[PENDING]; /* locks that it took, and has not told of */
    int pendings;
    bool tried; /* since then a try failed */
};

static _Thread_local struct {
    struct vs_self itself;
    struct vs_self *acting; /* NULL: the thread itself */
    uint64_t hooking;       /* the session whose hook this thread is in */
    uint64_t system;        /* a number of this thread that is never used again */
    int slots;              /* that it keeps */
    volatile bool inside;   /* a call */
} mine;
HOT struct vs_self *self(void) {
    return mine.acting ? mine.acting : &mine.itself;
}

static uint64_t new_identity(void) {
    static _Atomic uint64_t last;
    return atomic_fetch_add_explicit(&last, 1, memory_order_relaxed) + 1;
}

static uint64_t this_system_thread(void) {
    if (!mine.system)
        mine.system = new_identity();
    return mine.system;
}

static _Atomic uint64_t openings;            /* how many sessions were opened */
static _Atomic uint64_t opened_since[SLOTS]; /* that number, of each that is open; else 0 */
static _Atomic uint32_t crowds;              /* how many of them are crowded */

/* ---- slots and tags */

static slot *slot_of(uint64_t id) {
    return &slots[id % SLOTS];
}

static bool is_open(uint64_t id) {
    return id && atomic_load_explicit(&slot_of(id)->id, memory_order_acquire) == id;
}

HOT uint64_t tag_of(const vs_object *o) {
    return __atomic_load_n(&o->tag, __ATOMIC_RELAXED);
}

HOT uint64_t epoch_of(uint64_t tag) {
    return tag >> NUMBER_BITS;
}

HOT uint32_t number_in(uint64_t tag) {
    return tag & ((1u << NUMBER_BITS) - 1);
}

static uint64_t tag_with(uint64_t epoch, uint32_t number) {
    return epoch << NUMBER_BITS | number;
}

HOT uint64_t epoch(slot *s) {
    return atomic_load_explicit(&s->last, memory_order_relaxed);
}

/* Whether the tag was given by the session that is open in the slot. */
static bool is_of(slot *s, uint64_t tag) {
    uint64_t id = atomic_load_explicit(&s->id, memory_order_relaxed);
    return tag && id && slot_of(epoch_of(tag)) == s && epoch_of(tag) >= id;
}

/* ---- calls: a signal handler that comes while its thread is in one is left out, and counted */

COLD void leave_out(void) {
    uint64_t id = self()->current, all = atomic_load_explicit(&everywhere, memory_order_relaxed);
    if (!is_open(id))
        id = all;
    if (is_open(id))
        atomic_fetch_add_explicit(&slot_of(id)->left_out, 1, memory_order_relaxed);
}

HOT bool come_in(void) {
    if (mine.inside) {
        leave_out();
        return false;
    }
    mine.inside = true;
    atomic_signal_fence(memory_order_seq_cst);
    return true;
}

HOT void go_out(void) {
    atomic_signal_fence(memory_order_seq_cst);
    mine.inside = false;
}

/* The program's own code runs from here on; returns what comes back. */
static bool step_out(void) {
    bool inside = mine.inside;
    atomic_signal_fence(memory_order_seq_cst);
    mine.inside = false;
    return inside;
}

static void step_in(bool inside) {
    mine.inside = inside;
    atomic_signal_fence(memory_order_seq_cst);
}

/* Nobody is cancelled in a wait of ours. */
static void sleep_for(uint32_t nanoseconds) {
    int state;
    struct timespec time = {nanoseconds / 1000000000, nanoseconds % 1000000000};
    pthread_setcancelstate(PTHREAD_CANCEL_DISABLE, &state);
    nanosleep(&time, NULL);
    pthread_setcancelstate(state, &state);
}

static void end_recording(slot *s) {
    if (atomic_exchange(&s->recording, false))
        __atomic_fetch_sub(&vs_recording, 1, __ATOMIC_RELAXED);
}

HOT bool is_keeper(slot *s) {
    return atomic_load_explicit(&s->keeper, memory_order_relaxed) == (uintptr_t)&mine;
}

/* A lock of its own, as every event pays for it. Who waits for it is not woken, but looks again
 * from time to time: so a release is one store, and the thread that has the lock goes on at full
 * speed where others want it too. */
HOT bool try_lock(slot *s) {
    bool taken = false;
    return atomic_compare_exchange_strong_explicit(&s->taken, &taken, true, memory_order_acquire,
                                                   memory_order_relaxed);
}

HOT void unlock(slot *s) {
    atomic_store_explicit(&s->taken, false, memory_order_release);
}

/* For about as long as an event takes. */
static bool lock_soon(slot *s) {
    for (int i = 0; i < SPINS; i++) {
        if (!atomic_load_explicit(&s->taken, memory_order_relaxed) && try_lock(s))
            return true;
#ifdef __x86_64__
        __builtin_ia32_pause();
#endif
    }
    return false;
}

/* False where it was not to be had in so many nanoseconds; 0: it waits for it. */
COLD bool lock_slowly(slot *s, uint64_t most) {
    uint32_t sleep = FIRST_SLEEP;
    uint64_t slept = 0;
    int errno_before = errno;
    bool had;
    while (!(had = lock_soon(s)) && (!most || slept < most)) {
        sleep_for(sleep);
        slept += sleep;
        if (sleep < LONGEST_SLEEP)
            sleep *= 2;
    }
    errno = errno_before;
    return had;
}

/* Takes the slot's lock, again where this thread has it: the program's code may come back here in
 * an access. Two threads may each take the lock of a second session in an access of a first,
 * crosswise; so nobody waits there for longer than a second. */
HOT bool keep(slot *s) {
    if (!is_keeper(s)) {
        if (!try_lock(s) && !lock_slowly(s, mine.slots ? 1000000000 : 0))
            return false;
        mine.slots++;
        atomic_store_explicit(&s->keeper, (uintptr_t)&mine, memory_order_relaxed);
    }
    s->held++;
    return true;
}

COLD void call_hook(slot *s, finding *found) {
    bool inside = step_out();
    mine.hooking = found->alarm.session;
    found->hook(found->data, &found->alarm);
    mine.hooking = 0;
    step_in(inside);
    s->in_hook = false;
    for (int i = 0; i < 2; i++)
        for (int k = 0; k < 3; k++)
            free(found->words[i][k]);
    free(found->report);
    free(found);
}

HOT void let_go(slot *s) {
    if (!is_keeper(s) || --s->held)
        return; /* not its keeper: it came out of a fork */
    finding *found = s->found;
    s->found = NULL;
    mine.slots--;
    atomic_store_explicit(&s->keeper, 0, memory_order_relaxed);
    unlock(s);
    if (found)
        call_hook(s, found);
}

/* The slot of the session, kept; NULL where it is not open. */
HOT slot *kept_in(slot *s, uint64_t id) {
    if (!keep(s)) {
        s->missed = true;
        end_recording(s);
        return NULL;
    }
    if (atomic_load_explicit(&s->id, memory_order_relaxed) == id)
        return s;
    let_go(s);
    return NULL;
}

static slot *kept(uint64_t id) {
    return is_open(id) ? kept_in(slot_of(id), id) : NULL;
}

__attribute__((format(printf, 2, 3))) COLD void stop(slot *s, const char *format, ...) {
    if (s->why[0])
        return;
    va_list operands;
    va_start(operands, format);
    vsnprintf(s->why, sizeof s->why, format, operands);
    va_end(operands);
    end_recording(s);
}

/* ---- growth: true where there is room for one more */

static bool has_room(void *list, uint32_t *room, uint32_t count, size_t each) {
    if (count < *room)
        return true;
    uint32_t more = *room ? 2 * *room : 64;
    void *at;
    memcpy(&at, list, sizeof at); /* a pointer of any type */
    if (!(at = realloc(at, more * each)))
        return false;
    memcpy(list, &at, sizeof at);
    *room = more;
    return true;
}

/* ---- names */

/* How many bytes the character at the front of the text has; 0: it is none of UTF-8. */
static size_t character(const unsigned char *text) {
    size_t bytes = *text < 0x80                    ? 1
                   : *text >= 0xc2 && *text < 0xe0 ? 2
                   : *text >= 0xe0 && *text < 0xf0 ? 3
                   : *text >= 0xf0 && *text < 0xf5 ? 4
                                                   : 0;
    for (size_t i = 1; i < bytes; i++)
        if ((text[i] & 0xc0) != 0x80)
            return 0;
    if ((*text == 0xe0 && text[1] < 0xa0) || (*text == 0xed && text[1] > 0x9f) ||
        (*text == 0xf0 && text[1] < 0x90) || (*text == 0xf4 && text[1] > 0x8f))
        return 0; /* longer than it need be, half of a pair, or beyond the last one */
    return bytes;
}

/* One line of a names file: a space for a control character of ASCII, and what else it may not have
 * escaped; no character is cut in two. */
static size_t cleaned(const char *name, char *text) {
    size_t n = 0;
    for (const unsigned char *c = (const unsigned char *)name; *c;) {
        char part[8];
        size_t bytes = character(c), length = bytes;
        if (*c < 32 || *c == 127)
            length = (size_t)sprintf(part, " ");
        else if (!bytes)
            length = (size_t)sprintf(part, "\\x%02x", *c);
        else if (*c == 0xc2 && c[1] < 0xa0)
            length = (size_t)sprintf(part, "\\u00%02x", c[1]);
        else
            memcpy(part, c, bytes);
        if (n + length > NAME_BYTES)
            break;
        memcpy(text + n, part, length);
        n += length;
        c += bytes ? bytes : 1;
    }
    text[n] = 0;
    return n;
}

/* A name that ends as that of a second object would, such as "x #2", is told apart from it. */
static size_t with_ordinal_escaped(char *text, size_t n) {
    size_t digits = n;
    while (digits && text[digits - 1] >= '0' && text[digits - 1] <= '9')
        digits--;
    if (digits == n || digits < 2 || text[digits - 1] != '#' || text[digits - 2] != ' ')
        return n;
    memmove(text + digits, text + digits - 1, n - digits + 2);
    text[digits - 1] = '\\';
    return n + 1;
}

static const char *after_last_slash(const char *path) {
    const char *slash = strrchr(path, '/');
    return slash ? slash + 1 : path;
}

/* Whether it is a file of the language's library: so an element of a container was made there. */
static bool is_of_library(const char *path) {
    return strstr(path, "/include/c++/") || strstr(path, "/c++/v1/");
}

/* The name of an object; else where it was declared, or, of an element, where it was first used. */
static size_t name_of(const vs_object *o, const char *kind, const vs_place *place, char *text) {
    char file[NAME_ROOM];
    if (!o->name || !*o->name)
        return (size_t)sprintf(text, "unnamed %s", kind);
    if (!o->line)
        return with_ordinal_escaped(text, cleaned(o->name, text));
    bool is_element = place && place->file && !place->file_bytes && is_of_library(o->name) &&
                      !is_of_library(place->file);
    cleaned(after_last_slash(is_element ? place->file : o->name), file);
    return (size_t)sprintf(text, is_element ? "%s used at %s:%llu" : "%s at %s:%llu", kind, file,
                           (unsigned long long)(is_element ? place->line : o->line));
}

static uint32_t hash_of(const char *text) {
    uint32_t h = 2166136261u;
    for (; *text; text++)
        h = (h ^ (unsigned char)*text) * 16777619u;
    return h;
}

/* The place in the table of the word with this text, or the free one where it belongs. */
static uint32_t *find_word(slot *s, const char *text) {
    uint32_t i = hash_of(text) & (s->table_room - 1);
    while (s->word_table[i] && strcmp(s->words[s->word_table[i] - 1].text, text) != 0)
        i = (i + 1) & (s->table_room - 1);
    return &s->word_table[i];
}

static bool grow_words(slot *s) {
    if (!has_room(&s->words, &s->word_room, s->word_count, sizeof *s->words))
        return false;
    if (2 * (s->word_count + 1) <= s->table_room)
        return true;
    uint32_t room = s->table_room ? 2 * s->table_room : 256, *table = calloc(room, sizeof *table);
    if (!table)
        return false;
    free(s->word_table);
    s->word_table = table;
    s->table_room = room;
    for (uint32_t i = 0; i < s->word_count; i++)
        *find_word(s, s->words[i].text) = i + 1;
    return true;
}

/* The word of a text; NULL where there is no memory. */
static word *word_with(slot *s, const char *text, size_t bytes) {
    if (!grow_words(s))
        return NULL;
    uint32_t *place = find_word(s, text);
    if (!*place) {
        char *copy = malloc(bytes + 1);
        if (!copy)
            return NULL;
        memcpy(copy, text, bytes + 1);
        s->words[s->word_count++] = (word){.text = copy};
        *place = s->word_count;
    }
    return &s->words[*place - 1];
}

static bool add_name(slot *s, names *list, word *w, uint32_t nth) {
    if (!has_room(&list->at, &list->room, list->count, sizeof *list->at))
        return false;
    list->at[list->count++] = (named){(uint32_t)(w - s->words), nth};
    return true;
}

/* Puts the name of a number there, as in a names file. */
static void put_name(FILE *f, slot *s, names *list, uint32_t number) {
    if (number >= list->count || list->at[number].word == NO_WORD) {
        fprintf(f, "%u", number);
        return;
    }
    named n = list->at[number];
    fputs(s->words[n.word].text, f);
    if (n.nth > 1)
        fprintf(f, " #%u", n.nth);
}

static void put_names(FILE *f, slot *s, const char *kind, names *list) {
    for (uint32_t i = 0; i < list->count; i++) {
        if (list->at[i].word == NO_WORD)
            continue;
        fprintf(f, "%s %u ", kind, i);
        put_name(f, s, list, i);
        fputc('\n', f);
    }
}

/* ---- what is left out by its name */

/* Whether the text is the pattern, in which a star stands for any characters. */
static bool fits(const char *pattern, const char *text) {
    const char *star = NULL, *behind = NULL;
    while (*text) {
        if (*pattern == '*') {
            star = ++pattern;
            behind = text;
        } else if (*pattern == *text) {
            pattern++;
            text++;
        } else if (star) {
            pattern = star;
            text = ++behind;
        } else {
            return false;
        }
    }
    while (*pattern == '*')
        pattern++;
    return !*pattern;
}

static bool is_ignored(const slot *s, vs_named kind, const char *name) {
    for (uint32_t i = 0; i < s->ignored_count; i++)
        if (s->ignored[i].kind == kind && fits(s->ignored[i].pattern, name))
            return true;
    return false;
}

static bool ignore_bytes(slot *s, vs_named kind, const char *pattern, size_t bytes) {
    if (!has_room(&s->ignored, &s->ignored_room, s->ignored_count, sizeof *s->ignored))
        return false;
    char *copy = strndup(pattern, bytes);
    if (!copy)
        return false;
    s->ignored[s->ignored_count++] = (ignored){kind, copy};
    return true;
}

/* Words between commas. */
static bool ignore_by_environment(slot *s) {
    static const char *const keys[] = {"VELODROME_IGNORE_VARIABLE", "VELODROME_IGNORE_LOCK",
                                       "VELODROME_IGNORE_LABEL"};
    for (int kind = VS_NAMED_VARIABLE; kind <= VS_NAMED_LABEL; kind++)
        for (const char *at = getenv(keys[kind]); at && *at;) {
            size_t bytes = strcspn(at, ",");
            if (bytes && !ignore_bytes(s, (vs_named)kind, at, bytes))
                return false;
            at += bytes + (at[bytes] == ',');
        }
    return true;
}

static void free_ignored(slot *s) {
    while (s->ignored_count)
        free(s->ignored[--s->ignored_count].pattern);
    free(s->ignored);
    s->ignored = NULL;
    s->ignored_room = 0;
}

/* ---- names that are kept for good, each once */

static struct {
    pthread_mutex_t lock;
    char **table;
    uint32_t count, room;
} kept_names = {.lock = PTHREAD_MUTEX_INITIALIZER};

static char **find_kept(char **table, uint32_t room, const char *name) {
    uint32_t i = hash_of(name) & (room - 1);
    while (table[i] && strcmp(table[i], name) != 0)
        i = (i + 1) & (room - 1);
    return &table[i];
}

static bool grow_kept(void) {
    if (2 * (kept_names.count + 1) <= kept_names.room)
        return true;
    uint32_t room = kept_names.room ? 2 * kept_names.room : 64;
    char **table = calloc(room, sizeof *table);
    if (!table)
        return false;
    for (uint32_t i = 0; i < kept_names.room; i++)
        if (kept_names.table[i])
            *find_kept(table, room, kept_names.table[i]) = kept_names.table[i];
    free(kept_names.table);
    kept_names.table = table;
    kept_names.room = room;
    return true;
}

const char *vs_keep_name(const char *name) {
    if (!name)
        return NULL;
    pthread_mutex_lock(&kept_names.lock);
    char **at = grow_kept() ? find_kept(kept_names.table, kept_names.room, name) : NULL;
    if (at && !*at && (*at = strdup(name)))
        kept_names.count++;
    const char *kept = at ? *at : NULL;
    pthread_mutex_unlock(&kept_names.lock);
    return kept;
}

/* ---- places: they are left out where there is no memory */

static uint32_t *find_place(slot *s, const char *file, uint32_t line) {
    uint64_t h = ((uintptr_t)file ^ (uint64_t)line << 40) * 0x9e3779b97f4a7c15ull;
    uint32_t i = (uint32_t)(h >> 32) & (s->place_table_room - 1);
    for (;; i = (i + 1) & (s->place_table_room - 1)) {
        const placed *q = &s->places[s->place_table[i]];
        if (!s->place_table[i] || (q->file == file && q->line == line))
            return &s->place_table[i];
    }
}

static bool grow_places(slot *s) {
    if (s->place_count && s->place_count < s->place_room &&
        2 * (s->place_count + 1) <= s->place_table_room)
        return true;
    if (!has_room(&s->places, &s->place_room, s->place_count + 1, sizeof *s->places))
        return false;
    if (!s->place_count)
        s->places[s->place_count++] = (placed){0};
    if (2 * (s->place_count + 1) <= s->place_table_room)
        return true;
    uint32_t room = s->place_table_room ? 2 * s->place_table_room : 256,
             *table = calloc(room, sizeof *table);
    if (!table)
        return false;
    free(s->place_table);
    s->place_table = table;
    s->place_table_room = room;
    for (uint32_t i = 1; i < s->place_count; i++)
        *find_place(s, s->places[i].file, s->places[i].line) = i;
    return true;
}

/* A copy without control characters. */
static char *path_of(const vs_place *p) {
    size_t bytes = p->file_bytes ? p->file_bytes : strlen(p->file);
    char *path = strndup(p->file, bytes < PATH_BYTES ? bytes : PATH_BYTES);
    for (char *c = path; c && *c; c++)
        if ((unsigned char)*c < 32 || *c == 127)
            *c = ' ';
    return path;
}

COLD void note_place(slot *s, uint32_t position, const vs_place *p) {
    if (!p || !p->file || p->file == s->library || !grow_places(s))
        return;
    while (position >= s->event_room)
        if (!has_room(&s->event_place, &s->event_room, s->event_room, sizeof *s->event_place))
            return;
    uint32_t *place = find_place(s, p->file, p->line);
    if (!*place) {
        char *path = path_of(p);
        if (!path)
            return;
        *place = s->place_count;
        s->places[s->place_count++] = (placed){p->file, p->line, is_of_library(path), path};
    }
    if (s->places[*place].is_of_library) {
        s->library = p->file;
        return;
    }
    while (s->event_places < position)
        s->event_place[s->event_places++] = 0;
    s->event_place[position] = *place;
    s->event_places = position + 1;
}

/* FILE:LINE of an event, or nothing. */
static bool put_place(FILE *f, slot *s, uint64_t position) {
    if (position >= s->event_places || !s->event_place[position])
        return false;
    const placed *p = &s->places[s->event_place[position]];
    fprintf(f, "%s:%u", after_last_slash(p->path), p->line);
    return true;
}

/* ---- the report: the explanation of the library, with names and places */

typedef struct logged {
    unsigned thread, operand;
    char kind[8];
} logged;

static bool read_logged(const char *text, logged *e) {
    e->operand = 0;
    return sscanf(text, "%u %7[a-z] %u", &e->thread, e->kind, &e->operand) >= 2;
}

/* Of a variable that stands for the start and the end of a thread. */
static void put_life(FILE *f, const logged *e, unsigned of) {
    bool writes = e->kind[0] == 'w';
    if (e->thread == of)
        fputs(writes ? "ends" : "begins", f);
    else
        fprintf(f, "%s thread %u", writes ? "starts" : "joins", of);
}

/* What it does, such as "writes balance". */
static void put_action(FILE *f, slot *s, const logged *e) {
    static const struct {
        const char *kind, *words;
        int list;
    } actions[] = {{"rd", "reads", 1},
                   {"wr", "writes", 1},
                   {"acq", "acquires", 2},
                   {"rel", "releases", 2},
                   {"acqs", "acquires a share of", 2},
                   {"rels", "releases a share of", 2},
                   {"begin", "begins", 3},
                   {"fork", "starts thread", 4},
                   {"join", "joins thread", 4},
                   {"end", "ends a block", 0},
                   {"exit", "ends", 0}};
    names *lists[] = {NULL, &s->variable, &s->lock, &s->label};
    for (size_t i = 0; i < sizeof actions / sizeof *actions; i++) {
        if (strcmp(actions[i].kind, e->kind) != 0)
            continue;
        if (actions[i].list == 1 && e->operand >= s->variables) {
            put_life(f, e, e->operand - s->variables);
            return;
        }
        fputs(actions[i].words, f);
        if (actions[i].list)
            fputc(' ', f);
        if (actions[i].list == 4)
            fprintf(f, "%u", e->operand);
        else if (actions[i].list)
            put_name(f, s, lists[actions[i].list], e->operand);
    }
}

/* An event between backquotes, which is on this line of the log: in words. Returns what comes
 * behind it. */
static const char *put_event(FILE *f, slot *s, const char *text, unsigned line) {
    const char *behind = strchr(text, '`');
    logged e;
    if (!behind || !read_logged(text, &e))
        return text;
    fprintf(f, "(thread %u ", e.thread);
    put_action(f, s, &e);
    if (line >= 2 && line - 2 < s->event_places && s->event_place[line - 2])
        fputs(" at ", f);
    if (line >= 2)
        put_place(f, s, line - 2);
    fputc(')', f);
    return behind + 1;
}

/* A line of the explanation, with names in the place of numbers. */
static void put_line(FILE *f, slot *s, const char *text, const char *end) {
    unsigned line = 0, label;
    int n;
    while (text < end) {
        n = 0;
        if ((*text == 'l' || *text == 'L') && sscanf(text + 1, "ine %u%n", &line, &n) == 1 && n) {
            fprintf(f, "%cine %u", *text, line);
            text += n + 1;
        } else if (*text == '`') {
            text = put_event(f, s, text + 1, line);
        } else if (*text == 'b' && sscanf(text, "block %u%n", &label, &n) == 1 && n) {
            fputs("block ", f);
            put_name(f, s, &s->label, label);
            text += n;
        } else {
            fputc(*text++, f);
        }
    }
    fputc('\n', f);
}

/* The library's words of the alarm, without a zero byte; to be freed. */
static char *explanation(slot *s) {
    size_t count = 0;
    if (velodrome_explanation(s->handle, NULL, 0, &count) != VELODROME_TOO_SHORT)
        return NULL;
    char *text = malloc(count + 1);
    if (!text || velodrome_explanation(s->handle, text, count, &count)) {
        free(text);
        return NULL;
    }
    text[count] = 0;
    return text;
}

static void put_blamed(FILE *f, slot *s) {
    velodrome_block blocks[VELODROME_MAX_BLAMED];
    size_t count = 0;
    velodrome_blamed(s->handle, blocks, VELODROME_MAX_BLAMED, &count);
    for (size_t i = 0; i < count; i++) {
        fputs("not atomic: ", f);
        put_name(f, s, &s->label, blocks[i].label);
        fputc('\n', f);
    }
    if (!count)
        fputs("the blocks cannot be serialized, though each alone could be\n", f);
}

static char *report_of_alarm(slot *s, const char *text) {
    char *report = NULL;
    size_t size = 0;
    FILE *f = open_memstream(&report, &size);
    if (!f)
        return NULL;
    put_blamed(f, s);
    const char *line = text ? strstr(text, "\nLine ") : NULL;
    while (line && line[1]) {
        const char *end = strchr(line + 1, '\n');
        if (!end)
            break;
        put_line(f, s, line + 1, end);
        line = end;
    }
    if (!text)
        fputs("there was no memory for an explanation\n", f);
    return fclose(f) ? (free(report), NULL) : report;
}

/* ---- the alarm, with both sides */

typedef void (*put)(FILE *, slot *, const void *);

static char *text_of(slot *s, put p, const void *operand) {
    char *text = NULL;
    size_t size = 0;
    FILE *f = open_memstream(&text, &size);
    if (!f)
        return NULL;
    p(f, s, operand);
    return fclose(f) || !size ? (free(text), NULL) : text;
}

static void put_action_of(FILE *f, slot *s, const void *e) {
    put_action(f, s, e);
}
static void put_place_of(FILE *f, slot *s, const void *position) {
    put_place(f, s, *(const uint64_t *)position);
}
static void put_block_of(FILE *f, slot *s, const void *label) {
    put_name(f, s, &s->label, *(const unsigned *)label);
}

/* The label of the transaction with this number, from its line "  T2: thread 1, block 7, ..". */
static bool label_of(const char *text, unsigned transaction, unsigned *label) {
    char key[24];
    snprintf(key, sizeof key, "\n  T%u: ", transaction);
    const char *at = strstr(text, key);
    return at && sscanf(at + strlen(key), "thread %*u, block %u", label) == 1;
}

static void fill_side(slot *s, finding *found, int i, const char *text, unsigned transaction,
                      unsigned line, const char *event) {
    vs_side *side = i ? &found->alarm.second : &found->alarm.first;
    logged e = {0};
    unsigned label;
    read_logged(event, &e);
    side->position = line - 2;
    side->thread = e.thread;
    side->event = found->words[i][0] = text_of(s, put_action_of, &e);
    side->block = found->words[i][1] =
        label_of(text, transaction, &label) ? text_of(s, put_block_of, &label) : NULL;
    side->place = found->words[i][2] = text_of(s, put_place_of, &side->position);
}

/* The edge whose second event is on the line that closes the cycle: "  T2 before T1: line 8 `..`,
 * then line 12 `..`". */
static void fill_sides(slot *s, finding *found, const char *text) {
    unsigned closing, a, b, first, second;
    int n;
    const char *at = strstr(text, "\nLine ");
    if (!at || sscanf(at, "\nLine %u", &closing) != 1)
        return;
    while ((at = strchr(at + 1, '\n'))) {
        n = 0;
        if (sscanf(at, "\n  T%u before T%u: line %u `%n", &a, &b, &first, &n) != 3 || !n)
            continue;
        const char *then = strstr(at + n, "`, then line ");
        int m = 0;
        if (!then || sscanf(then, "`, then line %u `%n", &second, &m) != 1 || second != closing)
            continue;
        fill_side(s, found, 0, text, a, first, at + n);
        fill_side(s, found, 1, text, b, second, then + m);
        return;
    }
}

COLD void alarm_found(slot *s) {
    char *text = explanation(s);
    s->alarmed = true;
    end_recording(s);
    s->report = report_of_alarm(s, text);
    finding *found = s->hook ? calloc(1, sizeof *found) : NULL;
    if (found) {
        found->alarm.session = s->id;
        found->hook = s->hook;
        found->data = s->hook_data;
        found->report = s->report ? strdup(s->report) : NULL;
        found->alarm.report = found->report ? found->report : "";
        if (text)
            fill_sides(s, found, text);
        s->in_hook = true;
        s->found = found;
    }
    free(text);
}

/* ---- one event */

static const char *reason(velodrome_status status) {
    static const char *const words[] = {
        [VELODROME_NOT_LIVE] = "a thread acted after it was joined",
        [VELODROME_BUSY] =
            "a lock was taken that another thread holds, so not all of its uses are told",
        [VELODROME_ALREADY_HELD] =
            "a thread took a lock alone that it holds a share of, or the other way",
        [VELODROME_NOT_HOLDER] = "a lock was released by a thread that does not hold it",
        [VELODROME_BLOCK_OPEN] = "a thread ended in a block",
        [VELODROME_LOCK_HELD] = "a thread ended with a lock",
        [VELODROME_LOG_FULL] = "too many events while a block was open",
        [VELODROME_GRAPH_FULL] = "the graph is full",
        [VELODROME_EVENT_MEMORY] = "out of memory"};
    return (unsigned)status < sizeof words / sizeof *words && words[status]
               ? words[status]
               : velodrome_strerror(status);
}

/* What a call answered: true where the event is in the log. */
HOT bool told(slot *s, velodrome_status status, const velodrome_answer *a, const vs_place *place) {
    if (status) {
        stop(s, "%s", reason(status));
        return false;
    }
    s->events = (uint32_t)a->position + 1;
    if (place)
        note_place(s, (uint32_t)a->position, place);
    if (a->alarmed)
        alarm_found(s);
    return true;
}

/* ---- threads */

static uint32_t number_of_who(slot *s, uint64_t who) {
    for (uint32_t i = 1; i < s->threads_end; i++)
        if (s->thread[i].who == who)
            return i;
    return 0;
}

static uint32_t free_number(const slot *s) {
    uint32_t n = 1;
    while (n < s->threads_end && s->thread[n].who)
        n++;
    return n;
}

/* The start and the end of a number's thread are accesses of a variable beyond those of the
 * program: who starts it writes it and the thread reads it, the thread writes it at its end and who
 * joins it reads it. So a thread may act after it was joined, as what is local to it goes, and a
 * number may be used again. */
static uint32_t life_of(const slot *s, uint32_t number) {
    return s->variables + number;
}

/* A new thread, forked by `parent`; thread 0 is nobody, has no blocks, and forks those that come
 * from outside. */
static uint32_t enrol(slot *s, uint32_t parent, uint64_t who, const vs_place *place) {
    velodrome_answer a;
    uint32_t n = free_number(s);
    if (n == THREADS) {
        stop(s, "more than %d threads while a block was open", THREADS - 1);
        return 0;
    }
    if (!told(s, velodrome_fork(s->handle, parent, n, &a), &a, place))
        return 0;
    s->thread[n] = (thread){.who = who};
    s->threads++;
    if (s->threads_end == n)
        s->threads_end++;
    return n;
}

/* That of a thread which `parent` has joined: so whatever it did leads to what the new one does,
 * also where they are two. */
static uint32_t number_to_use_again(const slot *s, uint32_t parent) {
    for (uint32_t i = 1; i < s->threads_end && s->threads >= REUSED_FROM; i++) {
        const thread *t = &s->thread[i];
        if (t->joined && t->ended && t->joiner == parent && !t->deepest && !t->locks)
            return i;
    }
    return 0;
}

/* ---- the cut */

static void clear_names(slot *s) {
    for (uint32_t i = 0; i < s->word_count; i++)
        free(s->words[i].text);
    for (uint32_t i = 0; i < s->place_count; i++)
        free(s->places[i].path);
    s->word_count = s->variable.count = s->label.count = 0;
    s->place_count = s->event_places = 0;
    s->library = NULL;
    if (s->word_table)
        memset(s->word_table, 0, s->table_room * sizeof *s->word_table);
    if (s->place_table)
        memset(s->place_table, 0, s->place_table_room * sizeof *s->place_table);
}

/* Who is in no block waits for those that are. */
static void set_crowded(slot *s, bool crowded) {
    if (s->crowded != crowded)
        atomic_fetch_add(&crowds, crowded ? 1 : UINT32_MAX);
    s->crowded = crowded;
    s->slow = crowded || s->noise;
}

static void next_piece(slot *s) {
    atomic_store(&s->last, epoch(s) + SLOTS);
    s->open = s->events = 0;
    s->looks = 0;
    set_crowded(s, false);
}

static velodrome_status open_handle(slot *s) {
    uint32_t events = s->most + RESERVE;
    uint32_t nodes = events < VELODROME_MAX_NODES
                         ? events
                         : VELODROME_MAX_NODES; /* no more transactions than events */
    velodrome_limits limits = {THREADS, s->variables + (uint32_t)THREADS, s->locks, events, nodes};
    s->threads = s->threads_end = 1;
    s->locks_used = s->locks_from = 0;
    return velodrome_open(&s->handle, &limits);
}

/* The name of a lock that is held across a cut. */
typedef struct carried {
    uint32_t lock, nth;
    char *name;
} carried;

static bool is_held(const hold *h) {
    return h->owner || h->shares;
}

static void free_carried(carried *list, uint32_t count) {
    while (count)
        free(list[--count].name);
    free(list);
}

/* The names of the locks that are held; NULL where there is no memory. */
static carried *names_of_held(const slot *s, uint32_t *count) {
    carried *list = calloc(s->locks_used + 1, sizeof *list);
    *count = 0;
    for (uint32_t i = 0; list && i < s->lock.count; i++) {
        const named *n = &s->lock.at[i];
        if (!is_held(&s->holds[i]))
            continue;
        char *name = strdup(s->words[n->word].text);
        if (!name) {
            free_carried(list, *count);
            return NULL;
        }
        list[(*count)++] = (carried){i, n->nth, name};
    }
    return list;
}

/* Each thread without a lock ends, and thread 0 joins it: it is met again where it acts again, and
 * meanwhile others may have its number. */
static bool end_threads(slot *s) {
    velodrome_answer a;
    uint32_t end = 1;
    for (uint32_t i = 1; i < s->threads_end; i++) {
        thread *t = &s->thread[i];
        if (t->who && t->locks) {
            *t = (thread){.who = t->who, .locks = t->locks, .ended = t->ended};
            end = i + 1;
        } else if (t->who) {
            if (!told(s, velodrome_exit(s->handle, i, &a), &a, NULL) ||
                !told(s, velodrome_join(s->handle, 0, i, &a), &a, NULL))
                return false;
            *t = (thread){0};
            s->threads--;
        }
    }
    s->threads_end = end;
    return true;
}

/* The locks that are held keep their numbers; all others are given anew. */
static void keep_held(slot *s) {
    uint32_t end = 0;
    for (uint32_t i = 0; i < s->lock.count; i++) {
        hold *h = &s->holds[i];
        s->lock.at[i].word = NO_WORD;
        if (!is_held(h)) {
            h->old = 0;
        } else {
            end = i + 1;
            if (!h->old)
                h->old = tag_with(epoch(s), i);
        }
    }
    s->lock.count = end;
    s->locks_used = s->locks_from = 0;
}

static bool grow_holds(slot *s) {
    uint32_t room = s->holds_room;
    if (!has_room(&s->holds, &s->holds_room, s->lock.count, sizeof *s->holds))
        return false;
    if (s->holds_room > room)
        memset(s->holds + room, 0, (s->holds_room - room) * sizeof *s->holds);
    return true;
}

static uint32_t free_lock(slot *s) {
    while (s->locks_from < s->lock.count && s->lock.at[s->locks_from].word != NO_WORD)
        s->locks_from++;
    return s->locks_from;
}

static uint32_t add_lock(slot *s, word *w, uint32_t nth) {
    uint32_t n = free_lock(s);
    if (w && n < s->lock.count) {
        s->lock.at[n] = (named){(uint32_t)(w - s->words), nth};
    } else if (!w || !grow_holds(s) || !add_name(s, &s->lock, w, nth)) {
        stop(s, "out of memory");
        return NOT_TOLD;
    }
    s->locks_used++;
    return n;
}

static void name_again(slot *s, const carried *c) {
    word *w = word_with(s, c->name, strlen(c->name));
    if (!w) {
        stop(s, "out of memory");
        return;
    }
    if (w->met[1] < c->nth)
        w->met[1] = c->nth;
    s->lock.at[c->lock] = (named){(uint32_t)(w - s->words), c->nth};
    s->locks_used++;
}

static uint32_t number_again(slot *s, uint64_t who) {
    uint32_t number = number_of_who(s, who);
    return number ? number : enrol(s, 0, who, NULL);
}

/* Goes on in a new log with the same locks held. No block is open. That whatever comes then is
 * judged as if the log had gone on is proved of velodrome_renew. */
static void renew(slot *s) {
    uint32_t count, events = s->events;
    velodrome_summary after = {0};
    carried *held = names_of_held(s, &count);
    if (!held)
        return;
    velodrome_status status = end_threads(s) ? velodrome_renew(s->handle) : VELODROME_DONE;
    if (status)
        stop(s, "%s", reason(status));
    if (s->recording) {
        velodrome_verdict(s->handle, &after);
        s->earlier += events;
        keep_held(s);
        clear_names(s);
        next_piece(s);
        s->events = (uint32_t)after.events;
        for (uint32_t i = 0; i < count; i++)
            name_again(s, &held[i]);
    }
    free_carried(held, count);
}

/* Three quarters of a limit are in use. Where that is not of events, a cut has to be worth its
 * while. */
static bool is_nearly_full(slot *s, uint32_t used, uint32_t limit) {
    return used >= limit || (used >= limit - limit / 4 && s->events >= 4096);
}

/* Cuts the run where no block is open, so that there is room for one more. */
static void make_room(slot *s, uint32_t used, uint32_t limit) {
    if (!s->recording || !is_nearly_full(s, used, limit))
        return;
    if (!s->open)
        renew(s);
    else
        set_crowded(s, true);
}

/* The last numbers are for those that cannot wait. */
static void make_room_for_thread(slot *s, uint32_t used) {
    make_room(s, used, THREADS);
    if (s->open && s->recording && used >= REUSED_FROM)
        set_crowded(s, true);
}

static void make_room_for_events(slot *s) {
    if (s->events < s->near)
        return;
    if (!s->open)
        renew(s);
    else if (s->events >= s->most)
        stop(s, "%s", reason(VELODROME_LOG_FULL));
    else if (s->events >= s->most - s->most / 8)
        set_crowded(s, true);
}

/* ---- who acts */

static uint64_t mixed(uint64_t x) {
    x += 0x9e3779b97f4a7c15ull;
    x = (x ^ x >> 30) * 0xbf58476d1ce4e5b9ull;
    x = (x ^ x >> 27) * 0x94d049bb133111ebull;
    return x ^ x >> 31;
}

static seat *seat_in(struct vs_self *me, uint64_t id) {
    for (int i = 0; i < SEATS; i++)
        if (me->seat[i].id == id)
            return &me->seat[i];
    return NULL;
}

/* A seat that is free, or of a session that is over; NULL where it acts in four others. */
static seat *new_seat(struct vs_self *me, slot *s, uint64_t who) {
    for (int i = 0; i < SEATS; i++) {
        if (is_open(me->seat[i].id))
            continue;
        me->seat[i] = (seat){.in = s,
                             .id = s->id,
                             .since = s->since,
                             .who = who,
                             .random = mixed(s->seed ^ mixed(who)) | 1};
        return &me->seat[i];
    }
    return NULL;
}

/* That of who acts, with its number in this piece of the run; NULL where it cannot be told. */
static seat *seat_of(slot *s, struct vs_self *me) {
    seat *t = seat_in(me, s->id);
    if (!t && !(t = new_seat(me, s, s->born + 1))) {
        stop(s, "a thread acts in more than %d sessions at a time", SEATS);
        return NULL;
    }
    me->recent = (int)(t - me->seat);
    if (t->who > s->born)
        s->born = t->who;
    if (t->epoch == epoch(s))
        return t;
    uint32_t number = number_of_who(s, t->who);
    if (!number) {
        make_room_for_thread(s, s->threads);
        number = number_again(s, t->who);
    }
    if (!s->recording)
        return NULL;
    s->thread[number].ended = false; /* it acts after its end */
    t->epoch = epoch(s);
    t->number = (uint8_t)number;
    t->told = 0;
    t->done = 0;
    return t;
}

/* ---- blocks */

/* Labels of one name are one label. */
static uint32_t label_number(slot *s, vs_object *label) {
    uint64_t tag = tag_of(label);
    if (epoch_of(tag) == epoch(s))
        return number_in(tag);
    char text[NAME_ROOM];
    size_t bytes = name_of(label, "block", NULL, text);
    if (is_ignored(s, VS_NAMED_LABEL, text)) {
        __atomic_store_n(&label->tag, tag_with(epoch(s), IGNORED), __ATOMIC_RELAXED);
        return IGNORED;
    }
    word *w = word_with(s, text, bytes);
    if (!w || (!w->label && (s->label.count >= IGNORED || !add_name(s, &s->label, w, 1)))) {
        stop(s, "out of memory");
        return NOT_TOLD;
    }
    if (!w->label)
        w->label = s->label.count;
    __atomic_store_n(&label->tag, tag_with(epoch(s), w->label - 1), __ATOMIC_RELAXED);
    return w->label - 1;
}

/* Those whose label is known; the rest are only counted. */
static int stored(const struct vs_self *me) {
    return me->depth < DEPTH ? me->depth : DEPTH;
}

COLD bool begin_blocks(slot *s, struct vs_self *me, seat *t) {
    velodrome_answer a;
    thread *it = &s->thread[t->number];
    for (int deep = stored(me); t->done < deep && s->recording; t->done++) {
        const open_block *b = &me->block[t->done];
        uint32_t label = b->since < t->since ? IGNORED : label_number(s, b->label);
        if (label == IGNORED)
            continue; /* it is older than the session, or is left out */
        if (label == NOT_TOLD ||
            !told(s, velodrome_begin(s->handle, t->number, label, &a), &a, NULL))
            return false;
        if (!t->told)
            s->open++;
        t->told |= 1u << t->done;
        it->actor = me->id;
        it->system = this_system_thread();
        it->deepest = b->nth;
    }
    return s->recording;
}

/* Tells the ends of the blocks from the one at `from` on. */
static void end_in(struct vs_self *me, seat *t, int from) {
    velodrome_answer a;
    uint32_t ending = t->told >> from;
    t->told &= (1u << from) - 1;
    t->done = from;
    slot *s = ending ? kept(t->id) : NULL;
    if (!s)
        return;
    if (t->epoch == epoch(s)) {
        for (; ending && s->recording; ending &= ending - 1)
            told(s, velodrome_end(s->handle, t->number, &a), &a, NULL);
        s->thread[t->number].deepest = t->told ? me->block[31 - __builtin_clz(t->told)].nth : 0;
        if (!t->told)
            s->open--;
        if (s->recording && s->crowded && !s->open)
            renew(s);
        if (s->recording)
            make_room_for_events(s);
    }
    let_go(s);
}

static void end_from(struct vs_self *me, int from) {
    me->depth = from;
    for (int i = 0; i < SEATS && from < DEPTH; i++)
        if (me->seat[i].id && me->seat[i].done > from)
            end_in(me, &me->seat[i], from);
}

/* Takes a block out that nobody counts any more. */
static void forget_block(struct vs_self *me, int at) {
    uint32_t before = (1u << at) - 1;
    int deep = stored(me) - 1;
    memmove(&me->block[at], &me->block[at + 1], (size_t)(deep - at) * sizeof *me->block);
    me->depth = deep;
    for (int i = 0; i < SEATS; i++) {
        seat *t = &me->seat[i];
        t->told = (t->told & before) | (t->told >> 1 & ~before);
        t->done -= t->done > at;
    }
}

/* Blocks that began before the oldest session that is open were left by a jump, or outlived theirs.
 */
static void forget_old(struct vs_self *me, uint64_t now) {
    uint64_t oldest = UINT64_MAX;
    me->looked = now;
    for (int i = 0; i < SLOTS; i++) {
        uint64_t since = atomic_load_explicit(&opened_since[i], memory_order_relaxed);
        if (since && since < oldest)
            oldest = since;
    }
    while (me->depth && me->block[0].since < oldest)
        forget_block(me, 0);
}

/* Ends of blocks by others than who began them, as a coroutine's that goes on in another thread. */
static struct {
    pthread_mutex_t lock;
    vs_block at[ENDS];
    _Atomic uint64_t count;
} ends = {.lock = PTHREAD_MUTEX_INITIALIZER};

static const char of_another[] =
    "a block was ended by another thread than began it, as one of a coroutine that goes from "
    "thread to thread; let its threads act as it (vs_switch)";

/* Takes out those of its blocks that others have ended. Where one has events in a session, so had
 * the block, and the session was told of it. */
COLD void take_ends(struct vs_self *me) {
    pthread_mutex_lock(&ends.lock);
    uint64_t last = ends.count;
    for (uint64_t i = last - me->seen > ENDS ? last - ENDS : me->seen; i < last; i++)
        for (int k = stored(me) - 1; k >= 0 && ends.at[i % ENDS].who == me->id; k--)
            if (me->block[k].nth == ends.at[i % ENDS].nth)
                forget_block(me, k);
    me->seen = last;
    pthread_mutex_unlock(&ends.lock);
}

HOT void look_for_ends(struct vs_self *me) {
    if (me->depth && me->seen != atomic_load_explicit(&ends.count, memory_order_relaxed))
        take_ends(me);
}

/* What the thread that began it did meanwhile was told as in the block, and what others did for it
 * was not: where it has events, nothing is known any more. */
static void doubt_block(slot *s, vs_block block) {
    for (uint32_t i = 1; i < s->threads_end; i++) {
        if (s->thread[i].actor != block.who || s->thread[i].deepest < block.nth)
            continue;
        if (s->alarmed)
            snprintf(s->doubt, sizeof s->doubt, "%s", of_another);
        else
            stop(s, "%s", of_another);
    }
}

COLD void end_for_another(vs_block block) {
    pthread_mutex_lock(&ends.lock);
    ends.at[ends.count % ENDS] = block;
    ends.count++;
    pthread_mutex_unlock(&ends.lock);
    for (slot *s = slots; s < slots + SLOTS; s++) {
        uint64_t id = atomic_load_explicit(&s->id, memory_order_relaxed);
        if (!id || !kept(id))
            continue;
        doubt_block(s, block);
        let_go(s);
    }
}

/* Tells the begins of the blocks that an event stands in. */
HOT bool in_blocks(slot *s, struct vs_self *me, seat *t) {
    look_for_ends(me);
    return t->done >= me->depth || begin_blocks(s, me, t);
}

/* A block ends that was still open as an outer one ended: they do not nest, so what was told as in
 * one may be of the other. */
COLD void end_too_late(struct vs_self *me, uint64_t nth) {
    if (nth < me->left_from || nth > me->left_to)
        return;
    for (int i = 0; i < SEATS; i++) {
        slot *s = kept(me->seat[i].id);
        if (!s)
            continue;
        if (s->since <= me->left_since)
            stop(s, "blocks of one thread do not nest, as those of fibers or of generators; let it "
                    "act as each of them (vs_switch)");
        let_go(s);
    }
}

/* Blocks within it that are still open were left by a jump, and end with it. */
static void end_own(struct vs_self *me, uint64_t nth) {
    look_for_ends(me);
    int at = stored(me) - 1;
    if (me->depth > DEPTH && nth > me->block[at].nth) {
        me->depth--;
        return;
    }
    while (at >= 0 && me->block[at].nth > nth)
        at--;
    if (at < 0 || me->block[at].nth != nth) {
        end_too_late(me, nth);
        return;
    }
    if (at < me->depth - 1) {
        me->left_from = nth + 1;
        me->left_to = me->nth;
        me->left_since = atomic_load_explicit(&openings, memory_order_relaxed);
    }
    end_from(me, at);
}

COLD void wait_at_begin(struct vs_self *me);
HOT void tell_pending(struct vs_self *me);

vs_block vs_begin_block(vs_object *label) {
    vs_block block = {0, 0};
    if (vs_idle() || !come_in())
        return block; /* a session begins with no block of any thread */
    struct vs_self *me = self();
    uint64_t since = atomic_load_explicit(&openings, memory_order_relaxed);
    tell_pending(me);
    if (me->depth && me->looked != since)
        forget_old(me, since);
    if (!me->depth) {
        if (!me->id)
            me->id = new_identity();
        me->seen = atomic_load_explicit(&ends.count, memory_order_relaxed);
        if (atomic_load_explicit(&crowds, memory_order_relaxed))
            wait_at_begin(me);
    }
    block = (vs_block){me->id, ++me->nth};
    if (me->depth < DEPTH)
        me->block[me->depth] = (open_block){label, block.nth, since};
    me->depth++;
    go_out();
    return block;
}

void vs_end_block(vs_block block) {
    if (!block.who || !come_in())
        return;
    struct vs_self *me = self();
    tell_pending(me);
    if (block.who == me->id)
        end_own(me, block.nth);
    else
        end_for_another(block);
    go_out();
}

void vs_begin(vs_object *label) {
    vs_begin_block(label);
}

void vs_end(void) {
    struct vs_self *me = self();
    if (me->depth <= 0 || !come_in())
        return;
    tell_pending(me);
    look_for_ends(me);
    if (me->depth > 0)
        end_from(me, me->depth - 1);
    go_out();
}

/* ---- variables and locks */

/* Gives the object its number, unless a thread of another session was first. */
static bool claim(slot *s, vs_object *o, uint64_t old, uint32_t number) {
    if (__atomic_compare_exchange_n(&o->tag, &old, tag_with(epoch(s), number), false,
                                    __ATOMIC_RELAXED, __ATOMIC_RELAXED))
        return true;
    stop(s, "two sessions use one object at a time");
    return false;
}

COLD uint32_t new_variable(slot *s, vs_object *o, uint64_t tag, const vs_place *place) {
    char text[NAME_ROOM];
    size_t bytes = name_of(o, "variable", place, text);
    if (is_ignored(s, VS_NAMED_VARIABLE, text))
        return claim(s, o, tag, IGNORED) ? IGNORED : NOT_TOLD;
    if (s->variable.count >= s->variables) {
        stop(s, "more than %u variables while a block was open", s->variables);
        return NOT_TOLD;
    }
    word *w = word_with(s, text, bytes);
    if (!w || !add_name(s, &s->variable, w, ++w->met[0])) {
        stop(s, "out of memory");
        return NOT_TOLD;
    }
    return claim(s, o, tag, s->variable.count - 1) ? s->variable.count - 1 : NOT_TOLD;
}

HOT uint32_t variable_number(slot *s, vs_object *o, const vs_place *place) {
    uint64_t tag = tag_of(o);
    return epoch_of(tag) == epoch(s) ? number_in(tag) : new_variable(s, o, tag, place);
}

/* The number of a lock that is held since an earlier piece. */
COLD uint32_t carried_lock(slot *s, vs_object *o, uint64_t tag) {
    uint32_t n = number_in(tag);
    if (!is_of(s, tag) || n >= s->lock.count || s->holds[n].old != tag || !claim(s, o, tag, n))
        return NOT_TOLD;
    s->holds[n].old = 0;
    return n;
}

HOT uint32_t known_lock(slot *s, vs_object *o) {
    uint64_t tag = tag_of(o);
    return epoch_of(tag) == epoch(s) ? number_in(tag) : carried_lock(s, o, tag);
}

COLD uint32_t new_lock(slot *s, vs_object *o, const vs_place *place) {
    if (!s->recording)
        return NOT_TOLD;
    uint64_t tag = tag_of(o);
    char text[NAME_ROOM];
    size_t bytes = name_of(o, "lock", place, text);
    if (is_ignored(s, VS_NAMED_LOCK, text))
        return claim(s, o, tag, IGNORED) ? IGNORED : NOT_TOLD;
    if (free_lock(s) >= s->locks) {
        stop(s, "more than %u locks while a block was open", s->locks);
        return NOT_TOLD;
    }
    word *w = word_with(s, text, bytes);
    uint32_t number = add_lock(s, w, w ? ++w->met[1] : 0);
    return number != NOT_TOLD && claim(s, o, tag, number) ? number : NOT_TOLD;
}

HOT uint32_t lock_number(slot *s, vs_object *o, const vs_place *place) {
    uint32_t known = known_lock(s, o);
    return known != NOT_TOLD ? known : new_lock(s, o, place);
}

/* A lock that is left out, or one that is not known. */
HOT bool is_no_number(uint32_t n) {
    return n >= IGNORED;
}

static share *share_of(hold *h, uint64_t who) {
    for (uint32_t i = 0; i < h->shares; i++)
        if (h->share[i].who == who)
            return &h->share[i];
    return NULL;
}

static void take(slot *s, struct vs_self *me, seat *t, vs_object *o, const vs_place *place) {
    velodrome_answer a;
    uint32_t n = lock_number(s, o, place);
    if (is_no_number(n))
        return;
    if (s->holds[n].owner == t->who) {
        s->holds[n].times++;
    } else if (in_blocks(s, me, t) &&
               told(s, velodrome_acquire(s->handle, t->number, n, &a), &a, place)) {
        s->holds[n].owner = t->who;
        s->holds[n].times = 1;
        s->thread[t->number].locks++;
    }
}

static void give_back(slot *s, struct vs_self *me, seat *t, vs_object *o, const vs_place *place) {
    velodrome_answer a;
    uint32_t n = known_lock(s, o);
    if (is_no_number(n) || !s->holds[n].owner)
        return; /* it was taken before the session */
    if (s->holds[n].owner == t->who && --s->holds[n].times)
        return;
    if (in_blocks(s, me, t) && told(s, velodrome_release(s->handle, t->number, n, &a), &a, place)) {
        s->holds[n].owner = 0;
        s->thread[t->number].locks--;
    }
}

static void take_share(slot *s, struct vs_self *me, seat *t, vs_object *o, const vs_place *place) {
    velodrome_answer a;
    uint32_t n = lock_number(s, o, place);
    if (is_no_number(n))
        return;
    hold *h = &s->holds[n];
    share *own = share_of(h, t->who);
    if (own) {
        own->times++;
    } else if (!has_room(&h->share, &h->room, h->shares, sizeof *h->share)) {
        stop(s, "out of memory");
    } else if (in_blocks(s, me, t) &&
               told(s, velodrome_acquire_shared(s->handle, t->number, n, &a), &a, place)) {
        h->share[h->shares++] = (share){t->who, 1};
        s->thread[t->number].locks++;
    }
}

static void give_share_back(slot *s, struct vs_self *me, seat *t, vs_object *o,
                            const vs_place *place) {
    velodrome_answer a;
    uint32_t n = known_lock(s, o);
    share *own = is_no_number(n) ? NULL : share_of(&s->holds[n], t->who);
    if (!own || --own->times)
        return;
    if (in_blocks(s, me, t) &&
        told(s, velodrome_release_shared(s->handle, t->number, n, &a), &a, place))
        s->thread[t->number].locks--;
    *own = s->holds[n].share[--s->holds[n].shares];
}

HOT void access_variable(slot *s, struct vs_self *me, seat *t, vs_object *o, vs_kind kind,
                         const vs_place *place) {
    velodrome_answer a;
    uint32_t n = variable_number(s, o, place);
    if (is_no_number(n) || !in_blocks(s, me, t))
        return;
    if (kind == VS_READ)
        told(s, velodrome_read(s->handle, t->number, n, &a), &a, place);
    else
        told(s, velodrome_write(s->handle, t->number, n, 0, &a), &a, place);
}

static void make_room_for_object(slot *s, vs_kind kind) {
    if (kind == VS_READ || kind == VS_WRITE)
        make_room(s, s->variable.count, s->variables);
    else if (kind == VS_ACQUIRE || kind == VS_ACQUIRE_SHARED)
        make_room(s, s->locks_used, s->locks);
}

/* The seat for an event, which may be the first of its thread or its object since the last cut;
 * NULL where it cannot be told. */
COLD seat *seat_for(slot *s, struct vs_self *me, vs_object *o, vs_kind kind) {
    make_room_for_events(s);
    if (epoch_of(tag_of(o)) != epoch(s))
        make_room_for_object(s, kind);
    return s->recording ? seat_of(s, me) : NULL;
}

HOT void event(slot *s, struct vs_self *me, vs_object *o, vs_kind kind, const vs_place *place) {
    seat *t = &me->seat[me->recent];
    uint64_t now = epoch(s);
    if (t->epoch != now || epoch_of(tag_of(o)) != now || s->events >= s->near)
        t = seat_for(s, me, o, kind);
    if (!t)
        return;
    switch (kind) {
    case VS_READ:
    case VS_WRITE:
        access_variable(s, me, t, o, kind, place);
        break;
    case VS_ACQUIRE:
        take(s, me, t, o, place);
        break;
    case VS_RELEASE:
        give_back(s, me, t, o, place);
        break;
    case VS_ACQUIRE_SHARED:
        take_share(s, me, t, o, place);
        break;
    case VS_RELEASE_SHARED:
        give_share_back(s, me, t, o, place);
        break;
    }
}

/* ---- which session an event is of */

static uint64_t entered(void) {
    uint64_t id = self()->current;
    return is_open(id) ? id : 0;
}

vs_session vs_current(void) {
    uint64_t id = entered(), all = atomic_load_explicit(&everywhere, memory_order_relaxed);
    return id ? id : is_open(all) ? all : 0;
}

void vs_stop(const char *why) {
    slot *s = kept(vs_current());
    if (!s)
        return;
    stop(s, "%s", why);
    let_go(s);
}

void vs_enter(vs_session session) {
    self()->current = session;
}

/* The session does not see an event of its own thread, since the object is another's. */
static void miss(uint64_t id, const vs_object *o) {
    char name[NAME_ROOM];
    slot *s = kept(id);
    if (!s)
        return;
    name_of(o, "object", NULL, name);
    stop(s, "another session uses %.90s at the same time; of two that are open an object is of one",
         name);
    let_go(s);
}

/* The object's own session while it is open; else this thread's, else that of all. */
COLD uint64_t session_for(vs_object *o) {
    uint64_t tag = tag_of(o), own = entered();
    slot *s = slot_of(epoch_of(tag));
    if (!is_of(s, tag))
        return own ? own : vs_current();
    uint64_t id = atomic_load_explicit(&s->id, memory_order_relaxed);
    if (own && id && own != id)
        miss(own, o);
    return id;
}

static void pause_for(slot *s, uint32_t nanoseconds) {
    void (*wait)(uint32_t) = s->wait;
    int errno_before = errno;
    bool inside = step_out();
    if (wait)
        wait(nanoseconds);
    else
        sleep_for(nanoseconds);
    step_in(inside);
    errno = errno_before;
}

/* One event in so many waits, before the lock is taken, so that more schedules come about. */
static void disturb(slot *s, struct vs_self *me, uint64_t id) {
    uint32_t noise = atomic_load_explicit(&s->noise, memory_order_relaxed);
    seat *t = noise ? seat_in(me, id) : NULL;
    if (!t)
        return;
    t->random ^= t->random << 13;
    t->random ^= t->random >> 7;
    t->random ^= t->random << 17;
    uint64_t drawn = t->random * 0x2545f4914f6cdd1dull >> 16;
    if (drawn % noise == 0)
        pause_for(s, (uint32_t)((drawn >> 16) % 200000));
}

/* How many looks who waits for open blocks takes: none where no other thread of the system has one.
 * A thread with a lock may be what such a one waits for, so it goes on, unless it cannot: where
 * there is no number for it, or for the thread that it starts. */
static uint32_t looks_to_take(slot *s, const seat *t, bool forks, bool has_lock) {
    bool others = false;
    if (!keep(s))
        return 0;
    uint32_t number = !t ? 0 : t->epoch == epoch(s) ? t->number : number_of_who(s, t->who);
    bool is_stuck = s->threads == THREADS && (forks ? !number_to_use_again(s, number) : !number);
    has_lock |= number && s->thread[number].locks;
    for (uint32_t i = 1; i < s->threads_end; i++)
        others |= s->thread[i].deepest && s->thread[i].system != mine.system;
    bool waits = s->crowded && others && (is_stuck || !has_lock);
    let_go(s);
    return !waits ? 0 : is_stuck ? 5 * MOST_LOOKS : MOST_LOOKS;
}

/* A thread without an open block waits for those of others. In each piece of the run all together
 * take so many looks, as a block may wait for one of them. */
static void wait_for_blocks(slot *s, struct vs_self *me, uint64_t id, bool forks, bool has_lock) {
    seat *t = seat_in(me, id);
    uint64_t piece = epoch(s);
    if (!s->crowded || (t && t->told))
        return;
    for (uint32_t i = s->looks;
         s->recording && epoch(s) == piece && i < looks_to_take(s, t, forks, has_lock); i++) {
        pause_for(s, BETWEEN_LOOKS);
        if (s->looks <= i)
            s->looks = i + 1;
    }
}

COLD void wait_before(slot *s, struct vs_self *me, uint64_t id, bool forks, bool has_lock) {
    if (is_keeper(s))
        return;
    disturb(s, me, id);
    wait_for_blocks(s, me, id, forks, has_lock);
}

COLD void wait_at_begin(struct vs_self *me) {
    uint64_t id = vs_current();
    slot *s = slot_of(id);
    if (id && s->recording && !is_keeper(s))
        wait_for_blocks(s, me, id, false, me->pendings > 0);
}

/* The session of nearly all events: that of this thread's last one, where the object has a number
 * since the last cut. */
HOT bool is_usual(const struct vs_self *me, const seat *t, const vs_object *o) {
    if (!t->epoch || t->epoch != epoch_of(tag_of(o)) || (me->current && me->current != t->id))
        return false;
    return atomic_load_explicit(&t->in->id, memory_order_relaxed) == t->id;
}

/* The slot of the session that an event about the object is of, kept; NULL where nothing is to be
 * told. */
HOT slot *slot_for(struct vs_self *me, vs_object *o, bool is_of_lock) {
    const seat *t = &me->seat[me->recent];
    bool usual = is_usual(me, t, o);
    uint64_t id = usual ? t->id : session_for(o);
    slot *s = usual ? t->in : slot_of(id);
    if (!id || !atomic_load_explicit(&s->recording, memory_order_relaxed))
        return NULL;
    if (atomic_load_explicit(&s->slow, memory_order_relaxed))
        wait_before(s, me, id, false, is_of_lock || me->pendings);
    return kept_in(s, id);
}

/* Tells of the locks that it took since its last event; those of the session in the slot, which is
 * kept, in the same hold. */
COLD void tell_all_pending(slot *kept_slot, struct vs_self *me) {
    int count = me->pendings;
    me->pendings = 0;
    me->tried = false;
    for (int i = 0; i < count; i++) {
        uint64_t id = session_for(me->pending[i].lock);
        slot *s = !id ? NULL : kept_slot == slot_of(id) ? kept_slot : kept(id);
        if (s && s->recording)
            event(s, me, me->pending[i].lock, me->pending[i].kind, &me->pending[i].place);
        if (s && s != kept_slot)
            let_go(s);
    }
}

HOT void tell_pending_in(slot *s, struct vs_self *me) {
    if (me->pendings)
        tell_all_pending(s, me);
}

HOT void tell_pending(struct vs_self *me) {
    tell_pending_in(NULL, me);
}

/* Whether this gives back a lock that std::lock took before a try that failed, so that neither is
 * told. */
COLD bool backs_off(struct vs_self *me, const vs_object *o) {
    for (int i = me->pendings - 1; i >= 0 && me->tried; i--) {
        if (me->pending[i].lock != o)
            continue;
        me->pendings--;
        memmove(&me->pending[i], &me->pending[i + 1],
                (size_t)(me->pendings - i) * sizeof *me->pending);
        me->tried = me->pendings > 0;
        return true;
    }
    return false;
}

static unsigned token_of(slot *s) {
    return s ? (unsigned)(s - slots) + 1 : 0;
}

unsigned vs_hold(vs_object *o) {
    if (vs_idle() || !come_in())
        return 0;
    struct vs_self *me = self();
    slot *s = slot_for(me, o, false);
    tell_pending_in(s, me);
    go_out();
    return token_of(s);
}

HOT bool is_of_lock(vs_kind kind) {
    return kind != VS_READ && kind != VS_WRITE;
}

/* The slot, kept, with the event told in it. */
HOT slot *told_of(struct vs_self *me, vs_object *o, vs_kind kind, const vs_place *place) {
    slot *s = slot_for(me, o, is_of_lock(kind));
    tell_pending_in(s, me);
    if (s && atomic_load_explicit(&s->recording, memory_order_relaxed))
        event(s, me, o, kind, place);
    return s;
}

unsigned vs_before_at(vs_object *o, vs_kind kind, const vs_place *place) {
    if (vs_idle() || !come_in())
        return 0;
    slot *s = told_of(self(), o, kind, place);
    go_out();
    return token_of(s);
}

unsigned vs_before(vs_object *o, vs_kind kind) {
    return vs_before_at(o, kind, NULL);
}

void vs_after(unsigned token) {
    if (!token || !come_in())
        return;
    let_go(&slots[token - 1]);
    go_out();
}

void vs_tell_at(vs_object *o, vs_kind kind, const vs_place *place) {
    if (vs_idle() || !come_in())
        return;
    struct vs_self *me = self();
    bool is_back =
        me->pendings && (kind == VS_RELEASE || kind == VS_RELEASE_SHARED) && backs_off(me, o);
    slot *s = is_back ? NULL : told_of(me, o, kind, place);
    if (s)
        let_go(s);
    go_out();
}

void vs_tell(vs_object *o, vs_kind kind) {
    vs_tell_at(o, kind, NULL);
}

void vs_acquired_at(vs_object *lock, vs_kind kind, const vs_place *place) {
    static const vs_place none;
    if (vs_idle() || !come_in())
        return;
    struct vs_self *me = self();
    if (me->pendings == PENDING)
        tell_pending(me);
    me->pending[me->pendings].lock = lock;
    me->pending[me->pendings].kind = kind;
    me->pending[me->pendings++].place = place ? *place : none;
    go_out();
}

void vs_acquired(vs_object *lock, vs_kind kind) {
    vs_acquired_at(lock, kind, NULL);
}

void vs_try_failed(void) {
    struct vs_self *me = self();
    me->tried = me->pendings > 0;
}

/* ---- threads that the program starts */

static void start_thread(slot *s, uint32_t parent, uint64_t who, const vs_place *place) {
    velodrome_answer a;
    uint32_t n = number_to_use_again(s, parent);
    if (!n) {
        enrol(s, parent, who, place);
        return;
    }
    if (told(s, velodrome_write(s->handle, parent, life_of(s, n), 0, &a), &a, place) &&
        s->recording && told(s, velodrome_read(s->handle, n, life_of(s, n), &a), &a, NULL))
        s->thread[n] = (thread){.who = who, .lived = true};
}

static vs_child forked(const vs_place *place) {
    vs_child child = {0, 0};
    uint64_t id = vs_current();
    struct vs_self *me = self();
    if (id && slot_of(id)->slow)
        wait_before(slot_of(id), me, id, true, me->pendings);
    slot *s = kept(id);
    tell_pending_in(s, me);
    if (!s)
        return child;
    child.session = s->id;
    child.who = ++s->born;
    if (s->recording) {
        make_room_for_events(s);
        seat *t = s->recording ? seat_of(s, me) : NULL;
        if (t && !number_to_use_again(s, t->number)) {
            make_room_for_thread(s, s->threads + 1);
            t = s->recording ? seat_of(s, me) : NULL;
        }
        if (t && in_blocks(s, me, t))
            start_thread(s, t->number, child.who, place);
    }
    let_go(s);
    return child;
}

vs_child vs_fork_at(const vs_place *place) {
    vs_child child = {0, 0};
    if (come_in()) {
        child = forked(place);
        go_out();
    }
    return child;
}

vs_child vs_fork(void) {
    return vs_fork_at(NULL);
}

static void be_born(vs_child child) {
    struct vs_self *me = self();
    me->current = child.session;
    slot *s = kept(child.session);
    if (!s)
        return;
    seat *t = seat_in(me, s->id);
    if (t)
        t->id = 0;
    if (!new_seat(me, s, child.who))
        stop(s, "a thread acts in more than %d sessions at a time", SEATS);
    let_go(s);
}

void vs_born(vs_child child) {
    if (!come_in())
        return;
    be_born(child);
    go_out();
}

/* Its end is told with its join. */
static void end_thread(vs_child child) {
    struct vs_self *me = self();
    seat *t = child.session ? seat_in(me, child.session) : NULL;
    if (!t || t->who != child.who)
        return;
    tell_pending(me);
    end_from(me, 0);
    slot *s = kept(child.session);
    uint32_t n = s ? number_of_who(s, child.who) : 0;
    if (n)
        s->thread[n].ended = true;
    t->epoch = 0; /* a look at who it is, if it acts once more */
    if (s)
        let_go(s);
}

void vs_exit(vs_child child) {
    if (!come_in())
        return;
    end_thread(child);
    go_out();
}

static void join_number(slot *s, struct vs_self *me, seat *t, uint32_t n, const vs_place *place) {
    velodrome_answer a;
    thread *gone = &s->thread[n];
    if (gone->deepest || gone->locks) {
        stop(s, "%s", reason(gone->deepest ? VELODROME_BLOCK_OPEN : VELODROME_LOCK_HELD));
        return;
    }
    if (gone->joined && gone->joiner == t->number)
        return;
    if (gone->joined) {
        gone->ended = false; /* another one joins it, too: no later thread has its number */
    } else if (!told(s, velodrome_write(s->handle, n, life_of(s, n), 0, &a), &a, NULL) ||
               !s->recording) {
        return;
    } else {
        gone->joined = gone->lived = true;
        gone->joiner = t->number;
    }
    if (in_blocks(s, me, t))
        told(s, velodrome_read(s->handle, t->number, life_of(s, n), &a), &a, place);
}

/* Of a thread that this piece of the run has not met nothing need be told: its end leads forward
 * alone. */
static void join(vs_child child, const vs_place *place) {
    slot *s = kept(child.session);
    struct vs_self *me = self();
    tell_pending_in(s, me);
    if (!s)
        return;
    if (s->recording)
        make_room_for_events(s);
    seat *t = s->recording ? seat_of(s, me) : NULL;
    uint32_t n = t ? number_of_who(s, child.who) : 0;
    if (n && n != t->number)
        join_number(s, me, t, n, place);
    let_go(s);
}

void vs_join_at(vs_child child, const vs_place *place) {
    if (!come_in())
        return;
    join(child, place);
    go_out();
}

void vs_join(vs_child child) {
    vs_join_at(child, NULL);
}

vs_self *vs_self_new(void) {
    vs_self *fresh = calloc(1, sizeof *fresh);
    if (fresh)
        fresh->current = self()->current;
    return fresh;
}

vs_self *vs_switch(vs_self *next) {
    vs_self *before = mine.acting;
    mine.acting = next;
    return before;
}

void vs_self_free(vs_self *old) {
    if (!old)
        return;
    if (mine.acting == old)
        mine.acting = NULL;
    if (come_in()) {
        tell_pending(old);
        end_from(old, 0);
        go_out();
    }
    free(old);
}

/* ---- other copies of this layer in the process, such as that of a plugin which is linked
 * statically */

#define MARK "velodrome" /* the name of a note in each part of the process that has a copy */
__asm__(".pushsection .note.velodrome, \"a\", @note\n"
        ".balign 4\n"
        ".long 10, 4, 1\n"
        ".asciz \"" MARK "\"\n"
        ".balign 4\n"
        ".long 1\n"
        ".popsection\n");

/* Whether the notes from `at` on have the mark. */
static bool has_mark(const char *at, size_t bytes) {
    uint32_t head[3]; /* bytes of the name, bytes of the rest, kind */
    while (bytes >= sizeof head) {
        memcpy(head, at, sizeof head);
        size_t name = ((size_t)head[0] + 3) & ~(size_t)3,
               whole = sizeof head + name + (((size_t)head[1] + 3) & ~(size_t)3);
        if (whole > bytes)
            return false;
        if (head[0] == sizeof MARK && memcmp(at + sizeof head, MARK, sizeof MARK) == 0)
            return true;
        at += whole;
        bytes -= whole;
    }
    return false;
}

static int count_mark(struct dl_phdr_info *part, size_t size, void *count) {
    (void)size;
    for (int i = 0; i < part->dlpi_phnum; i++) {
        const ElfW(Phdr) *p = &part->dlpi_phdr[i];
        if (p->p_type == PT_NOTE && p->p_align <= 4 &&
            has_mark((const char *)(part->dlpi_addr + p->p_vaddr), p->p_memsz)) {
            ++*(int *)count;
            break;
        }
    }
    return 0;
}

static bool other_copies(void) {
    int count = 0;
    dl_iterate_phdr(count_mark, &count);
    return count > 1;
}

/* ---- open, close */

/* Slots may be half changed, and their locks held, by threads that are not there: those in use are
 * left as they are, for good. */
static void child_of_fork(void) {
    opening = ends.lock = kept_names.lock = (pthread_mutex_t)PTHREAD_MUTEX_INITIALIZER;
    for (slot *s = slots; s < slots + SLOTS; s++) {
        s->abandoned |= s->id || s->keeper;
        s->id = 0;
        s->keeper = 0;
        s->recording = false;
        opened_since[s - slots] = 0;
    }
    everywhere = 0;
    vs_recording = 0;
    crowds = 0;
    mine.slots = 0;
    mine.inside = false;
}

static void set_options(slot *s, const vs_options *o) {
    struct timespec now;
    clock_gettime(CLOCK_MONOTONIC, &now);
    uint32_t most = VELODROME_MAX_EVENTS - RESERVE;
    s->most = !o->events ? 1u << 20 : o->events > most ? most : o->events;
    s->near = s->most - s->most / 4;
    s->variables = !o->variables || o->variables > VARIABLES ? VARIABLES : o->variables;
    s->locks = !o->locks                        ? VELODROME_MAX_LOCKS
               : o->locks > VELODROME_MAX_LOCKS ? VELODROME_MAX_LOCKS
                                                : o->locks;
    s->noise = o->noise;
    s->seed = o->seed ? o->seed : mixed((uint64_t)now.tv_sec << 32 ^ (uint64_t)now.tv_nsec);
    s->hook = o->alarm;
    s->hook_data = o->data;
    s->wait = o->wait;
}

/* The slot is kept and not open. */
static uint64_t open_in(slot *s, const vs_options *o, bool all) {
    if (!s->last)
        s->last = (uint64_t)(s - slots);
    set_options(s, o);
    s->earlier = s->born = 0;
    s->left_out = 0;
    s->why[0] = s->doubt[0] = 0;
    s->alarmed = false;
    s->missed = false;
    s->in_hook = false;
    s->crowded = false;
    next_piece(s);
    if (!ignore_by_environment(s) || open_handle(s)) {
        free_ignored(s);
        return 0;
    }
    s->outer = entered();
    s->outer_everywhere = everywhere;
    s->since = atomic_fetch_add(&openings, 1) + 1;
    opened_since[s - slots] = s->since;
    s->recording = true;
    __atomic_fetch_add(&vs_recording, 1, __ATOMIC_RELAXED);
    s->id = epoch(s);
    if (all)
        everywhere = s->id;
    self()->current = s->id;
    return s->id;
}

/* Keeps the slot if no session is in it and no thread has it. */
static bool keep_free(slot *s) {
    if (s->id || s->abandoned || is_keeper(s) || !try_lock(s))
        return false;
    if (s->id) {
        unlock(s);
        return false;
    }
    atomic_store_explicit(&s->keeper, (uintptr_t)&mine, memory_order_relaxed);
    mine.slots++;
    s->held = 1;
    return true;
}

vs_session vs_open(const vs_options *options, bool all) {
    static bool registered;
    static const vs_options defaults;
    uint64_t id = 0;
    pthread_mutex_lock(&opening);
    if (!registered)
        registered = pthread_atfork(NULL, NULL, child_of_fork) == 0;
    slot *s = slots;
    while (s < slots + SLOTS && !keep_free(s))
        s++;
    if (s < slots + SLOTS) {
        if (registered)
            id = open_in(s, options ? options : &defaults, all);
        let_go(s);
    }
    pthread_mutex_unlock(&opening);
    return id;
}

static void free_all(slot *s) {
    clear_names(s);
    free_ignored(s);
    for (uint32_t i = 0; i < s->holds_room; i++)
        free(s->holds[i].share);
    free(s->words);
    free(s->word_table);
    free(s->variable.at);
    free(s->lock.at);
    free(s->label.at);
    free(s->holds);
    free(s->places);
    free(s->place_table);
    free(s->event_place);
    free(s->report);
    s->words = NULL;
    s->word_table = s->place_table = s->event_place = NULL;
    s->variable = s->lock = s->label = (names){0};
    s->holds = NULL;
    s->places = NULL;
    s->report = NULL;
    s->word_room = s->table_room = s->holds_room = s->place_room = s->place_table_room =
        s->event_room = 0;
}

/* Why a session that stopped for nothing cannot be called clean; false where it can. `over`: it has
 * ended, so nothing comes any more. */
static bool why_incomplete(slot *s, bool over, char *why, size_t room) {
    unsigned long long left_out = s->left_out;
    if (s->missed)
        snprintf(why, room, "two sessions were used inside one another");
    else if (left_out)
        snprintf(why, room,
                 "%llu calls came from signal handlers while their thread was in a call of this "
                 "library, and were left out",
                 left_out);
    else if (over && other_copies())
        snprintf(why, room,
                 "this process has two copies of the session layer, and each sees its own part of "
                 "the program; link all parts with velodrome::shared");
    else if (over && !s->earlier && !s->events)
        snprintf(why, room, "nothing was recorded: no variable, lock or thread that is watched");
    else
        return false;
    return true;
}

static vs_verdict verdict_of(slot *s, bool over) {
    char why[sizeof s->why];
    if (s->alarmed)
        return s->doubt[0] ? VS_INCOMPLETE : VS_ALARM;
    if (s->why[0])
        return VS_INCOMPLETE;
    if (!why_incomplete(s, over, why, sizeof why))
        return VS_CLEAN;
    if (over)
        memcpy(s->why, why, sizeof why);
    return VS_INCOMPLETE;
}

static char *report_of(slot *s) {
    char *text = NULL;
    unsigned long long events = s->earlier + s->events;
    int n = 0;
    if (s->alarmed && s->doubt[0])
        n = asprintf(&text, "there was an alarm that may be none: %s\n%s", s->doubt,
                     s->report ? s->report : "");
    else if (s->alarmed)
        return s->report ? strdup(s->report)
                         : strdup("not atomic; there was no memory for an explanation\n");
    else if (!events && s->why[0])
        n = asprintf(&text, "recording stopped after 0 events: %s\n", s->why);
    else if (s->why[0])
        n = asprintf(&text,
                     "recording stopped after %llu events: %s. Nothing is said of what came then\n",
                     events, s->why);
    return n < 0 ? NULL : text;
}

/* The slot of the session, kept, while no hook of it runs in another thread; NULL where it is not
 * open. */
static slot *kept_to_end(vs_session session) {
    for (;;) {
        slot *s = kept(session);
        if (!s || !s->in_hook || s->found || mine.hooking == session || s->held > 1)
            return s;
        let_go(s);
        sleep_for(1000000);
    }
}

static void close_kept(slot *s) {
    uint64_t session = s->id, all = session;
    set_crowded(s, false);
    end_recording(s);
    velodrome_close(s->handle);
    free_all(s);
    atomic_compare_exchange_strong(&everywhere, &all, s->outer_everywhere);
    if (self()->current == session)
        self()->current = s->outer;
    opened_since[s - slots] = 0;
    s->id = 0;
    let_go(s);
}

static const char no_session[] = "no session was opened: out of memory, or 256 are open\n";

static vs_verdict end_session(vs_session session, char **report) {
    tell_pending(self());
    slot *s = kept_to_end(session);
    if (report)
        *report = s || session ? NULL : strdup(no_session);
    if (!s)
        return VS_INCOMPLETE;
    vs_verdict verdict = verdict_of(s, true);
    if (report)
        *report = report_of(s);
    close_kept(s);
    return verdict;
}

vs_verdict vs_close(vs_session session, char **report) {
    if (!come_in()) {
        if (report)
            *report = NULL;
        return VS_INCOMPLETE;
    }
    vs_verdict verdict = end_session(session, report);
    go_out();
    return verdict;
}

vs_verdict vs_so_far(vs_session session) {
    vs_verdict verdict = VS_INCOMPLETE;
    if (!come_in())
        return verdict;
    tell_pending(self());
    slot *s = kept(session);
    if (s) {
        verdict = verdict_of(s, false);
        let_go(s);
    }
    go_out();
    return verdict;
}

void vs_free(char *text) {
    free(text);
}

/* ---- files and settings */

static bool put_log(FILE *f, slot *s) {
    char piece[1 << 14];
    size_t from = 0, count;
    velodrome_summary v;
    if (velodrome_verdict(s->handle, &v))
        return false;
    do {
        if (velodrome_log(s->handle, from, piece, sizeof piece, &count, &from) ||
            fwrite(piece, 1, count, f) != count)
            return false;
    } while (from < v.events);
    return true;
}

static void put_all_names(FILE *f, slot *s) {
    put_names(f, s, "variable", &s->variable);
    for (uint32_t i = 1; i < s->threads_end; i++)
        if (s->thread[i].lived)
            fprintf(f, "variable %u start and end of thread %u\n", life_of(s, i), i);
    put_names(f, s, "lock", &s->lock);
    put_names(f, s, "label", &s->label);
}

/* A file of sites: places, and that of each event. The function of a place is not known here. */
static void put_sites(FILE *f, slot *s) {
    uint32_t sites = s->place_count ? s->place_count - 1 : 0;
    fprintf(f, "vsites 1 %u %u\n", sites, s->events);
    for (uint32_t i = 1; i <= sites; i++)
        fprintf(f, "%s:%u -\n", s->places[i].path, s->places[i].line);
    for (uint32_t i = 0; i < s->events; i++)
        fprintf(f, "%u\n", i < s->event_places ? s->event_place[i] : 0);
}

/* Writes the file PATH SUFFIX. */
static bool put_file(slot *s, const char *path, const char *suffix,
                     void (*put_all)(FILE *, slot *)) {
    char *whole = NULL;
    if (asprintf(&whole, "%s%s", path, suffix) < 0)
        return false;
    FILE *f = fopen(whole, "w");
    free(whole);
    if (!f)
        return false;
    put_all(f, s);
    bool fine = !ferror(f);
    return fclose(f) == 0 && fine;
}

static bool save_in(slot *s, const char *path) {
    FILE *f = fopen(path, "w");
    bool fine = f && put_log(f, s);
    if (f)
        fine = fclose(f) == 0 && fine;
    return fine && put_file(s, path, ".names", put_all_names) &&
           put_file(s, path, ".sites", put_sites);
}

bool vs_save(vs_session session, const char *path) {
    if (!come_in())
        return false;
    tell_pending(self());
    slot *s = kept(session);
    bool fine = s && save_in(s, path);
    if (s)
        let_go(s);
    go_out();
    return fine;
}

bool vs_ignore(vs_session session, vs_named kind, const char *pattern) {
    if (!come_in())
        return false;
    slot *s = kept(session);
    bool fine = s && ignore_bytes(s, kind, pattern, strlen(pattern));
    if (s)
        let_go(s);
    go_out();
    return fine;
}

/* ---- settings of the environment */

static const char *setting(const char *key, const char *otherwise) {
    const char *value = getenv(key);
    return value && *value ? value : otherwise;
}

/* Whether the text is a whole number up to `most`. */
static bool is_number(const char *text, uint64_t most, uint64_t *number) {
    *number = 0;
    for (; *text >= '0' && *text <= '9'; text++) {
        unsigned digit = (unsigned)(*text - '0');
        if (*number > (most - digit) / 10)
            return false;
        *number = *number * 10 + digit;
    }
    return !*text;
}

static const struct {
    const char *key;
    uint64_t most; /* 0: it is one of two words */
    const char *words[2];
} settings[] = {{"VELODROME_NOISE", UINT32_MAX, {0}},
                {"VELODROME_SEED", UINT64_MAX, {0}},
                {"VELODROME_EVENTS", VELODROME_MAX_EVENTS, {0}},
                {"VELODROME_INCOMPLETE", 0, {"fail", "warn"}}};
enum { NOISE, SEED, EVENTS, INCOMPLETE, SETTINGS };

/* The number, or which of the two words it is; 0 where it is not set, or wrong. */
static uint64_t value_of(int i) {
    uint64_t number;
    const char *text = setting(settings[i].key, "");
    if (settings[i].most)
        return is_number(text, settings[i].most, &number) ? number : 0;
    return strcmp(text, settings[i].words[1]) == 0;
}

static bool is_wrong(int i) {
    uint64_t number;
    const char *text = setting(settings[i].key, NULL);
    if (!text)
        return false;
    if (settings[i].most)
        return !is_number(text, settings[i].most, &number);
    return strcmp(text, settings[i].words[0]) != 0 && strcmp(text, settings[i].words[1]) != 0;
}

static void put_wrong_settings(FILE *f) {
    for (int i = 0; i < SETTINGS; i++) {
        if (!is_wrong(i))
            continue;
        fprintf(f, "%s=%s: ", settings[i].key, setting(settings[i].key, ""));
        if (settings[i].most)
            fprintf(f, "it has to be a whole number up to %llu",
                    (unsigned long long)settings[i].most);
        else
            fprintf(f, "it has to be %s or %s", settings[i].words[0], settings[i].words[1]);
        fputs("; it was not heeded\n", f);
    }
}

char *vs_wrong_settings(void) {
    bool any = false;
    char *text = NULL;
    size_t bytes;
    for (int i = 0; i < SETTINGS; i++)
        any |= is_wrong(i);
    FILE *f = any ? open_memstream(&text, &bytes) : NULL;
    if (!f)
        return NULL;
    put_wrong_settings(f);
    return fclose(f) ? (free(text), NULL) : text;
}

void vs_environment(vs_options *options) {
    options->noise = (uint32_t)value_of(NOISE);
    options->seed = value_of(SEED);
    options->events = (uint32_t)value_of(EVENTS);
}

/* ---- the end of a test */

/* Makes the folders on the way to the file. */
static void make_folders(char *path) {
    for (char *c = path + 1; *c; c++) {
        if (*c != '/')
            continue;
        *c = 0;
        mkdir(path, 0777);
        *c = '/';
    }
}

/* FOLDER/NAME.vlog, the name without what is not for a file. */
static char *log_path(const char *name) {
    char *path = NULL;
    const char *folder = setting("VELODROME_LOGS", ".");
    if (asprintf(&path, "%s/%s.vlog", folder, name && *name ? name : "velodrome") < 0)
        return NULL;
    for (char *c = path + strlen(folder) + 1; *c; c++)
        if (strchr("/\\:*?\"<>| \t\n", *c))
            *c = '.';
    make_folders(path);
    return path;
}

/* The text and what comes behind it, in its place. */
__attribute__((format(printf, 2, 3))) static void append(char **text, const char *format, ...) {
    char *more = NULL, *whole = NULL;
    va_list operands;
    va_start(operands, format);
    int n = vasprintf(&more, format, operands);
    va_end(operands);
    if (n < 0)
        return;
    if (asprintf(&whole, "%s%s", *text ? *text : "", more) >= 0) {
        free(*text);
        *text = whole;
    }
    free(more);
}

/* ---- the finding of velodrome-report, where that can be called */

/* A group of its own, so that all of it can be ended, with no signal blocked or ignored. */
static pid_t start_report(char *program, char *log, int output) {
    char *words[] = {program, log, NULL};
    sigset_t none, pipe_alone;
    pid_t pid = 0;
    posix_spawnattr_t how;
    posix_spawn_file_actions_t files;
    sigemptyset(&none);
    sigemptyset(&pipe_alone);
    sigaddset(&pipe_alone, SIGPIPE);
    if (posix_spawnattr_init(&how))
        return 0;
    posix_spawnattr_setflags(&how, POSIX_SPAWN_SETPGROUP | POSIX_SPAWN_SETSIGMASK |
                                       POSIX_SPAWN_SETSIGDEF);
    posix_spawnattr_setsigmask(&how, &none);
    posix_spawnattr_setsigdefault(&how, &pipe_alone);
    if (posix_spawn_file_actions_init(&files) == 0) {
        if (posix_spawn_file_actions_addopen(&files, 0, "/dev/null", O_RDONLY, 0) ||
            posix_spawn_file_actions_adddup2(&files, output, 1) ||
            posix_spawn_file_actions_addopen(&files, 2, "/dev/null", O_WRONLY, 0) ||
            posix_spawnp(&pid, program, &files, &how, words, environ))
            pid = 0;
        posix_spawn_file_actions_destroy(&files);
    }
    posix_spawnattr_destroy(&how);
    return pid;
}

static int64_t milliseconds(void) {
    struct timespec now;
    clock_gettime(CLOCK_MONOTONIC, &now);
    return now.tv_sec * 1000ll + now.tv_nsec / 1000000;
}

/* Whether all was read in time. */
static bool read_all(int from, FILE *to) {
    char piece[4096];
    int64_t end = milliseconds() + LONGEST_REPORT * 1000ll, left;
    while ((left = end - milliseconds()) > 0) {
        struct pollfd one = {from, POLLIN, 0};
        ssize_t n = 0;
        if (poll(&one, 1, (int)left) > 0 && (n = read(from, piece, sizeof piece)) == 0)
            return true;
        if (n > 0)
            fwrite(piece, 1, (size_t)n, to);
    }
    return false;
}

/* What the report says of the log; NULL where it cannot be called, or finds nothing. */
static char *report_on(char *log) {
    static const char otherwise[] = "velodrome-report";
    int channel[2], status = -1;
    char *text = NULL;
    size_t bytes;
    if (pipe2(channel, O_CLOEXEC))
        return NULL;
    FILE *f = open_memstream(&text, &bytes);
    pid_t pid =
        f ? start_report((char *)setting("VELODROME_REPORT", otherwise), log, channel[1]) : 0;
    close(channel[1]);
    if (pid && !read_all(channel[0], f))
        kill(-pid, SIGKILL);
    close(channel[0]);
    while (pid && waitpid(pid, &status, 0) < 0 && errno == EINTR)
        continue;
    bool found = pid && WIFEXITED(status) && WEXITSTATUS(status) == VS_ALARM;
    if (f && (fclose(f) || !found)) {
        free(text);
        return NULL;
    }
    return text;
}

/* Puts the first finding on the log in the place of the lines of the explanation. */
static void put_finding(char **text, char *log) {
    int state, errno_before = errno;
    pthread_setcancelstate(PTHREAD_CANCEL_DISABLE, &state);
    char *said = report_on(log);
    pthread_setcancelstate(state, &state);
    errno = errno_before;
    char *end = said ? strstr(said, "\n\n") : NULL, *lines = *text;
    if (end && lines && (lines = strstr(lines, "\nLine "))) {
        lines[1] = 0;
        end[1] = 0;
        append(text, "%s", said);
    }
    free(said);
}

/* ---- the end of a test: what it came to */

/* Keeps the log of a test that fails; its path, to be freed, or NULL. */
static char *keep_log(slot *s, const char *name, char **text) {
    char *path = log_path(name);
    if (!path || save_in(s, path))
        return path;
    append(text, "the log could not be written to %s\n", path);
    free(path);
    return NULL;
}

static vs_verdict finish(vs_session session, const char *name, char **text, bool *fails) {
    char *wrong = vs_wrong_settings(), *log = NULL;
    tell_pending(self());
    slot *s = kept_to_end(session);
    vs_verdict verdict = s ? verdict_of(s, true) : VS_INCOMPLETE;
    bool lenient = value_of(INCOMPLETE);
    *fails = verdict == VS_ALARM || (verdict == VS_INCOMPLETE && !lenient) || wrong;
    *text = s ? report_of(s) : session ? NULL : strdup(no_session);
    if (s && *fails && verdict != VS_CLEAN && s->events)
        log = keep_log(s, name, text);
    if (s)
        close_kept(s);
    if (log && verdict == VS_ALARM)
        put_finding(text, log);
    if (log)
        append(text, "velodrome explain %s --names %s.names\n", log, log);
    free(log);
    if (verdict == VS_INCOMPLETE && *fails && !lenient)
        append(text, "with VELODROME_INCOMPLETE=warn such a test passes\n");
    if (wrong)
        append(text, "%s", wrong);
    free(wrong);
    return verdict;
}

vs_verdict vs_finish(vs_session session, const char *name, char **report, bool *fails) {
    char *text = NULL;
    bool failed = true;
    vs_verdict verdict = VS_INCOMPLETE;
    if (come_in()) {
        verdict = finish(session, name, &text, &failed);
        go_out();
    }
    if (fails)
        *fails = failed;
    if (report)
        *report = text;
    else
        free(text);
    return verdict;
}
