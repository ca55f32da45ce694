"""Programs with one order of events, and the logs that they must give.

A case: its name, source, options of velodrome-log, and what the log must be, without its header; or a function on the log, its
names and what velodrome-log prints, that must be true. Threads 0 and 1 act in one order, that of pthread_join: f() in thread 1,
then g() in thread 0."""
import re

HEAD = """#define _GNU_SOURCE
#include <pthread.h>
#include <semaphore.h>
#include <setjmp.h>
#include <stdatomic.h>
#include <stdio.h>
#include <stdlib.h>
#include <string.h>
#include <sys/socket.h>
#include <sys/uio.h>
#include <threads.h>
#include <time.h>
#include <unistd.h>
"""
TAIL = """
static void *routine(void *a) { do f(); while (a); return a; } // it loops: it is no block
int main(void) { pthread_t t; pthread_create(&t, 0, routine, 0); pthread_join(t, 0); g(); }
"""


def one(f, g):
    return [
        "0 fork 1",
        *["1 " + line for line in f],
        "1 exit",
        "0 join 1",
        *["0 " + line for line in g],
    ]


def block(label, *lines):
    return [f"begin {label}", *lines, "end"]


ALL = ["--all-variables"]
RD, WR = "rd 0 0", "wr 0 0"
HOLD = ["acq 0", "rel 0"]


def touches(name, body, wants, g="x++"):
    """f() calls libc on the shared array a; g() writes all of it, so that each byte that was touched is a variable's."""

    def right(log, names, out):
        kinds = re.findall(r"^1 (rd|wr)", log, re.M)
        return kinds and set(kinds) == set(wants.split())

    return (
        name,
        'char a[64] = "some text"; char *volatile p = a; static volatile long r; void f(void) { '
        + body
        + " } void g(void) { for (int i = 0; i < 64; i++) p[i] = 1; }",
        ALL,
        right,
    )


CASES = [
    (
        "read, write",
        "static int x; void f(void) { x = 1; } void g(void) { x++; }",
        ALL,
        one(block(0, WR), block(1, RD, WR)),
    ),
    (
        "sizes",
        "char a; short b; int c; long d; __int128 e; void f(void) { a = 1; b = 1; c = 1; d = 1; e = 1; } void g(void) { a = b = c = d = e = 2; }",
        ALL,
        lambda log, names, out: sorted(set(re.findall(r"1 wr (\d)", log))) == list("012345")
        and sorted(re.findall(r"variable \d (\w)", names)) == list("abcdee"),
    ),
    (
        "bytes of one word",
        "struct { char a, b; } s; void f(void) { s.a = 1; } void g(void) { s.b = 1; }",
        ALL,
        one([], []),
    ),
    (
        "word over bytes",
        "union { char c[4]; int i; } s; void f(void) { s.c[1] = 1; } void g(void) { s.i = 1; }",
        ALL,
        one(block(0, WR), block(1, WR)),
    ),
    (
        "across two lines",
        "_Alignas(64) struct __attribute__((packed)) { char c[62]; int i; char d[62]; } s; void f(void) { s.i = 1; } void g(void) { ((volatile char *)&s)[65] = 1; }",
        ALL,
        one(block(0, WR), block(1, WR)),
    ),
    (
        "ordered accesses are left out",
        "static int x; void f(void) { x = 1; } void g(void) { x++; }",
        [],
        one([], []),
    ),
    (
        "only one thread",
        "static int x, y; void f(void) { x = 1; } void g(void) { y = 2; }",
        ALL,
        one([], []),
    ),
    (
        "only reads",
        "static int x; volatile int s; void f(void) { s = x; } void g(void) { if (x) abort(); }",
        ALL,
        one([], []),
    ),
    (
        "memcpy, memset",
        "char a[16], b[16]; void *volatile p = a; void f(void) { memset(p, 1, 16); } void g(void) { memcpy(b, p, 16); }",
        ALL,
        one(block(0, WR, "wr 1 0"), block(1, RD, "rd 1 0")),
    ),
    (
        "nested blocks",
        "static int x; void h(void) { x = 1; } void f(void) { h(); x = 2; } void g(void) { x++; }",
        ALL,
        one(block(1, *block(0, WR), WR), block(2, RD, WR)),
    ),
    (
        "mutex",
        "static pthread_mutex_t m = PTHREAD_MUTEX_INITIALIZER; void f(void) { pthread_mutex_lock(&m); pthread_mutex_unlock(&m); } void g(void) { if (!pthread_mutex_trylock(&m)) pthread_mutex_unlock(&m); }",
        ALL,
        one(block(0, *HOLD), block(1, *HOLD)),
    ),
    (
        "trylock that fails",
        "static pthread_mutex_t m = PTHREAD_MUTEX_INITIALIZER; void f(void) { } void g(void) { pthread_mutex_lock(&m); pthread_mutex_trylock(&m); pthread_mutex_unlock(&m); }",
        ALL,
        one([], block(0, *HOLD)),
    ),
    (
        "recursive mutex",
        "static pthread_mutex_t m = PTHREAD_RECURSIVE_MUTEX_INITIALIZER_NP; void f(void) { pthread_mutex_lock(&m); pthread_mutex_lock(&m); pthread_mutex_unlock(&m); pthread_mutex_unlock(&m); } void g(void) { f(); }",
        ALL,
        one(block(0, *HOLD), block(1, *block(0, *HOLD))),
    ),
    (
        "rwlock",
        "static pthread_rwlock_t m = PTHREAD_RWLOCK_INITIALIZER; void f(void) { pthread_rwlock_rdlock(&m); pthread_rwlock_rdlock(&m); pthread_rwlock_unlock(&m); pthread_rwlock_unlock(&m); } void g(void) { pthread_rwlock_wrlock(&m); pthread_rwlock_unlock(&m); }",
        ALL,
        one(block(0, "acqs 0", "rels 0"), block(1, *HOLD)),
    ),
    (
        "spin lock",
        "static pthread_spinlock_t m; __attribute__((constructor)) static void i(void) { pthread_spin_init(&m, 0); } void f(void) { pthread_spin_lock(&m); pthread_spin_unlock(&m); } void g(void) { f(); }",
        ALL,
        one(block(0, *HOLD), block(1, *block(0, *HOLD))),
    ),
    (
        "timed locks",
        "static pthread_mutex_t m = PTHREAD_MUTEX_INITIALIZER; static pthread_rwlock_t w = PTHREAD_RWLOCK_INITIALIZER; void f(void) { struct timespec z = {2000000000, 0}; pthread_mutex_timedlock(&m, &z); pthread_mutex_unlock(&m); pthread_mutex_clocklock(&m, CLOCK_MONOTONIC, &z); pthread_mutex_unlock(&m); } "
        "void g(void) { struct timespec z = {2000000000, 0}; pthread_rwlock_timedrdlock(&w, &z); pthread_rwlock_unlock(&w); pthread_rwlock_timedwrlock(&w, &z); pthread_rwlock_unlock(&w); pthread_rwlock_clockrdlock(&w, CLOCK_MONOTONIC, &z); pthread_rwlock_unlock(&w); pthread_rwlock_clockwrlock(&w, CLOCK_MONOTONIC, &z); pthread_rwlock_unlock(&w); }",
        ALL,
        one(
            block(0, *HOLD, *HOLD),
            block(1, "acqs 1", "rels 1", "acq 1", "rel 1", "acqs 1", "rels 1", "acq 1", "rel 1"),
        ),
    ),
    (
        "a timed lock that fails",
        "static pthread_mutex_t m = PTHREAD_MUTEX_INITIALIZER; void f(void) { } void g(void) { struct timespec z = {0, 0}; pthread_mutex_lock(&m); pthread_mutex_timedlock(&m, &z); pthread_mutex_unlock(&m); }",
        ALL,
        one([], block(0, *HOLD)),
    ),
    (
        "robust mutex",
        "static pthread_mutex_t m; void f(void) { pthread_mutexattr_t a; pthread_mutexattr_init(&a); pthread_mutexattr_setrobust(&a, PTHREAD_MUTEX_ROBUST); pthread_mutex_init(&m, &a); pthread_mutex_lock(&m); } void g(void) { if (pthread_mutex_lock(&m)) pthread_mutex_consistent(&m); pthread_mutex_unlock(&m); }",
        [],
        one([*block(0, "acq 0"), "rel 0"], block(1, *HOLD)),
    ),
    (
        "mtx",
        "static mtx_t m; void f(void) { mtx_init(&m, mtx_timed); mtx_lock(&m); mtx_unlock(&m); } void g(void) { struct timespec z = {2000000000, 0}; mtx_timedlock(&m, &z); mtx_unlock(&m); mtx_trylock(&m); mtx_unlock(&m); }",
        [],
        one(block(0, *HOLD), block(1, *HOLD, *HOLD)),
    ),
    (
        "thrd, cnd, call_once",
        "static mtx_t m; static cnd_t c; static once_flag o = ONCE_FLAG_INIT; static int done; void i(void) { mtx_init(&m, mtx_plain); cnd_init(&c); } int t(void *a) { call_once(&o, i); mtx_lock(&m); done = 1; cnd_signal(&c); mtx_unlock(&m); return 7; } "
        "void f(void) { thrd_t p; int r; call_once(&o, i); thrd_create(&p, t, 0); thrd_join(p, &r); if (r != 7) abort(); mtx_lock(&m); while (!done) cnd_wait(&c, &m); mtx_unlock(&m); } void g(void) { }",
        [],
        lambda log, names, out: re.findall(r"^1 (\w+)", log, re.M)[:9]
        == "begin wr fork end begin join acq rel end".split()
        and re.findall(r"^2 (rd|acq|rel|exit)", log, re.M) == "rd acq rel exit".split(),
    ),
    (
        "semaphore",
        "static sem_t s; void f(void) { sem_post(&s); sem_post(&s); sem_post(&s); } void g(void) { struct timespec z = {2000000000, 0}; sem_wait(&s); sem_timedwait(&s, &z); sem_trywait(&s); }",
        ALL,
        one(block(0, WR, WR, WR), [*block(1, RD), *block(1, RD, RD)]),
    ),
    (
        "once",
        "static pthread_once_t o = PTHREAD_ONCE_INIT; static int x; void i(void) { x = 1; } void f(void) { pthread_once(&o, i); } void g(void) { pthread_once(&o, i); }",
        [],
        one(block(0, WR), block(1, RD)),
    ),
    (
        "atomics",
        "static atomic_int x; void f(void) { x = 1; x++; int e = 5; atomic_compare_exchange_strong(&x, &e, 6); } void g(void) { if (x != 2) abort(); atomic_exchange(&x, 3); }",
        [],
        one(block(0, WR), block(1, RD, WR)),
    ),
    (
        "a read-modify-write is a read and a write",
        "static atomic_int x; void f(void) { x++; } void g(void) { int e = 1; atomic_compare_exchange_strong(&x, &e, 6); }",
        ALL,
        one(block(0, RD, WR), block(1, RD, WR)),
    ),
    (
        "data alone",
        "static pthread_mutex_t m = PTHREAD_MUTEX_INITIALIZER; static int x; void f(void) { pthread_mutex_lock(&m); x++; pthread_mutex_unlock(&m); } void g(void) { f(); }",
        ["--data"],
        one(block(0, RD, WR), block(1, *block(0, RD, WR))),
    ),
    (
        "memory that malloc gives again",
        "void f(void) { char *volatile p = malloc(40); p[1] = 1; free(p); } void g(void) { f(); }",
        ALL,
        one([], []),
    ),
    (
        "memory that realloc keeps in place",
        "char *p; void f(void) { p = malloc(1000); p[1] = 1; } void g(void) { p = realloc(p, 999); p[1] = 1; }",
        ALL,
        lambda log, names, out: len(
            set(re.findall(r"^1 wr (\d)", log, re.M)) & set(re.findall(r"^0 wr (\d)", log, re.M))
        )
        == 2,
    ),
    (
        "longjmp",
        "static int x; static jmp_buf b; void h(void) { x = 1; longjmp(b, 1); } void k(void) { x = 2; } void f(void) { if (!setjmp(b)) h(); k(); } void g(void) { x++; }",
        ALL,
        one(block(1, *block(0, WR), *block(2, WR)), block(3, RD, WR)),
    ),
    (
        "pthread_exit in a block",
        "static int x; void f(void) { x = 1; pthread_exit(0); } void g(void) { x++; }",
        ALL,
        one(block(0, *block(1, WR)), block(2, RD, WR)),  # no loop: the routine is a block
    ),
    (
        "exit with a lock held",
        "static pthread_mutex_t m = PTHREAD_MUTEX_INITIALIZER; void f(void) { pthread_mutex_lock(&m); } void g(void) { }",
        ALL,
        one([*block(0, "acq 0"), "rel 0"], []),
    ),
    (
        "condition",
        "static pthread_mutex_t m = PTHREAD_MUTEX_INITIALIZER; static pthread_cond_t c = PTHREAD_COND_INITIALIZER; void f(void) { struct timespec z = {0}; pthread_mutex_lock(&m); pthread_cond_timedwait(&c, &m, &z); pthread_cond_clockwait(&c, &m, CLOCK_MONOTONIC, &z); pthread_mutex_unlock(&m); } void g(void) { pthread_cond_signal(&c); }",
        ALL,
        one([*block(0, *HOLD), *block(1, *HOLD), *block(1, *HOLD)], []),
    ),
    (
        "cancel in a wait",
        "static pthread_mutex_t m = PTHREAD_MUTEX_INITIALIZER; static pthread_cond_t c = PTHREAD_COND_INITIALIZER; static void up(void *a) { pthread_mutex_unlock(a); } void *w(void *a) { pthread_mutex_lock(&m); pthread_cleanup_push(up, &m); for (;;) pthread_cond_wait(&c, &m); pthread_cleanup_pop(0); return a; } "
        "void f(void) { } void g(void) { pthread_t t; pthread_create(&t, 0, w, 0); usleep(30000); pthread_cancel(t); void *r; pthread_join(t, &r); if (r != PTHREAD_CANCELED) abort(); }",
        ALL,
        lambda log, names, out: re.findall(r"^2 (acq|rel|exit)", log, re.M)
        == ["acq", "rel", "acq", "rel", "exit"]
        and re.search(r"odd 0", out),
    ),
    (
        "barrier",
        "static pthread_barrier_t b; __attribute__((constructor)) static void i(void) { pthread_barrier_init(&b, 0, 1); } void f(void) { pthread_barrier_wait(&b); } void g(void) { f(); }",
        ALL,
        one(
            [WR, *block(0, RD)],
            [WR, *block(1, *block(0, RD))],
        ),
    ),
    (
        "VELODROME_ATOMIC",
        '#include <velodrome_atomic.h>\nstatic int x; void f(void) { { VELODROME_ATOMIC("one"); x = 1; } x = 2; } void g(void) { x++; }',
        [*ALL, "--only", "/dev/null"],
        one([*block(0, WR), WR], [RD, WR]),
    ),
    (
        "fork",
        "static int x; void f(void) { if (!fork()) { x = 1; _exit(0); } } void g(void) { x++; }",
        ALL,
        one([], []),
    ),
    touches("strlen", "r = strlen(p);", "rd"),
    touches("strcmp", 'r = strcmp(p, "other");', "rd"),
    touches("memcmp", 'r = memcmp(p, "some texts", 8);', "rd"),
    touches("memchr, strchr", "r = (long)memchr(p, 't', 9) + (long)strchr(p, 'x');", "rd"),
    touches("strcpy", 'strcpy(p, "text");', "wr"),
    touches("strcat", 'strcat(p, "text");', "rd wr"),
    touches("strncpy", 'strncpy(p, "text", 9);', "wr"),
    touches("strdup", "char *volatile q = strdup(p); r = q[0]; free(q);", "rd"),
    touches("snprintf", 'snprintf(p, 64, "%d", 5);', "wr"),
    touches("sprintf", 'sprintf(p, "%d %s", 5, "x");', "wr"),
    touches(
        "write, read",
        "int d[2]; if (pipe(d)) abort(); if (write(d[1], p, 9) != 9 || read(d[0], p + 20, 9) != 9) abort();",
        "rd wr",
    ),
    touches(
        "writev, readv",
        "int d[2]; if (pipe(d)) abort(); struct iovec v[2] = {{p, 4}, {p + 4, 4}}; if (writev(d[1], v, 2) != 8 || readv(d[0], v, 2) != 8) abort();",
        "rd wr",
    ),
    touches(
        "sendmsg",
        "int d[2]; if (socketpair(AF_UNIX, SOCK_STREAM, 0, d)) abort(); struct iovec v = {p, 4}; struct msghdr h = {.msg_iov = &v, .msg_iovlen = 1}; if (sendmsg(d[0], &h, 0) != 4) abort();",
        "rd",
    ),
    touches(
        "recvmsg",
        'int d[2]; if (socketpair(AF_UNIX, SOCK_STREAM, 0, d)) abort(); struct iovec v = {p, 4}; struct msghdr h = {.msg_iov = &v, .msg_iovlen = 1}; if (send(d[0], "text", 4, 0) != 4 || recvmsg(d[1], &h, 0) != 4) abort();',
        "wr",
    ),
    touches(
        "fwrite, fread",
        "FILE *t = tmpfile(); if (fwrite(p, 1, 9, t) != 9) abort(); rewind(t); if (fread(p, 1, 9, t) != 9) abort(); fclose(t);",
        "rd wr",
    ),
    (
        "annotations",
        "static int own_lock; void AnnotateRWLockAcquired(const char *, int, void *, long); void AnnotateRWLockReleased(const char *, int, void *, long); void __tsan_mutex_post_lock(void *, unsigned, int); int __tsan_mutex_pre_unlock(void *, unsigned); "
        'void f(void) { AnnotateRWLockAcquired("", 0, &own_lock, 1); AnnotateRWLockReleased("", 0, &own_lock, 1); } void g(void) { __tsan_mutex_post_lock(&own_lock, 1 << 3, 0); __tsan_mutex_pre_unlock(&own_lock, 1 << 3); }',
        [],
        one(block(0, *HOLD), block(1, "acqs 0", "rels 0")),
    ),
    (
        "fields by DWARF",
        "struct inner { char c; int of[3]; union { long l; int i[2]; } u; }; struct { int first; struct inner in[2]; long matrix[2][3]; pthread_mutex_t m; } server; struct { struct { int x; } *next; int v; } list; int grid[3][4]; "
        "void f(void) { server.first++; server.in[1].of[2]++; server.in[0].u.l++; server.matrix[1][2]++; list.v++; grid[2][1]++; ((char *volatile)&grid[1][0])[1]++; pthread_mutex_lock(&server.m); pthread_mutex_unlock(&server.m); } void g(void) { f(); }",
        ALL,
        lambda log, names, out: [
            n.split(" ", 2)[2] for n in names.splitlines() if n[0] in "vl" and "label" not in n
        ]
        == [
            "server.first",
            "server.in[1].of[2]",
            "server.in[0].u.l",
            "server.matrix[1][2]",
            "list.v",
            "grid[2][1]",
            "grid[1][0]+1",
            "server.m",
        ],
    ),
    (
        "names of threads",
        'static int x; void f(void) { pthread_setname_np(pthread_self(), "worker 1"); x = 1; } void g(void) { x++; }',
        ALL,
        lambda log, names, out: "thread 1 worker 1\n" in names,
    ),
    (
        "routines of threads",
        "static int x; void f(void) { x = 1; } void g(void) { x++; }",
        ALL,
        lambda log, names, out: "thread 1 routine\n" in names,
    ),
]

CPP = """#include <mutex>
#include <shared_mutex>
#include <thread>
#include <stdexcept>
static std::mutex m; static std::shared_mutex s; static int x;
void thrower() { std::lock_guard<std::mutex> l(m); x = 1; throw std::runtime_error("x"); }
void after() { std::unique_lock<std::shared_mutex> l(s); }
int stat() { static int v = (after(), 7); return v; }
void f() { try { thrower(); } catch (...) {} after(); std::shared_lock<std::shared_mutex> l(s); }
int main() { std::thread t([] { volatile bool again = false; do { f(); stat(); } while (again); }); t.join(); stat(); }
"""
CPP_LOG = one(  # variable 0 is v, 1 its guard
    [
        *block(1, *block(0, "acq 0", "rel 0"), *block(2, "acq 1", "rel 1"), "acqs 1", "rels 1"),
        *block(3, *block(2, "acq 1", "rel 1"), "wr 0 0", "wr 1 0", "rd 0 0"),
    ],
    block(3, "rd 1 0", "rd 0 0"),
)

LOST = (
    HEAD
    + """static int x; static pthread_mutex_t m = PTHREAD_MUTEX_INITIALIZER;
int get(void) { pthread_mutex_lock(&m); int v = x; pthread_mutex_unlock(&m); return v; }
void set(int v) { pthread_mutex_lock(&m); x = v; pthread_mutex_unlock(&m); }
void inc(void) { set(get() + 1); }
void *work(void *a) { for (int i = 0; i < 200; i++) inc(); return a; }
int main(void) { pthread_t t[3]; for (int i = 0; i < 3; i++) pthread_create(&t[i], 0, work, 0); for (int i = 0; i < 3; i++) pthread_join(t[i], 0); return x != 600; }
"""
)
