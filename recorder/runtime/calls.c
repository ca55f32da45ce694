// Calls of libc that wait outside, and those that read or write the program's memory.
#include "runtime.h"
#include <errno.h>
#include <fcntl.h>
#include <poll.h>
#include <sched.h>
#include <signal.h>
#include <stdarg.h>
#include <stdio.h>
#include <sys/epoll.h>
#include <sys/select.h>
#include <sys/socket.h>
#include <sys/stat.h>
#include <sys/syscall.h>
#include <sys/uio.h>
#include <sys/wait.h>
#include <threads.h>
#include <unistd.h>

// ---- descriptors
static int may_wait(int fd) {
    struct stat s;
    int e = errno, flags = fcntl(fd, F_GETFL), waits = 0;
    if (flags >= 0 && !(flags & O_NONBLOCK))
        waits = fstat(fd, &s) || !(S_ISREG(s.st_mode) || S_ISDIR(s.st_mode) || S_ISCHR(s.st_mode));
    errno = e;
    return waits;
}
static int ready(int fd, short what) { // by turns
    REAL(poll);
    struct pollfd p = {fd, what, 0};
    do
        if (real_poll(&p, 1, 0))
            return 1;
    while (look_again(0));
    return 0;
}
static int before(int fd, short what, int flags) {
    if (TURNS_HERE && !(flags & MSG_DONTWAIT) && may_wait(fd) && !ready(fd, what))
        return leave_turns();
    note_done();
    return 0;
}
static void done(int left) {
    rejoin_turns(left);
    note_done();
}
#define IN(type, name, parameters, arguments, flags, got)                                          \
    API type name parameters {                                                                     \
        REAL(name);                                                                                \
        int left = before(fd, POLLIN, flags);                                                      \
        type r = real_##name arguments;                                                            \
        rejoin_turns(left);                                                                        \
        int e = errno;                                                                             \
        if (r > 0)                                                                                 \
            got;                                                                                   \
        note_done();                                                                               \
        errno = e;                                                                                 \
        return r;                                                                                  \
    }
#define OUT(type, name, parameters, arguments, flags, gives)                                       \
    API type name parameters {                                                                     \
        REAL(name);                                                                                \
        gives;                                                                                     \
        int left = before(fd, POLLOUT, flags);                                                     \
        type r = real_##name arguments;                                                            \
        done(left);                                                                                \
        return r;                                                                                  \
    }
typedef const struct iovec *pieces;
static void write_pieces(pieces v, int n, size_t bytes, u64 code) {
    for (int i = 0; i < n && bytes; i++) {
        size_t k = v[i].iov_len < bytes ? v[i].iov_len : bytes;
        note_write(v[i].iov_base, k, code);
        bytes -= k;
    }
}
static void read_pieces(pieces v, int n, u64 code) {
    for (int i = 0; i < n; i++)
        note_read(v[i].iov_base, v[i].iov_len, code);
}
IN(ssize_t, read, (int fd, void *b, size_t n), (fd, b, n), 0, note_write(b, r, CALLER))
IN(ssize_t, pread, (int fd, void *b, size_t n, off_t o), (fd, b, n, o), 0, note_write(b, r, CALLER))
IN(ssize_t, pread64, (int fd, void *b, size_t n, off_t o), (fd, b, n, o), 0,
   note_write(b, r, CALLER))
IN(ssize_t, recv, (int fd, void *b, size_t n, int f), (fd, b, n, f), f, note_write(b, r, CALLER))
IN(ssize_t, recvfrom, (int fd, void *b, size_t n, int f, __SOCKADDR_ARG a, socklen_t *l),
   (fd, b, n, f, a, l), f, note_write(b, r, CALLER))
IN(ssize_t, readv, (int fd, pieces v, int n), (fd, v, n), 0, write_pieces(v, n, r, CALLER))
IN(ssize_t, preadv, (int fd, pieces v, int n, off_t o), (fd, v, n, o), 0,
   write_pieces(v, n, r, CALLER))
IN(ssize_t, recvmsg, (int fd, struct msghdr *h, int f), (fd, h, f), f,
   write_pieces(h->msg_iov, h->msg_iovlen, r, CALLER))
OUT(ssize_t, write, (int fd, const void *b, size_t n), (fd, b, n), 0, note_read(b, n, CALLER))
OUT(ssize_t, pwrite, (int fd, const void *b, size_t n, off_t o), (fd, b, n, o), 0,
    note_read(b, n, CALLER))
OUT(ssize_t, pwrite64, (int fd, const void *b, size_t n, off_t o), (fd, b, n, o), 0,
    note_read(b, n, CALLER))
OUT(ssize_t, send, (int fd, const void *b, size_t n, int f), (fd, b, n, f), f,
    note_read(b, n, CALLER))
OUT(ssize_t, sendto, (int fd, const void *b, size_t n, int f, __CONST_SOCKADDR_ARG a, socklen_t l),
    (fd, b, n, f, a, l), f, note_read(b, n, CALLER))
OUT(ssize_t, writev, (int fd, pieces v, int n), (fd, v, n), 0, read_pieces(v, n, CALLER))
OUT(ssize_t, pwritev, (int fd, pieces v, int n, off_t o), (fd, v, n, o), 0,
    read_pieces(v, n, CALLER))
OUT(ssize_t, sendmsg, (int fd, const struct msghdr *h, int f), (fd, h, f), f,
    read_pieces(h->msg_iov, h->msg_iovlen, CALLER))

// ---- calls that only wait
#define OUTSIDE(type, name, parameters, arguments)                                                 \
    API type name parameters {                                                                     \
        REAL(name);                                                                                \
        int left = leave_turns();                                                                  \
        type r = real_##name arguments;                                                            \
        rejoin_turns(left);                                                                        \
        return r;                                                                                  \
    }
OUTSIDE(int, accept, (int s, __SOCKADDR_ARG a, socklen_t *n), (s, a, n))
OUTSIDE(int, accept4, (int s, __SOCKADDR_ARG a, socklen_t *n, int f), (s, a, n, f))
OUTSIDE(int, connect, (int s, __CONST_SOCKADDR_ARG a, socklen_t n), (s, a, n))
OUTSIDE(pid_t, waitpid, (pid_t p, int *s, int o), (p, s, o))
OUTSIDE(pid_t, wait, (int *s), (s))
OUTSIDE(int, sigwait, (const sigset_t *s, int *n), (s, n))
OUTSIDE(int, sigwaitinfo, (const sigset_t *s, siginfo_t *i), (s, i))
OUTSIDE(int, sigtimedwait, (const sigset_t *s, siginfo_t *i, const struct timespec *x), (s, i, x))
OUTSIDE(int, pause, (void), ())

// ---- polls: by turns they look without waiting, and again after others ran
static u64 end_of(long milliseconds) {
    return milliseconds < 0 ? 0 : now() + milliseconds * 1000000ull + 1;
}
static long in_milliseconds(const struct timespec *x) {
    return x ? x->tv_sec * 1000 + x->tv_nsec / 1000000 : -1;
}
#define POLLS(name, parameters, arguments, at_once, milliseconds)                                  \
    API int name parameters {                                                                      \
        REAL(name);                                                                                \
        if (TURNS_HERE) {                                                                          \
            long ms = milliseconds;                                                                \
            u64 until = end_of(ms);                                                                \
            do {                                                                                   \
                int r = real_##name at_once;                                                       \
                if (r || !ms)                                                                      \
                    return r;                                                                      \
            } while (look_again(until));                                                           \
            if (until && now() >= until)                                                           \
                return 0;                                                                          \
        }                                                                                          \
        int left = leave_turns();                                                                  \
        int r = real_##name arguments;                                                             \
        rejoin_turns(left);                                                                        \
        return r;                                                                                  \
    }
static const struct timespec no_time;
typedef const struct timespec *when;
POLLS(poll, (struct pollfd * p, nfds_t n, int x), (p, n, x), (p, n, 0), x)
POLLS(ppoll, (struct pollfd * p, nfds_t n, when x, const sigset_t *s), (p, n, x, s),
      (p, n, &no_time, s), in_milliseconds(x))
POLLS(epoll_wait, (int f, struct epoll_event *e, int n, int x), (f, e, n, x), (f, e, n, 0), x)
POLLS(epoll_pwait, (int f, struct epoll_event *e, int n, int x, const sigset_t *s), (f, e, n, x, s),
      (f, e, n, 0, s), x)
API int select(int n, fd_set *in, fd_set *out, fd_set *bad,
               struct timeval *x) { // it changes its arguments
    REAL(select);
    if (TURNS_HERE) {
        long ms = x ? x->tv_sec * 1000 + x->tv_usec / 1000 : -1;
        u64 until = end_of(ms);
        fd_set i, o, b;
        do {
            struct timeval none = {0, 0};
            if (in)
                i = *in;
            if (out)
                o = *out;
            if (bad)
                b = *bad;
            int r = real_select(n, in ? &i : 0, out ? &o : 0, bad ? &b : 0, &none);
            if (r || !ms || (until && now() >= until)) {
                if (in)
                    *in = i;
                if (out)
                    *out = o;
                if (bad)
                    *bad = b;
                return r;
            }
        } while (look_again(until));
    }
    int left = leave_turns();
    int r = real_select(n, in, out, bad, x);
    rejoin_turns(left);
    return r;
}

// ---- time
static int nap(u64 nanoseconds, u64 code) { // 1: it was done by turns
    struct self *t = enter();
    if (!t)
        return 0;
    int by_turns = TURNS(t), ends = 0;
    if (by_turns)
        rest(t, nanoseconds, code), ends = cancelled(t);
    leave(t);
    if (ends)
        pthread_testcancel();
    return by_turns;
}
static u64 length(when x) {
    return x->tv_sec * 1000000000ull + x->tv_nsec;
}
API int sched_yield(void) {
    struct self *t = enter();
    if (TURNS(t)) {
        yield_turn(t);
        leave(t);
        return 0;
    }
    if (t)
        leave(t);
    return syscall(SYS_sched_yield);
}
API void thrd_yield(void) {
    sched_yield();
}
API int usleep(useconds_t n) {
    REAL(usleep);
    return nap(n * 1000ull, CALLER) ? 0 : real_usleep(n);
}
API unsigned sleep(unsigned n) {
    REAL(sleep);
    return nap(n * 1000000000ull, CALLER) ? 0 : real_sleep(n);
}
API int nanosleep(when x, struct timespec *y) {
    REAL(nanosleep);
    return nap(length(x), CALLER) ? 0 : real_nanosleep(x, y);
}
API int thrd_sleep(when x, struct timespec *y) {
    REAL(thrd_sleep);
    return nap(length(x), CALLER) ? 0 : real_thrd_sleep(x, y);
}
API int clock_nanosleep(clockid_t c, int f, when x, struct timespec *y) {
    REAL(clock_nanosleep);
    return nap(f & TIMER_ABSTIME ? deadline(x, c) - now() : length(x), CALLER)
               ? 0
               : real_clock_nanosleep(c, f, x, y);
}
