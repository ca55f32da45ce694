// The room of the trace. Its descriptors are kept open from the start, at numbers where no program
// looks: setuid, chroot and a full table of descriptors do not end a recording. Before a filter of
// system calls comes, room is made ahead, and none is called afterwards but futex.
#include "runtime.h"
#include <errno.h>
#include <fcntl.h>
#include <linux/futex.h>
#include <linux/seccomp.h>
#include <stdlib.h>
#include <string.h>
#include <sys/mman.h>
#include <sys/prctl.h>
#include <sys/resource.h>
#include <sys/stat.h>
#include <sys/syscall.h>
#include <unistd.h>

#define STEP (4u << 20)    // the file grows by so many bytes
#define AHEAD (256u << 20) // bytes that are made ahead of a filter
#define HIGHEST 4096       // kept descriptors begin here, or at the program's limit below it
#ifndef MADV_POPULATE_WRITE
#define MADV_POPULATE_WRITE 23
#endif

int sealed;
static struct {
    int fd; // plus one
    dev_t device;
    ino_t inode;
} kept[KEEPS];
static u64 room; // bytes that are allocated
static int growing, why;

// ---- descriptors
static int same_file(enum keep k, int fd) {
    struct stat s;
    return !fstat(fd, &s) && s.st_dev == kept[k].device && s.st_ino == kept[k].inode;
}
// A copy at a number from `low` on; the program's limit is raised for it, where it may be.
static int copy_behind(int fd, u64 low) {
    struct rlimit was, wide;
    if (getrlimit(RLIMIT_NOFILE, &was))
        return -1;
    wide = was;
    if (wide.rlim_cur < low + KEEPS)
        wide.rlim_cur = low + KEEPS < was.rlim_max ? low + KEEPS : was.rlim_max;
    if (low + KEEPS > wide.rlim_cur)
        low = wide.rlim_cur > 3 + KEEPS ? wide.rlim_cur - KEEPS : 3;
    setrlimit(RLIMIT_NOFILE, &wide);
    int high = fcntl(fd, F_DUPFD_CLOEXEC, (int)low);
    setrlimit(RLIMIT_NOFILE, &was);
    return high;
}
// To a number that the program does not get: behind its limit.
static int move_high(int fd) {
    struct rlimit limit;
    u64 low = HIGHEST;
    if (!getrlimit(RLIMIT_NOFILE, &limit) && limit.rlim_cur < low)
        low = limit.rlim_cur;
    int high = copy_behind(fd, low);
    if (high < 0)
        return fd;
    kernel(SYS_close, fd, 0, 0, 0, 0, 0);
    return high;
}
void keep(enum keep k, int fd) {
    struct stat s;
    STORE(kept[k].fd, 0);
    if (fd < 0 || fstat(fd, &s))
        return;
    kept[k].device = s.st_dev;
    kept[k].inode = s.st_ino;
    STORE(kept[k].fd, move_high(fd) + 1);
}
int kept_file(enum keep k) {
    int fd = LOAD(kept[k].fd) - 1;
    return fd >= 0 && same_file(k, fd) ? fd : -1;
}
void drop_kept(void) { // in a child of fork
    for (int k = 0; k < KEEPS; k++) {
        if (kept[k].fd && !sealed)
            kernel(SYS_close, kept[k].fd - 1, 0, 0, 0, 0, 0);
        kept[k].fd = 0;
    }
}
int is_kept(int fd) {
    for (int k = 0; k < KEEPS; k++)
        if (LOAD(kept[k].fd) == fd + 1)
            return fd >= 0;
    return 0;
}

// ---- growth
static void lock(void) {
    while (__atomic_exchange_n(&growing, 1, __ATOMIC_ACQUIRE))
        pause_briefly();
}
static void unlock(void) {
    STORE(growing, 0);
}
static int allocate(int fd, u64 from, u64 n) {
    long r = syscall(SYS_fallocate, fd, 0, from, n);
    if (!r)
        return 0;
    if (errno != EOPNOTSUPP && errno != ENOSYS)
        return -1;
    static const char zeros[4096];
    for (u64 at = from; at < from + n; at += sizeof zeros)
        if (syscall(SYS_pwrite64, fd, zeros, sizeof zeros, at) != sizeof zeros)
            return -1;
    return 0;
}
// A program may have closed what was kept, in a way that has no hook: then by name.
static int open_again(void) {
    int fd = syscall(SYS_openat, AT_FDCWD, trace_path, O_RDWR | O_CLOEXEC, 0);
    if (fd >= 0 && !same_file(TRACE, fd)) {
        syscall(SYS_close, fd);
        errno = ENOENT;
        return -1;
    }
    return fd;
}
static int grow(void) {
    if (sealed) {
        why = EPERM;
        return 0;
    }
    int e = errno, fd = kept_file(TRACE), again = fd < 0;
    u64 n = room + STEP > trace_bytes ? trace_bytes - room : STEP;
    if (again)
        fd = open_again();
    int ok = fd >= 0 && !allocate(fd, room, n);
    why = ok ? 0 : errno;
    if (again && fd >= 0)
        syscall(SYS_close, fd);
    if (ok && head)
        madvise((char *)head + room, n, MADV_POPULATE_WRITE); // at once, where the kernel can
    if (ok)
        STORE(room, room + n);
    errno = e;
    return ok;
}
int has_room(u64 bytes) {
    while (LOAD(room) < bytes) {
        lock();
        int ok = room >= bytes || grow();
        unlock();
        if (!ok)
            return 0;
    }
    return 1;
}
void room_reset(void) {
    room = 0;
    growing = 0;
}
void room_trim(u64 used) {
    int fd = sealed ? -1 : kept_file(TRACE);
    if (used < LOAD(room) && fd >= 0 && ftruncate(fd, used))
        return; // what stays is zeros
}
const char *no_room(void) {
    if (sealed)
        return "the program's filter of system calls lets the trace grow no more";
    if (why == ENOSPC || why == EDQUOT)
        return "no room for the trace on its disk";
    return strerror(why);
}

// ---- a filter of system calls
static void seal(void) {
    if (!head || sealed)
        return;
    trace_maps();
    trace_builds();
    int e = errno, fd = kept_file(TRACE);
    lock();
    for (u64 ahead = AHEAD; fd >= 0 && ahead >= STEP; ahead /= 2) {
        u64 n = room + ahead > trace_bytes ? trace_bytes - room : ahead;
        if (n && !allocate(fd, room, n)) {
            STORE(room, room + n);
            break;
        }
    }
    unlock();
    errno = e;
    STORE(sealed, 1);
}
// What a call that sets a filter is wrapped in.
int before_filter(long call, long what) {
    int sets = call == SYS_seccomp
                   ? what == SECCOMP_SET_MODE_STRICT || what == SECCOMP_SET_MODE_FILTER
                   : call == SYS_prctl && what == PR_SET_SECCOMP;
    if (!sets || sealed)
        return 0;
    seal();
    return 1;
}
void after_filter(int was_first, long result) {
    if (was_first && result < 0)
        STORE(sealed, 0);
}
long futex(const volatile int *at, int operation, int value, const struct timespec *t) {
    register long r10 __asm__("r10") = (long)t, r8 __asm__("r8") = 0, r9 __asm__("r9") = 0;
    long r;
    __asm__ volatile("syscall"
                     : "=a"(r)
                     : "0"(SYS_futex), "D"(at), "S"(operation), "d"(value), "r"(r10), "r"(r8),
                       "r"(r9)
                     : "rcx", "r11", "memory");
    return r;
}

void pause_briefly(void) {
    if (LOAD(sealed))
        __builtin_ia32_pause();
    else
        syscall(SYS_sched_yield);
}
void sleep_briefly(u64 nanoseconds) {
    static const int never;
    struct timespec some = {0, (long)nanoseconds};
    futex(&never, FUTEX_WAIT_PRIVATE, 0, &some);
}

// ---- what would close the kept descriptors
API int close(int fd) {
    REAL(close);
    if (is_kept(fd)) {
        errno = EBADF;
        return -1;
    }
    return real_close(fd);
}
static int lowest_kept(unsigned from) {
    int lowest = -1;
    for (int k = 0; k < KEEPS; k++) {
        int fd = LOAD(kept[k].fd) - 1;
        if (fd >= 0 && (unsigned)fd >= from && (lowest < 0 || fd < lowest))
            lowest = fd;
    }
    return lowest;
}
long close_around(unsigned first, unsigned last, int flags) {
    for (int fd; (fd = lowest_kept(first)) >= 0 && (unsigned)fd <= last; first = fd + 1) {
        if ((unsigned)fd == first)
            continue;
        long r = kernel(SYS_close_range, first, fd - 1, flags, 0, 0, 0);
        if (r)
            return r;
    }
    return first <= last ? kernel(SYS_close_range, first, last, flags, 0, 0, 0) : 0;
}
API int close_range(unsigned first, unsigned last, int flags) {
    if (first > last)
        return kernel(SYS_close_range, first, last, flags, 0, 0, 0);
    return close_around(first, last, flags);
}
API void closefrom(int low) {
    REAL(closefrom);
    if (close_around(low < 0 ? 0 : low, ~0u, 0))
        real_closefrom(low);
}
static void make_way(int fd) {
    for (int k = 0; k < KEEPS; k++) {
        if (!is_kept(fd) || kept[k].fd != fd + 1)
            continue;
        lock();
        int other = copy_behind(fd, fd + 1);
        STORE(kept[k].fd, other + 1);
        unlock();
    }
}
API int dup2(int from, int to) {
    REAL(dup2);
    make_way(to);
    return real_dup2(from, to);
}
API int dup3(int from, int to, int flags) {
    REAL(dup3);
    make_way(to);
    return real_dup3(from, to, flags);
}
