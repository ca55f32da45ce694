// The trace: a file that grows as it is written, mapped into memory, so that what was written stays
// whatever becomes of the program. It grows by allocated blocks only: a full disk is told here, and
// never by a signal at a store.
#include "runtime.h"
#include <errno.h>
#include <fcntl.h>
#include <sched.h>
#include <stdarg.h>
#include <stdio.h>
#include <stdlib.h>
#include <string.h>
#include <sys/mman.h>
#include <sys/resource.h>
#include <sys/syscall.h>
#include <unistd.h>

#define MOST 0xf0000000u // records: a stamp has 32 bits
int on, mode, values;
struct head *head;
u32 memory_clock;
struct record *records;
static char base[3800];
char trace_path[4096];
u64 trace_bytes;

void say(const char *format, ...) {
    char text[600] = "velodrome: ";
    va_list l;
    int e = errno;
    va_start(l, format);
    vsnprintf(text + 11, sizeof text - 12, format, l);
    va_end(l);
    strcat(text, "\n");
    ssize_t n = syscall(SYS_write, 2, text, strlen(text));
    (void)n;
    errno = e;
}

// ---- the file
static u64 most_records(void) {
    struct rlimit limit;
    u64 most = setting("VELODROME_MOST", 64000000);
    if (most > MOST)
        most = MOST;
    if (!getrlimit(RLIMIT_FSIZE, &limit) && limit.rlim_cur != RLIM_INFINITY) {
        u64 fit = limit.rlim_cur > 2 * HEAD_BYTES
                      ? (limit.rlim_cur - HEAD_BYTES) / sizeof(struct record)
                      : 0;
        if (most > fit)
            most = fit; // past it a signal would come
    }
    return most;
}
static void absolute(char *to, size_t n, const char *name) {
    char folder[2000];
    if (*name == '/' || !getcwd(folder, sizeof folder))
        snprintf(to, n, "%s", name);
    else
        snprintf(to, n, "%s/%s", folder, name);
}
static int refused(int error) {
    say("nothing is recorded: %s: %s", trace_path, strerror(error));
    drop_kept();
    return 0;
}
static void open_maps(void) {
    char maps[4200];
    snprintf(maps, sizeof maps, "%s.maps", trace_path);
    unlink(maps);
    keep(MAPS, open(maps, O_WRONLY | O_CREAT | O_APPEND | O_CLOEXEC, 0644));
    keep(MAPPED, open("/proc/self/maps", O_RDONLY | O_CLOEXEC));
    keep(TASKS, open("/proc/self/task", O_RDONLY | O_DIRECTORY | O_CLOEXEC));
    trace_maps();
    trace_builds();
}
int trace_open(void) {
    if (!*base)
        absolute(base, sizeof base, getenv("VELODROME_OUT"));
    snprintf(trace_path, sizeof trace_path, "%s.%d", base, (int)getpid());
    u64 most = most_records() / CHUNK * CHUNK;
    int fd = open(trace_path, O_RDWR | O_CREAT | O_TRUNC | O_CLOEXEC, 0644);
    if (fd < 0)
        return refused(errno);
    trace_bytes = HEAD_BYTES + most * sizeof(struct record);
    char *p = mmap(0, trace_bytes, PROT_READ | PROT_WRITE, MAP_SHARED | MAP_NORESERVE, fd, 0);
    int error = errno;
    room_reset();
    keep(TRACE, fd);
    if (p == MAP_FAILED)
        return refused(error);
    if (!has_room(HEAD_BYTES)) {
        munmap(p, trace_bytes);
        say("nothing is recorded: %s: %s", trace_path, no_room());
        drop_kept();
        return 0;
    }
    if (!ring_open(most / CHUNK)) {
        munmap(p, trace_bytes);
        return refused(ENOMEM);
    }
    head = (struct head *)p;
    records = (struct record *)(p + HEAD_BYTES);
    *head = (struct head){.magic = MAGIC, .mode = mode, .values = values, .most = most};
    open_maps();
    return 1;
}
// At the program's end. Other threads may still be in a hook: a few chunks more stay.
void trace_close(void) {
    u64 none = GOES_ON;
    trace_maps();
    trace_builds();
    if (mode == SERIAL)
        return; // threads that go on still take turns
    STORE(on, 0);
    __atomic_compare_exchange_n(&head->stopped, &none, (u64)ENDED, 0, __ATOMIC_SEQ_CST,
                                __ATOMIC_RELAXED);
    room_trim(HEAD_BYTES + (LOAD(head->chunks) + 8) * CHUNK * sizeof(struct record));
}
void trace_leave(void) {
    if (head && !sealed)
        munmap(head, trace_bytes);
    drop_kept();
    ring_reset();
    head = 0;
    records = 0;
}
// What is mapped where, for names and lines. Each time is appended: a module may be gone by the
// end.
static struct { u64 low, high; } code[256]; // mapped code that was noted
static u32 codes;
static const char *hex(const char *s, u64 *n) {
    for (*n = 0;; s++) {
        if (*s >= '0' && *s <= '9')
            *n = *n << 4 | (*s - '0');
        else if (*s >= 'a' && *s <= 'f')
            *n = *n << 4 | (*s - 'a' + 10);
        else
            return s;
    }
}
static void note_code(const char *line) { // LOW-HIGH rwxp ..
    u64 low, high;
    line = hex(line, &low);
    if (*line++ != '-')
        return;
    line = hex(line, &high);
    if (line[0] != ' ' || line[3] != 'x' || codes == 256)
        return;
    code[codes].low = low, code[codes].high = high;
    STORE(codes, codes + 1);
}
static void copy_maps(int from, int to) {
    static char text[16384];
    ssize_t n;
    char line[40];
    u32 at = 0;
    STORE(codes, 0);
    while ((n = syscall(SYS_read, from, text, sizeof text)) > 0) {
        if (syscall(SYS_write, to, text, n) != n)
            return;
        for (ssize_t i = 0; i < n; i++) {
            if (at < sizeof line - 1)
                line[at++] = text[i];
            if (text[i] != '\n')
                continue;
            line[at] = 0, at = 0;
            note_code(line);
        }
    }
}
void trace_maps(void) {
    static int busy;
    int e = errno;
    if (sealed || __atomic_exchange_n(&busy, 1, __ATOMIC_ACQUIRE))
        return;
    int from = kept_file(MAPPED), to = kept_file(MAPS);
    if (from >= 0 && to >= 0 && !syscall(SYS_lseek, from, 0, SEEK_SET))
        copy_maps(from, to);
    errno = e;
    STORE(busy, 0);
}
// Code that was not there when the modules were noted is of a library that was loaded since.
static void look_for_module(struct self *t, u64 at) {
    static u32 times;
    for (int again = 0; again < 2; again++) {
        for (u32 i = 0, n = LOAD(codes); i < n; i++)
            if (at >= code[i].low && at < code[i].high) {
                t->code_low = code[i].low, t->code_bytes = code[i].high - code[i].low;
                return;
            }
        if (again || __atomic_add_fetch(&times, 1, __ATOMIC_RELAXED) > 1000)
            return;
        trace_maps();
    }
}
void trace_stop(enum stop why) {
    u64 none = GOES_ON;
    if (!__atomic_compare_exchange_n(&head->stopped, &none, (u64)why, 0, __ATOMIC_SEQ_CST,
                                     __ATOMIC_RELAXED))
        return;
    if (mode != SERIAL)
        STORE(on, 0); // by turns the program goes on by turns, without a record
    say("%s: the recording stops here, the program goes on", reason_of(why));
}
const char *reason_of(enum stop why) {
    return why == FULL       ? "the trace is full (VELODROME_MOST)"
           : why == FIBERS   ? "fibers by turns, or too many of them"
           : why == TOO_LONG ? "there are no stamps left for more events"
                             : no_room();
}

// ---- records
// How far the frame's pointer lies below that of the call outside it, in the upper bits of a BEGIN.
static u64 frame_span(struct self *t, const struct frame *f) {
    const struct frame *outer = f > t->frame ? f - 1 : 0;
    while (outer && !outer->at) // a scope with a name
        outer = outer > t->frame ? outer - 1 : 0;
    u64 top = outer ? outer->base : t->stack_end;
    u64 units = (top - f->base) / FRAME_UNIT;
    return f->base > f->at && f->base < top && units < 1 << 16 ? units << FRAME_SHIFT : 0;
}
static struct record *write_begin(struct self *t, const struct frame *f) {
    u64 span = f->at ? frame_span(t, f) : 0;
    return write_record(t, word(f->at ? BEGIN : NAMED, 0, f->from), f->function | span);
}
// What a log that begins in this chunk has to know of its thread: how many records.
static u64 write_state(struct self *t) {
    struct record *first = t->next;
    u64 stack = t->stack_end - t->stack_bytes;
    int told = t->told < MAX_STATE ? t->told : MAX_STATE;
    write_record(t, word(STATE, 0, stack), t->routine);
    more(t, 0, t->stack_bytes), more(t, 0, t->told);
    more(t, 0, t->title[0]), more(t, 0, t->title[1]);
    for (int i = 0; i < told; i++)
        write_begin(t, &t->frame[i]);
    return t->next - first;
}
int open_chunk(struct self *t) {
    u64 chunk, round;
    int first = !t->next;
    if (head->stopped)
        return 0;
    if (!t->begun)
        t->id = thread_number(), t->begun = 1;
    if (!take_chunk(&chunk, &round))
        return 0;
    leave_chunk(t);
    struct record *r = records + chunk * CHUNK;
    t->next = r + 1, t->end = r + CHUNK;
    u64 state = first ? 0 : write_state(t);
    r->where = state << STATE_SHIFT | t->high;
    STORE(r->what, round << ROUND_SHIFT | ((u64)t->id + 1));
    return 1;
}
int tell_begins(struct self *t) {
    while (t->told < t->depth && t->told < DEEP) {
        struct frame *f = &t->frame[t->told];
        if (t->end - t->next < 4 && !open_chunk(t))
            return 0;
        f->begun = write_begin(t, f);
        t->told++;
        if (f->at && unlikely(f->function - t->code_low >= t->code_bytes))
            look_for_module(t, f->function);
    }
    return 1;
}
