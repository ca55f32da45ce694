/* memory: each allocation of a run is refused in turn, alone and with all that come after it. The
 * session says `incomplete` then, or what it would say without; it never says the other, and
 * nothing crashes or stays allocated. Linked with --wrap of the allocator. */
#include "velodrome_session.h"
#include <stdio.h>
#include <stdlib.h>

static long left = -1; /* allocations until one is refused; below 0: none is */
static int all_after;
static long asked;
void *__real_malloc(size_t size);
void *__real_calloc(size_t count, size_t size);
void *__real_realloc(void *old, size_t size);
static int refuse(void) {
    asked++;
    if (left < 0)
        return 0;
    if (left > 0)
        return left--, 0;
    if (!all_after)
        left = -1;
    return 1;
}
void *__wrap_malloc(size_t size) {
    return refuse() ? NULL : __real_malloc(size);
}
void *__wrap_calloc(size_t count, size_t size) {
    return refuse() ? NULL : __real_calloc(count, size);
}
void *__wrap_realloc(void *old, size_t size) {
    return refuse() ? NULL : __real_realloc(old, size);
}

static void hook(void *data, const vs_alarm *a) {
    *(int *)data = a->report != NULL;
}

/* A run with names, places, locks that are held across cuts, shares, tasks; with a lost update at
 * its end, or not. */
static vs_verdict run(int lost) {
    static vs_object variable[300], lock[100], label[3];
    static char names[300][12];
    int hooked = 0;
    vs_options o = {.events = 600, .variables = 400, .locks = 128, .alarm = hook, .data = &hooked};
    vs_session s = vs_open(&o, false);
    vs_self *other = vs_self_new();
    for (int i = 0; i < 300; i++) {
        snprintf(names[i], sizeof names[i], "v%d", i);
        variable[i] = (vs_object){0, i % 3 ? names[i] : __FILE__, i % 3 ? 0 : (uint64_t)i};
    }
    for (int i = 0; i < 100; i++)
        lock[i] = (vs_object)VS_OBJECT(i % 2 ? "lock" : NULL);
    for (int i = 0; i < 3; i++)
        label[i] = (vs_object){0, names[i], 0};
    for (int i = 0; i < 100; i++)
        vs_tell(&lock[i], i % 2 ? VS_ACQUIRE : VS_ACQUIRE_SHARED);
    for (int i = 0; i < 900; i++) {
        vs_begin(&label[i % 3]);
        vs_after(vs_before_at(&variable[i % 300], VS_WRITE,
                              &(vs_place){__FILE__, 0, (uint32_t)(i % 200)}));
        vs_end();
    }
    for (int i = 0; i < 100; i++)
        vs_tell(&lock[i], i % 2 ? VS_RELEASE : VS_RELEASE_SHARED);
    vs_begin(&label[0]);
    vs_after(vs_before(&variable[0], VS_READ));
    if (other) {
        vs_self *mine = vs_switch(other);
        vs_after(vs_before_at(&variable[!lost], VS_WRITE, &(vs_place){__FILE__, 0, 7}));
        vs_switch(mine);
    }
    vs_after(vs_before(&variable[0], VS_WRITE));
    vs_end();
    char *report;
    vs_verdict v = vs_close(s, &report);
    vs_free(report);
    vs_self_free(other);
    return s && other ? v : VS_INCOMPLETE;
}

int main(void) {
    int wrong = 0, incomplete = 0;
    vs_verdict wanted[2] = {run(0), run(1)};
    asked = 0;
    run(1);
    long most = asked;
    for (long i = 0; i < most + 5; i++)
        for (int how = 0; how < 4; how++) {
            left = i;
            all_after = how / 2;
            vs_verdict v = run(how % 2);
            left = -1;
            incomplete += v == VS_INCOMPLETE;
            wrong += v != VS_INCOMPLETE && v != wanted[how % 2];
        }
    printf("%ld allocations, each refused in turn: %d runs incomplete, %d wrong\n", most,
           incomplete, wrong);
    return wrong || !incomplete || wanted[0] != VS_CLEAN || wanted[1] != VS_ALARM;
}
