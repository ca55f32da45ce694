/* kind: right
 * source: Boehm, "Can Seqlocks Get Along with Programming Language Memory Models?", MSPC 2012
 */
#include "scene.h"
#include <sched.h>
#include <stdatomic.h>

static atomic_uint version;
static atomic_int x;
static atomic_int y;
static atomic_int torn;

static void write_pair(int value) {
    atomic_fetch_add(&version, 1);
    atomic_store(&x, value);
    PAUSE();
    atomic_store(&y, value);
    atomic_fetch_add(&version, 1);
}

static void read_pair(void) {
    for (;;) {
        unsigned before = atomic_load(&version);
        int a = atomic_load(&x);
        int b = atomic_load(&y);
        if (before % 2 == 0 && atomic_load(&version) == before) {
            atomic_fetch_or(&torn, a != b);
            return;
        }
        sched_yield();
    }
}

static void *writer(void *unused) {
    for (int i = 0; i < ROUNDS; i++) {
        write_pair(i);
    }
    return unused;
}

static void *reader(void *unused) {
    for (int i = 0; i < ROUNDS; i++) {
        read_pair();
    }
    return unused;
}

int main(void) {
    BOTH(writer, reader);
    return RESULT(!torn);
}
