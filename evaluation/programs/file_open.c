/* kind: atomicity
 * source: Bishop and Dilger, "Checking for Race Conditions in File Accesses", 1996: a check of a
 * file, then its open
 * function: open_new
 * variable: owners
 */
#include "scene.h"

MUTEX(guard);
static int owners[ROUNDS];

static int exists(int file) {
    lock(&guard);
    int found = owners[file] != 0;
    unlock(&guard);
    return found;
}

static void create(int file) {
    lock(&guard);
    owners[file]++;
    unlock(&guard);
}

static void open_new(int file) {
#ifdef REPAIRED
    lock(&guard);
    if (owners[file] == 0) {
        owners[file]++;
    }
    unlock(&guard);
    (void)exists;
    (void)create;
#else
    if (!exists(file)) { // first
        PAUSE();
        create(file); // second
    }
#endif
}

static void *process(void *unused) {
    for (int file = 0; file < ROUNDS; file++) {
        open_new(file);
    }
    return unused;
}

int main(void) {
    BOTH(process, process);
    int shared = 0;
    for (int file = 0; file < ROUNDS; file++) {
        shared |= owners[file] != 1;
    }
    return RESULT(!shared);
}
