/* kind: atomicity
 * source: Lu, Park, Seo and Zhou, "Learning from Mistakes", ASPLOS 2008: the database's closed
 * table
 * function: read_row
 * variable: table
 */
#include "scene.h"

MUTEX(guard);
static int rows = 7;
static int *table = &rows;
static int failed;

static int is_there(void) {
    lock(&guard);
    int there = table != NULL;
    unlock(&guard);
    return there;
}

static void read_row(void) {
#ifdef REPAIRED
    lock(&guard);
    if (table != NULL) {
        failed |= table == NULL;
    }
    unlock(&guard);
    (void)is_there;
#else
    if (is_there()) { // first
        PAUSE();
        lock(&guard);
        failed |= table == NULL; // second
        unlock(&guard);
    }
#endif
}

static void *reader(void *unused) {
    for (int i = 0; i < ROUNDS; i++) {
        read_row();
    }
    return unused;
}

static void set_table(int *value) {
    lock(&guard);
    table = value;
    unlock(&guard);
}

static void *closer(void *unused) {
    for (int i = 0; i < ROUNDS; i++) {
        PAUSE();
        set_table(NULL);
        PAUSE();
        set_table(&rows);
    }
    return unused;
}

int main(void) {
    BOTH(reader, closer);
    return RESULT(!failed);
}
