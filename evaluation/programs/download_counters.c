/* kind: atomicity
 * source: Lu, Park, Seo and Zhou, "Learning from Mistakes", ASPLOS 2008; the downloader aget's two
 * counters
 * function: received
 * variable: total
 */
#include "scene.h"

MUTEX(guard);
static int offset;
static int total;
static int torn;

static void add(int *counter) {
    lock(&guard);
    (*counter)++;
    unlock(&guard);
}

static void received(void) {
#ifdef REPAIRED
    lock(&guard);
    offset++;
    total++;
    unlock(&guard);
    (void)add;
#else
    add(&offset); // first
    PAUSE();
    add(&total); // second
#endif
}

static void save(void) {
    lock(&guard);
    torn |= offset != total;
    unlock(&guard);
}

static void *download(void *unused) {
    for (int i = 0; i < ROUNDS; i++) {
        received();
    }
    return unused;
}

static void *saver(void *unused) {
    for (int i = 0; i < ROUNDS; i++) {
        PAUSE();
        save();
    }
    return unused;
}

int main(void) {
    BOTH(download, saver);
    return RESULT(!torn);
}
