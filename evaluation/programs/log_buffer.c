/* kind: atomicity
 * source: Lu, Park, Seo and Zhou, "Learning from Mistakes", ASPLOS 2008: the web server's log
 * buffer
 * function: append
 * variable: used
 */
#include "scene.h"

enum { SIZE = 4096, LENGTH = 4 };
MUTEX(guard);
static char buffer[SIZE];
static int used;

static int position(void) {
    lock(&guard);
    int now = used;
    unlock(&guard);
    return now;
}

static void advance(int from, const char *text) {
    lock(&guard);
    memcpy(buffer + from, text, LENGTH);
    used = from + LENGTH;
    unlock(&guard);
}

static void append(const char *text) {
#ifdef REPAIRED
    lock(&guard);
    memcpy(buffer + used, text, LENGTH);
    used += LENGTH;
    unlock(&guard);
    (void)position;
    (void)advance;
#else
    int from = position(); // first
    PAUSE();
    advance(from, text); // second
#endif
}

static void *client(void *unused) {
    for (int i = 0; i < ROUNDS; i++) {
        append("GET\n");
    }
    return unused;
}

int main(void) {
    BOTH(client, client);
    return RESULT(used == 2 * ROUNDS * LENGTH);
}
