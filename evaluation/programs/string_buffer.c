/* kind: atomicity
 * source: Flanagan and Freund, "Atomizer", POPL 2004: StringBuffer.append of Java 1.4
 * function: append
 * variable: length
 */
#include "scene.h"

enum { SIZE = 16 };
MUTEX(guard);
static char text[SIZE] = "abcdefgh";
static int length = 8;
static int outside;

static int get_length(void) {
    lock(&guard);
    int now = length;
    unlock(&guard);
    return now;
}

static void copy(char *to, int size) {
    lock(&guard);
    outside |= size > length;
    memcpy(to, text, (size_t)size);
    unlock(&guard);
}

static void append(char *to) {
#ifdef REPAIRED
    lock(&guard);
    memcpy(to, text, (size_t)length);
    unlock(&guard);
    (void)get_length;
    (void)copy;
#else
    int size = get_length(); // first
    PAUSE();
    copy(to, size); // second
#endif
}

static void set_length(int value) {
    lock(&guard);
    length = value;
    unlock(&guard);
}

static void *appender(void *unused) {
    char to[SIZE];
    for (int i = 0; i < ROUNDS; i++) {
        append(to);
    }
    return unused;
}

static void *cutter(void *unused) {
    for (int i = 0; i < ROUNDS; i++) {
        PAUSE();
        set_length(0);
        PAUSE();
        set_length(8);
    }
    return unused;
}

int main(void) {
    BOTH(appender, cutter);
    return RESULT(!outside);
}
