// A table of locks that the first thread takes while it fills it, and a mistake under one more
// lock.
#include "check_then_act.h"

static pthread_mutex_t table[5000];

int main(void) {
    for (int i = 0; i < 5000; i++) {
        pthread_mutex_init(&table[i], 0);
        pthread_mutex_lock(&table[i]);
        pthread_mutex_unlock(&table[i]);
    }
    bump_by_two(50);
    return 0;
}
