/* cost [EVENTS [VARIABLES]]: nanoseconds an event, of the clock and of the processor, one thread,
 * no lock. */
#define _POSIX_C_SOURCE 199309L
#include "velodrome.h"
#include <stdio.h>
#include <stdlib.h>
#include <time.h>

static double now(clockid_t clock) {
    struct timespec t;
    clock_gettime(clock, &t);
    return (double)t.tv_sec * 1e9 + (double)t.tv_nsec;
}

int main(int argc, char **argv) {
    uint32_t events = argc > 1 ? (uint32_t)strtoul(argv[1], NULL, 10) : 1000000;
    uint32_t variables = argc > 2 ? (uint32_t)strtoul(argv[2], NULL, 10) : 1024;
    velodrome_limits limits = {4, variables, 16, VELODROME_MAX_EVENTS, 1024};
    velodrome *m;
    velodrome_answer a;
    unsigned status = velodrome_open(&m, &limits);
    for (uint32_t child = 1; child < 4; child++)
        status |= velodrome_fork(m, 0, child, &a);
    double start = now(CLOCK_MONOTONIC), begun = now(CLOCK_PROCESS_CPUTIME_ID);
    for (uint32_t round = 0; round < events / 8; round++) {
        uint32_t thread = round % 4, lock = round * 7 % 16;
        uint32_t x = round * 13 % (variables / 16) * 16 + lock,
                 y = round * 31 % (variables / 16) * 16 + lock;
        status |= velodrome_begin(m, thread, round % 9, &a);
        status |= velodrome_acquire(m, thread, lock, &a);
        status |= velodrome_read(m, thread, x, &a);
        status |= velodrome_write(m, thread, x, round, &a);
        status |= velodrome_read(m, thread, y, &a);
        status |= velodrome_write(m, thread, y, round, &a);
        status |= velodrome_release(m, thread, lock, &a);
        status |= velodrome_end(m, thread, &a);
    }
    double each = (now(CLOCK_MONOTONIC) - start) / (events / 8 * 8),
           spent = (now(CLOCK_PROCESS_CPUTIME_ID) - begun) / (events / 8 * 8);
    printf("%.1f ns an event (processor %.1f), %u events, %u variables, alarm %d\n", each, spent,
           events / 8 * 8, variables, a.alarmed);
    velodrome_close(m);
    return status != 0;
}
