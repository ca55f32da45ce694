/* A lost update: thread 1 writes between the read and the write of thread 0's block. */
#include "velodrome.h"
#include <stdio.h>

int main(void) {
    velodrome *monitor;
    velodrome_answer answer;
    velodrome_status status = velodrome_open(&monitor, NULL);
    if (status) {
        fprintf(stderr, "%s\n", velodrome_strerror(status));
        return 1;
    }
    velodrome_fork(monitor, 0, 1, NULL);
    velodrome_begin(monitor, 0, 7, NULL);
    velodrome_read(monitor, 0, 0, NULL);
    velodrome_write(monitor, 1, 0, 5, NULL);
    velodrome_write(monitor, 0, 0, 1, &answer);
    printf("alarm %d at %d\n", answer.alarmed, (int)answer.position);
    velodrome_close(monitor);
    return !answer.alarmed || answer.position != 4;
}
