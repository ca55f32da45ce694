/* Ends as the argument says, after some work; and with strange stacks and descriptors. */
#include <pthread.h>
#include <limits.h>
#include <signal.h>
#include <stdio.h>
#include <stdlib.h>
#include <string.h>
#include <sys/time.h>
#include <sys/wait.h>
#include <unistd.h>

static volatile int x, y;
void work(void) {
    for (int i = 0; i < 1000; i++)
        x++, y += x;
}
static volatile int came;
static void handler(int n) {
    came += n;
}
static void *routine(void *a) {
    work();
    return a;
}
static void in_thread(size_t stack) {
    pthread_t t;
    pthread_attr_t a;
    pthread_attr_init(&a);
    if (stack && pthread_attr_setstacksize(&a, stack))
        abort();
    if (pthread_create(&t, &a, routine, 0))
        abort();
    pthread_join(t, 0);
}
int main(int n, char **v) {
    const char *how = n > 1 ? v[1] : "";
    work();
    in_thread(!strcmp(how, "stack") ? (size_t)sysconf(_SC_THREAD_STACK_MIN) : 0);
    if (!strcmp(how, "killed"))
        raise(SIGKILL);
    if (!strcmp(how, "aborted"))
        abort();
    if (!strcmp(how, "crashed"))
        *(volatile int *)8 = 1;
    if (!strcmp(how, "_exit"))
        _exit(0);
    if (!strcmp(how, "closes")) {
        for (int fd = 3; fd < 256; fd++)
            close(fd);
        FILE *f = tmpfile(); /* has a number that the recorder may have had */
        if (!f)
            abort();
        for (int i = 0; i < 20; i++)
            work();
        if (ftell(f))
            abort();
    }
    if (!strcmp(how, "signals")) {
        struct itimerval often = {{0, 500}, {0, 500}};
        signal(SIGALRM, handler);
        setitimer(ITIMER_REAL, &often, 0);
        for (int i = 0; i < 100 || !came; i++)
            work();
        in_thread(0);
        setitimer(ITIMER_REAL, &(struct itimerval){{0, 0}, {0, 0}}, 0);
        if (!came)
            abort();
    }
    if (!strcmp(how, "much"))
        for (int i = 0; i < 3000; i++)
            work();
    if (!strcmp(how, "forks"))
        for (int i = 0; i < 3; i++) {
            int status;
            pid_t p = fork();
            if (!p) {
                work();
                in_thread(0);
                exit(7);
            }
            if (waitpid(p, &status, 0) != p || WEXITSTATUS(status) != 7)
                abort();
        }
    return 5;
}
