/* What the programs share. All of it is macros, so that no function of it is in a recording. */
#ifndef SCENE_H
#define SCENE_H
#ifndef _GNU_SOURCE
#define _GNU_SOURCE
#endif
#include <pthread.h>
#include <stdio.h>
#include <stdlib.h>
#include <string.h>
#include <unistd.h>

#define lock pthread_mutex_lock
#define unlock pthread_mutex_unlock
#define MUTEX(name) static pthread_mutex_t name = PTHREAD_MUTEX_INITIALIZER

/* How often a thread does its work. */
#ifndef ROUNDS
#define ROUNDS 10
#endif

/* Widens the window of the mistake; nothing without PROVOKE. */
#ifdef PROVOKE
#define PAUSE() usleep(20000)
#else
#define PAUSE() ((void)0)
#endif

/* Runs f and g in two threads, to their ends. */
#define BOTH(f, g)                                                                                 \
    do {                                                                                           \
        pthread_t one_, two_;                                                                      \
        if (pthread_create(&one_, NULL, (f), NULL) || pthread_create(&two_, NULL, (g), NULL)) {    \
            abort();                                                                               \
        }                                                                                          \
        pthread_join(one_, NULL);                                                                  \
        pthread_join(two_, NULL);                                                                  \
    } while (0)

/* A deadlock ends the program with status 97, so many seconds after it began. A tool that slows
 * the program down, on a machine that is busy, must not seem to hang. */
#define DEADLOCK_STATUS 97
#ifndef HANG_SECONDS
#define HANG_SECONDS 20
#endif
#define WATCH_FOR_DEADLOCK(handler) (signal(SIGALRM, (handler)), alarm(HANG_SECONDS))

/* The end of main: status 1 and a word if the result is wrong. */
#define RESULT(right) ((right) ? 0 : (puts("wrong"), 1))
#endif
