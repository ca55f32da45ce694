/* kind: right
 * source: Adve and Gharachorloo, "Shared Memory Consistency Models", 1996: a message that is
 * published by a flag
 */
#include "scene.h"
#include <sched.h>
#include <stdatomic.h>

static int message[2];
static atomic_int ready;
static int received;

static void publish(void) {
    message[0] = 3;
    PAUSE();
    message[1] = 4;
    atomic_store_explicit(&ready, 1, memory_order_release);
}

static int receive(void) {
    while (!atomic_load_explicit(&ready, memory_order_acquire)) {
        sched_yield();
    }
    return message[0] + message[1];
}

static void *sender(void *unused) {
    publish();
    return unused;
}

static void *receiver(void *unused) {
    received = receive();
    return unused;
}

int main(void) {
    BOTH(sender, receiver);
    return RESULT(received == 7);
}
