/* kind: atomicity
 * source: Flanagan and Qadeer, "A Type and Effect System for Atomicity", PLDI 2003: the bank
 * account
 * function: transfer
 * variable: balance
 */
#include "scene.h"

MUTEX(guard);
static int balance[2] = {100, 100};
static int lost;

static void deposit(int account, int amount) {
    lock(&guard);
    balance[account] += amount;
    unlock(&guard);
}

static void transfer(void) {
#ifdef REPAIRED
    lock(&guard);
    balance[0] -= 1;
    balance[1] += 1;
    unlock(&guard);
    (void)deposit;
#else
    deposit(0, -1); // first
    PAUSE();
    deposit(1, 1); // second
#endif
}

static void audit(void) {
    lock(&guard);
    lost |= balance[0] + balance[1] != 200;
    unlock(&guard);
}

static void *teller(void *unused) {
    for (int i = 0; i < ROUNDS; i++) {
        transfer();
    }
    return unused;
}

static void *auditor(void *unused) {
    for (int i = 0; i < ROUNDS; i++) {
        PAUSE();
        audit();
    }
    return unused;
}

int main(void) {
    BOTH(teller, auditor);
    return RESULT(!lost);
}
