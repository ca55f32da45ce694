/* kind: atomicity
 * source: Flanagan and Freund, "Atomizer", POPL 2004: a value read under the lock, and written
 * under it later
 * function: withdraw
 * variable: balance
 */
#include "scene.h"

MUTEX(guard);
static int balance = 2 * ROUNDS;

static int read_balance(void) {
    lock(&guard);
    int now = balance;
    unlock(&guard);
    return now;
}

static void write_balance(int value) {
    lock(&guard);
    balance = value;
    unlock(&guard);
}

static void withdraw(void) {
#ifdef REPAIRED
    lock(&guard);
    balance--;
    unlock(&guard);
    (void)read_balance;
    (void)write_balance;
#else
    int now = read_balance(); // first
    PAUSE();
    write_balance(now - 1); // second
#endif
}

static void *customer(void *unused) {
    for (int i = 0; i < ROUNDS; i++) {
        withdraw();
    }
    return unused;
}

int main(void) {
    BOTH(customer, customer);
    return RESULT(balance == 0);
}
