/* bank.h: accounts that threads share. One of the deposits is atomic. */
#ifndef BANK_H
#define BANK_H
#include "velodrome_pthread.h"

typedef struct account {
    vs_mutex lock;
    VS_VARIABLE(long) balance;
} account;
#define ACCOUNT                                                                                    \
    {                                                                                              \
        VS_MUTEX("account.lock"), {                                                                \
            0, VS_OBJECT("account.balance")                                                        \
        }                                                                                          \
    }

void deposit(account *a, long amount); /* in one hold of the lock */
void deposit_carelessly(
    account *a, long amount); /* in two: another one may come between them, and is lost then */
#endif
