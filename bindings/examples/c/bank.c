#include "bank.h"

void deposit(account *a, long amount) {
    VELODROME_ATOMIC("deposit");
    vs_mutex_lock(&a->lock);
    VS_SET(a->balance, VS_GET(a->balance) + amount);
    vs_mutex_unlock(&a->lock);
}

void deposit_carelessly(account *a, long amount) {
    VELODROME_ATOMIC("deposit_carelessly");
    vs_mutex_lock(&a->lock);
    long before = VS_GET(a->balance);
    vs_mutex_unlock(&a->lock);
    vs_mutex_lock(&a->lock);
    VS_SET(a->balance, before + amount);
    vs_mutex_unlock(&a->lock);
}
