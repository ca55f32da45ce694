// bank.hpp: accounts that threads share. One of the deposits is atomic.
#ifndef BANK_HPP
#define BANK_HPP
#include <velodrome.hpp>

class account {
public:
    long balance() const { return balance_; }

    void deposit(long amount) { // in one hold of the lock
        VELODROME_ATOMIC("deposit");
        std::lock_guard hold(lock_);
        balance_ += amount;
    }

    void
    deposit_carelessly(long amount) { // in two: another one may come between them, and is lost then
        VELODROME_ATOMIC("deposit_carelessly");
        long before;
        {
            std::lock_guard hold(lock_);
            before = balance_.load();
        }
        std::lock_guard hold(lock_);
        balance_.store(before + amount);
    }

private:
    velodrome::mutex lock_ VELODROME_NAMED("account::lock");
    velodrome::var<long> balance_ VELODROME_VALUE(0, "account::balance");
};
#endif
