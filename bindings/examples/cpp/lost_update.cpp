// A first program: another thread deposits between the read and the write of a block. It ends with
// status 3, as `velodrome check` does.
#include <future>
#include <iostream>
#include <velodrome.hpp>

static velodrome::var<int> balance VELODROME_VALUE(100, "balance");

static void deposit(int amount) {
    VELODROME_ATOMIC("deposit");
    balance += amount;
}

int main() {
    velodrome::session session;
    std::promise<void> was_read, was_paid; // what makes this schedule come about is not watched
    velodrome::thread other([&] {
        was_read.get_future().wait();
        deposit(10);
        was_paid.set_value();
    });
    {
        VELODROME_ATOMIC("transfer");
        const int before = balance.load();
        was_read.set_value();
        was_paid.get_future().wait();
        balance.store(before + 5); // the 10 are lost
    }
    other.join();
    const velodrome::result result = session.close();
    std::cout << result.words;
    return static_cast<int>(result.what);
}
