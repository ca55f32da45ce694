// RIGHT: two accounts, scoped_lock takes both.
#include <cstdio>
#include <mutex>
#include <thread>
struct Account {
    std::mutex m;
    long balance = 100;
};
void transfer(Account &from, Account &to, long n) {
    std::scoped_lock both(from.m, to.m);
    from.balance -= n;
    to.balance += n;
}
int main() {
    Account a, b;
    std::thread s([&] {
        for (int i = 0; i < 200; ++i)
            transfer(a, b, 1);
    }),
        t([&] {
            for (int i = 0; i < 200; ++i)
                transfer(b, a, 1);
        });
    s.join();
    t.join();
    std::printf("%ld %ld\n", a.balance, b.balance);
}
