// Locks and counters made of atomics, all right, and two mistakes: `twice` lets go of its lock
// between a check and an act, `add_badly` adds without a compare-and-swap.
#include <atomic>
#include <climits>
#include <linux/futex.h>
#include <sys/syscall.h>
#include <thread>
#include <unistd.h>
#include <vector>

static std::atomic_flag flag = ATOMIC_FLAG_INIT;
static std::atomic<int> word{0};
static std::atomic<unsigned> next_ticket{0}, serving{0};
static std::atomic<int> sleepy{0};
static std::atomic<long> total{0}, other_total{0};
static long data[10];

static void lock_flag() {
    while (flag.test_and_set(std::memory_order_acquire)) {
    }
}
static void unlock_flag() {
    flag.clear(std::memory_order_release);
}
static void change(int i) {
    data[i]++;
    usleep(10);
    data[i + 1]++;
}
static void by_flag() {
    lock_flag();
    change(0);
    unlock_flag();
}
static void by_word() {
    int free_word;
    do {
        while (word.load(std::memory_order_relaxed)) {
        }
        free_word = 0;
    } while (!word.compare_exchange_weak(free_word, 1));
    change(2);
    word.store(0, std::memory_order_release);
}
static bool try_word() {
    int free_word = 0;
    return word.compare_exchange_strong(free_word, 1);
}
static void by_trying() {
    while (!try_word()) {
    }
    change(2);
    word.store(0, std::memory_order_release);
}
static void by_ticket() {
    unsigned mine = next_ticket.fetch_add(1);
    while (serving.load() != mine) {
    }
    change(4);
    serving.store(mine + 1);
}
// 1: held. 2: held, and others may sleep.
static void lock_sleepy() {
    int is_free = 0;
    if (sleepy.compare_exchange_strong(is_free, 1))
        return;
    while (sleepy.exchange(2))
        syscall(SYS_futex, &sleepy, FUTEX_WAIT_PRIVATE, 2, nullptr, nullptr, 0);
}
static void unlock_sleepy() {
    if (sleepy.exchange(0) == 2)
        syscall(SYS_futex, &sleepy, FUTEX_WAKE_PRIVATE, 1, nullptr, nullptr, 0);
}
static void by_sleepy() {
    lock_sleepy();
    change(6);
    unlock_sleepy();
}
static void add() {
    long old = total.load();
    while (!total.compare_exchange_weak(old, old + 3)) {
    }
}
static void add_again() {
    long old;
    do
        old = total.load();
    while (!total.compare_exchange_weak(old, old + 3));
}
static void add_badly() {
    long old = other_total.load();
    usleep(10);
    other_total.store(old + 1);
}
static bool is_due() {
    lock_flag();
    bool due = data[8] % 2 == 0;
    unlock_flag();
    return due;
}
static void act() {
    lock_flag();
    data[8]++;
    unlock_flag();
}
static void twice() {
    if (is_due())
        usleep(10);
    act();
}
int main() {
    std::vector<std::thread> threads;
    for (int k = 0; k < 3; k++)
        threads.emplace_back([] {
            for (int i = 0; i < 30; i++) {
                by_flag();
                by_word();
                by_trying();
                by_ticket();
                by_sleepy();
                add();
                add_again();
                add_badly();
                twice();
            }
        });
    for (auto &t : threads)
        t.join();
}
