// off: with VELODROME_OFF all are std's own types, and nothing of Velodrome is linked.
#define VELODROME_OFF
#include "velodrome.hpp"
static_assert(std::is_same_v<velodrome::mutex, std::mutex> &&
              std::is_same_v<velodrome::recursive_mutex, std::recursive_mutex>);
static_assert(std::is_same_v<velodrome::timed_mutex, std::timed_mutex> &&
              std::is_same_v<velodrome::shared_mutex, std::shared_mutex>);
static_assert(std::is_same_v<velodrome::condition_variable, std::condition_variable> &&
              std::is_same_v<velodrome::thread, std::thread>);
static_assert(std::is_same_v<velodrome::atomic<int>, std::atomic<int>> &&
              sizeof(velodrome::var<int>) == sizeof(int));

struct account {
    velodrome::mutex lock VELODROME_NAMED("lock");
    velodrome::var<long> balance VELODROME_VALUE(0, "balance");
    velodrome::atomic<int> hits VELODROME_VALUE(0, "hits");
    velodrome::var<int> named{3, velodrome::named{"named"}};
    velodrome::watched<std::mutex> own VELODROME_NAMED("own");
};

int main() {
    account a;
    velodrome::session s(velodrome::options::environment());
    velodrome::actor who;
    velodrome::acting as(who);
    std::lock_guard hold_own(a.own);
    velodrome::thread([&] {
        VELODROME_ATOMIC("deposit");
        std::lock_guard hold(a.lock);
        a.balance += 5;
        ++a.hits;
    }).join();
    const velodrome::result r = s.finish("off");
    return a.balance == 5 && a.hits == 1 && a.named == 3 &&
                   r.what == velodrome::verdict::incomplete && !r.fails
               ? 0
               : 1;
}
