// Locks and data on a stack, in members, and on the heap.
#include <memory>
#include <mutex>
#include <thread>

struct Stats {
    std::mutex m;
    long hits = 0;
};
struct Cache {
    Stats stats;
    std::mutex mutex_;
    int values[4] = {};
};
struct Session {
    Session() : number(1) {}
    std::mutex m;
    int number;
};
void visit(Cache &cache) {
    std::lock_guard<std::mutex> l(cache.mutex_);
    cache.values[2]++;
}
void hit(Cache &cache) {
    std::lock_guard<std::mutex> l(cache.stats.m);
    cache.stats.hits++;
}
void renumber(Session &session) {
    std::lock_guard<std::mutex> l(session.m);
    session.number++;
}
int main() {
    Cache cache;
    Session *plain = new Session;
    auto shared = std::make_shared<Session>();
    auto unique = std::make_unique<Session>();
    auto all = [&] {
        for (int i = 0; i < 2; i++) {
            visit(cache), hit(cache);
            renumber(*plain), renumber(*unique);
            renumber(*std::atomic_load(&shared)); // by a lock of the library
        }
    };
    std::thread a(all), b(all);
    a.join(), b.join();
}
