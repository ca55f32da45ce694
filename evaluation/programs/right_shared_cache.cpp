/* kind: right
 * source: Courtois, Heymans and Parnas, "Concurrent Control with Readers and Writers", 1971:
 * looked at again as a writer
 */
#include "scene.h"
#include <map>
#include <mutex>
#include <shared_mutex>

namespace {
class Cache {
public:
    int get(int key) {
        {
            std::shared_lock<std::shared_mutex> hold(guard_);
            auto found = values_.find(key);
            if (found != values_.end()) {
                return found->second;
            }
        }
        PAUSE();
        std::unique_lock<std::shared_mutex> hold(guard_);
        auto placed = values_.emplace(key, key * key);
        loads_ += placed.second;
        return placed.first->second;
    }
    int loads() const { return loads_; }

private:
    std::shared_mutex guard_;
    std::map<int, int> values_;
    int loads_ = 0;
};

Cache cache;

void *user(void *unused) {
    for (int key = 0; key < ROUNDS; key++) {
        if (cache.get(key) != key * key) {
            abort();
        }
    }
    return unused;
}
} // namespace

int main() {
    BOTH(user, user);
    return RESULT(cache.loads() == ROUNDS);
}
