/* kind: atomicity
 * source: Shacham and others, "Testing Atomicity of Composed Concurrent Operations", OOPSLA 2011:
 * put if absent
 * function: put_if_absent
 * variable: entries_
 */
#include "scene.h"
#include <map>
#include <mutex>

namespace {
class Map {
public:
    bool has(int key) {
        std::lock_guard<std::mutex> hold(guard_);
        return entries_.count(key) != 0;
    }
    void put(int key) {
        std::lock_guard<std::mutex> hold(guard_);
        entries_[key]++;
    }
    void put_if_absent(int key) {
#ifdef REPAIRED
        std::lock_guard<std::mutex> hold(guard_);
        entries_.emplace(key, 1);
#else
        if (!has(key)) { // first
            PAUSE();
            put(key); // second
        }
#endif
    }
    bool each_once() const {
        for (const auto &entry : entries_) {
            if (entry.second != 1) {
                return false;
            }
        }
        return true;
    }

private:
    std::mutex guard_;
    std::map<int, int> entries_;
};

Map map;

void *worker(void *unused) {
    for (int key = 0; key < ROUNDS; key++) {
        map.put_if_absent(key);
    }
    return unused;
}
} // namespace

int main() {
    BOTH(worker, worker);
    return RESULT(map.each_once());
}
