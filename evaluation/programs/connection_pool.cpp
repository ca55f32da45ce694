/* kind: atomicity
 * source: Artho, Havelund and Biere, "High-level data races", 2003: check of a shared resource,
 * then its use
 * function: acquire
 * variable: free_
 */
#include "scene.h"
#include <mutex>
#include <vector>

namespace {
class Pool {
public:
    bool available() {
        std::lock_guard<std::mutex> hold(guard_);
        return !free_.empty();
    }
    int pop() {
        std::lock_guard<std::mutex> hold(guard_);
        if (free_.empty()) {
            failed_ = true;
            return -1;
        }
        int connection = free_.back();
        free_.pop_back();
        return connection;
    }
    int acquire() {
#ifdef REPAIRED
        std::lock_guard<std::mutex> hold(guard_);
        if (free_.empty()) {
            return -1;
        }
        int connection = free_.back();
        free_.pop_back();
        return connection;
#else
        if (!available()) { // first
            return -1;
        }
        PAUSE();
        return pop(); // second
#endif
    }
    void release(int connection) {
        std::lock_guard<std::mutex> hold(guard_);
        free_.push_back(connection);
    }
    bool failed() const {
        return failed_;
    }

private:
    std::mutex guard_;
    std::vector<int> free_{1};
    bool failed_ = false;
};

Pool pool;

void *client(void *unused) {
    for (int i = 0; i < ROUNDS; i++) {
        int connection = pool.acquire();
        if (connection >= 0) {
            PAUSE();
            pool.release(connection);
        }
    }
    return unused;
}
} // namespace

int main() {
    BOTH(client, client);
    return RESULT(!pool.failed());
}
