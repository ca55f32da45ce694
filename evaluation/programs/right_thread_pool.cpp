/* kind: right
 * source: Lea, "Concurrent Programming in Java", 2nd edition 1999: worker threads that share a
 * queue
 */
#include "scene.h"
#include <condition_variable>
#include <mutex>
#include <queue>

namespace {
class Pool {
public:
    void submit(int task) {
        {
            std::lock_guard<std::mutex> hold(guard_);
            tasks_.push(task);
        }
        changed_.notify_one();
    }
    bool run_one() {
        std::unique_lock<std::mutex> hold(guard_);
        changed_.wait(hold, [this] { return !tasks_.empty(); });
        int task = tasks_.front();
        tasks_.pop();
        if (task == 0) {
            return false;
        }
        hold.unlock();
        PAUSE();
        hold.lock();
        sum_ += task;
        return true;
    }
    int sum() const { return sum_; }

private:
    std::mutex guard_;
    std::condition_variable changed_;
    std::queue<int> tasks_;
    int sum_ = 0;
};

Pool pool;

void *worker(void *unused) {
    while (pool.run_one()) {
    }
    return unused;
}
} // namespace

int main() {
    for (int i = 1; i <= ROUNDS; i++) {
        pool.submit(i);
    }
    pool.submit(0);
    pool.submit(0);
    BOTH(worker, worker);
    return RESULT(pool.sum() == ROUNDS * (ROUNDS + 1) / 2);
}
