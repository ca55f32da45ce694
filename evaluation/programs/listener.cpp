/* kind: atomicity
 * source: Lea, "Concurrent Programming in Java", 2nd edition 1999: a listener that is told after
 * it was removed
 * function: notify
 * variable: registered_
 */
#include "scene.h"
#include <mutex>

namespace {
class Subject {
public:
    bool registered() {
        std::lock_guard<std::mutex> hold(guard_);
        return registered_;
    }
    void call() {
        std::lock_guard<std::mutex> hold(guard_);
        called_late_ = called_late_ || !registered_;
    }
    void notify() {
#ifdef REPAIRED
        std::lock_guard<std::mutex> hold(guard_);
        if (registered_) {
            called_late_ = called_late_ || !registered_;
        }
#else
        if (registered()) { // first
            PAUSE();
            call(); // second
        }
#endif
    }
    void set(bool value) {
        std::lock_guard<std::mutex> hold(guard_);
        registered_ = value;
    }
    bool called_late() const {
        return called_late_;
    }

private:
    std::mutex guard_;
    bool registered_ = true;
    bool called_late_ = false;
};

Subject subject;

void *notifier(void *unused) {
    for (int i = 0; i < ROUNDS; i++) {
        subject.notify();
    }
    return unused;
}

void *owner(void *unused) {
    for (int i = 0; i < ROUNDS; i++) {
        PAUSE();
        subject.set(false);
        PAUSE();
        subject.set(true);
    }
    return unused;
}
} // namespace

int main() {
    BOTH(notifier, owner);
    return RESULT(!subject.called_late());
}
