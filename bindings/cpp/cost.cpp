// cost: nanoseconds a round of six events (begin, lock, read, write, unlock, end): by std's mutex,
// by the calls with a lock, watched, in a session that stopped, and without one. The median of
// nine; the processor's time, and the clock's in brackets. Then what it costs to open and close a
// session.
#include "velodrome.hpp"
#include <algorithm>
#include <cstdio>
#include <ctime>
#include <future>
#include <memory>
#include <vector>
extern "C" {
void calls_open(int threads);
void calls_close();
void calls_round(int thread, int object, pthread_mutex_t *lock, int *x);
}

enum way { plain, calls, watched, stopped, alone };
static const char *const words[] = {"std::mutex", "calls with a lock", "watched", "stopped",
                                    "no session"};
static constexpr int rounds = 120000; // fewer events than a log has

struct alignas(128) object {
    std::mutex std_lock;
    volatile int std_x = 0;
    pthread_mutex_t lock_of_calls = PTHREAD_MUTEX_INITIALIZER;
    int x_of_calls = 0;
    velodrome::mutex lock;
    velodrome::var<int> x;
};

static void work(way w, int thread, int which, object &o, int n) {
    if (w == plain)
        for (int i = 0; i < n; i++) {
            std::lock_guard hold(o.std_lock);
            o.std_x = o.std_x + 1;
        }
    else if (w == calls)
        for (int i = 0; i < n; i++)
            calls_round(thread, which, &o.lock_of_calls, &o.x_of_calls);
    else
        for (int i = 0; i < n; i++) {
            VELODROME_ATOMIC("increment");
            std::lock_guard hold(o.lock);
            o.x += 1;
        }
}

static double now(clockid_t clock) {
    timespec t;
    clock_gettime(clock, &t);
    return static_cast<double>(t.tv_sec) * 1e9 + static_cast<double>(t.tv_nsec);
}

static std::pair<double, double> once(way w, int threads, bool same) {
    std::vector<object> objects(static_cast<std::size_t>(threads));
    std::unique_ptr<velodrome::session> session;
    if (w == watched || w == stopped)
        session = std::make_unique<velodrome::session>();
    if (w == stopped)
        vs_stop("for its cost");
    if (w == calls)
        calls_open(threads);
    const double clock = now(CLOCK_MONOTONIC), processor = now(CLOCK_PROCESS_CPUTIME_ID);
    {
        std::vector<velodrome::thread> all;
        auto body = [&](int i) {
            work(w, i, same ? 0 : i, objects[same ? 0 : i], rounds / threads);
        };
        for (int i = 1; i < threads; i++)
            all.emplace_back(body, i);
        body(0);
        for (velodrome::thread &t : all)
            t.join();
    }
    const std::pair spent((now(CLOCK_PROCESS_CPUTIME_ID) - processor) / rounds,
                          (now(CLOCK_MONOTONIC) - clock) / rounds);
    if (w == calls)
        calls_close();
    return spent;
}

// Microseconds of the processor.
static double opened_and_closed() {
    constexpr int sessions = 100;
    const double before = now(CLOCK_PROCESS_CPUTIME_ID);
    for (int i = 0; i < sessions; i++)
        velodrome::session s;
    return (now(CLOCK_PROCESS_CPUTIME_ID) - before) / sessions / 1000;
}

int main() {
    std::promise<void> over; // a program with threads: with one alone the C library's mutex is
                             // cheaper by its atomic operations
    std::thread idle([&] { over.get_future().wait(); });
    for (int threads : {1, 2, 4, 60})
        for (bool same : {true, false}) {
            if ((threads == 1 && !same) || (threads == 60 && same))
                continue;
            std::printf("%d thread%s, %s:", threads, threads > 1 ? "s" : "",
                        same ? "one object" : "own objects");
            for (way w : {plain, calls, watched, stopped, alone}) {
                std::vector<double> processor, clock;
                for (int i = 0; i < 9; i++) {
                    const auto spent = once(w, threads, same);
                    processor.push_back(spent.first);
                    clock.push_back(spent.second);
                }
                std::sort(processor.begin(), processor.end());
                std::sort(clock.begin(), clock.end());
                std::printf(" %s %.0f (%.0f)%s", words[w], processor[4], clock[4],
                            w == alone ? "\n" : ",");
            }
        }
    std::printf("a session, opened and closed: %.0f us\n", opened_and_closed());
    over.set_value();
    idle.join();
}
