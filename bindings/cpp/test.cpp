// test [NAME..] [-NAME..]: what velodrome.hpp promises, a case each; those of these names, or all
// but these. Each ends by itself, with its verdict; tools/bindings.sh gives it a minute.
#include "velodrome.hpp"
#include <cstdio>
#include <cstdlib>
#include <cstring>
#include <fstream>
#include <functional>
#include <future>
#include <iostream>
#include <memory>
#include <optional>
#include <sstream>
#include <stdexcept>
#include <sys/stat.h>
#include <sys/wait.h>
#include <unistd.h>
#include <vector>
#if __has_include(<coroutine>) && defined(__cpp_impl_coroutine)
#include <coroutine>
#endif
using namespace velodrome;

// ---- a small harness

struct test_case {
    const char *name;
    void (*run)();
};
static std::vector<test_case> &cases() {
    static std::vector<test_case> all;
    return all;
}
static int failures = 0;
static void expect(bool holds, const char *what, int line) {
    if (holds)
        return;
    std::cout << "    line " << line << ": " << what << std::endl;
    failures++;
}
#define EXPECT(x) expect(static_cast<bool>(x), #x, __LINE__)
#define TEST(name)                                                                                 \
    static void name();                                                                            \
    static const bool name##_is_there = (cases().push_back({#name, name}), true);                  \
    static void name()

static options limited_to(std::uint32_t events) {
    options o;
    o.events = events;
    return o;
}
static bool clean(session &s) {
    const result r = s.close();
    if (!r)
        std::cout << r.words;
    return r.what == verdict::clean;
}
static bool has(const std::string &text, const char *part) {
    return text.find(part) != std::string::npos;
}
template <class F> static void apart(F f) {
    std::thread(std::move(f)).join();
} // a thread that nobody told of

// Between the read and the write of a block, `f` runs in another thread.
template <class F> static void add_around(var<int> &x, F f) {
    VELODROME_ATOMIC("add");
    const int before = x;
    apart(std::move(f));
    x = before + 1;
}

// ---- who is who

TEST(a_lost_update_is_an_alarm) {
    session s;
    var<int> x VELODROME_VALUE(0, "x");
    add_around(x, [&] { x = 5; });
    const result r = s.close();
    EXPECT(r.what == verdict::alarm && r.fails);
    EXPECT(has(r.words, "not atomic: add (test.cpp:"));
    EXPECT(has(r.words, "reads x") && has(r.words, "writes x"));
}
TEST(another_variable_is_none) {
    session s;
    var<int> x, y;
    add_around(x, [&] { y = 5; });
    EXPECT(clean(s));
}
TEST(a_thread_of_another_session_is_itself) { // the writer is the first thread of session a; the
                                              // alarm is that of b
    for (bool ours : {true, false}) {
        std::optional<session> a(std::in_place);
        var<int> own, x VELODROME_VALUE(0, "x");
        own = 1; // it is a's
        std::optional<session> b(std::in_place);
        x = 0; // it is b's
        std::atomic<int> step{0};
        velodrome::thread victim([&] {
            VELODROME_ATOMIC("inc");
            const int v = x;
            step = 1;
            while (step < 2)
                std::this_thread::yield();
            x = v + 1;
        });
        while (step < 1)
            std::this_thread::yield();
        const vs_session mine = vs_current();
        vs_enter(ours ? b->native_handle() : a->native_handle());
        velodrome::thread([&] { x = 5; }).join();
        vs_enter(mine);
        step = 2;
        victim.join();
        EXPECT(b->close().what == verdict::alarm);
        const result ra = a->close();
        EXPECT(ours ? ra.what == verdict::clean
                    : ra.what == verdict::incomplete && has(ra.words, "another session uses x"));
    }
}
TEST(threads_of_two_sessions_have_their_own_numbers) {
    session a;
    var<int> own, x VELODROME_VALUE(0, "x");
    own = 1;
    session b;
    std::atomic<int> step{0};
    velodrome::thread one([&] {
        x = 1;
        step = 1;
        while (step < 2)
            std::this_thread::yield();
    });
    while (step < 1)
        std::this_thread::yield();
    apart([&] { x = 2; });
    step = 2;
    one.join();
    EXPECT(b.save("numbers.vlog"));
    std::ifstream log("numbers.vlog");
    std::stringstream text;
    text << log.rdbuf();
    EXPECT(has(text.str(), "\n2 wr 0 ") && has(text.str(), "\n3 wr 0 "));
    std::remove("numbers.vlog");
    std::remove("numbers.vlog.names");
    std::remove("numbers.vlog.sites");
    EXPECT(clean(b));
    EXPECT(clean(a));
}
TEST(a_thread_that_opens_a_session_stays_who_it_is) {
    session s;
    velodrome::mutex m;
    var<int> x;
    velodrome::thread([&] {
        std::lock_guard hold(m);
        x = 1;
        {
            session mine;
            var<int> y;
            y = 1;
            EXPECT(clean(mine));
        }
        x = 2;
    }).join();
    EXPECT(clean(s));
}
struct account {
    velodrome::mutex lock VELODROME_NAMED("account::lock");
    var<int> balance VELODROME_VALUE(0, "account::balance");
};
TEST(two_objects_of_one_name_are_two) {
    session s;
    account a, b;
    { std::scoped_lock both(a.lock, b.lock); }
    {
        VELODROME_ATOMIC("t");
        (void)a.balance.load();
        apart([&] { b.balance = 1; });
        (void)a.balance.load();
    }
    EXPECT(s.save("instances.vlog"));
    std::ifstream names("instances.vlog.names");
    std::stringstream text;
    text << names.rdbuf();
    EXPECT(has(text.str(), "variable 0 account::balance\nvariable 1 account::balance #2\n"));
    EXPECT(has(text.str(), "lock 0 account::lock\nlock 1 account::lock #2\n"));
    std::remove("instances.vlog");
    std::remove("instances.vlog.names");
    std::remove("instances.vlog.sites");
    EXPECT(clean(s));
}
TEST(more_objects_than_numbers) { // variable 65,536 is not variable 0
    session s;
    std::vector<std::unique_ptr<var<int>>> all;
    for (int i = 0; i < 70000; i++) {
        all.push_back(std::make_unique<var<int>>(0));
        (void)all.back()->load();
    }
    {
        VELODROME_ATOMIC("b");
        (void)all[0]->load();
        apart([&] { *all[65536] = 1; });
        (void)all[0]->load();
    }
    EXPECT(clean(s));
}
TEST(a_thread_met_in_a_block_is_no_child_of_it) {
    session s;
    var<int> x, y;
    std::promise<void> start, done;
    std::thread pool([&] { // it lives when the block begins, and is met in it
        start.get_future().wait();
        y = 1;
        done.set_value();
    });
    {
        VELODROME_ATOMIC("b");
        x = 1;
        start.set_value();
        done.get_future().wait();
        (void)y.load();
    }
    pool.join();
    EXPECT(clean(s));
}
TEST(a_copy_is_another_variable) {
    session s;
    var<int> x(3), y(x);
    add_around(x, [&] { y = 5; });
    EXPECT(x == 4 && y == 5);
    y = x;
    EXPECT(y == 4);
    EXPECT(clean(s));
}
TEST(objects_outlive_sessions) {
    static var<int> x;
    static velodrome::mutex m;
    for (int i = 0; i < 3; i++) {
        session s;
        std::lock_guard hold(m);
        x += 1;
        EXPECT(clean(s));
        x += 1;
    }
    EXPECT(x.unwatched() == 6);
}
TEST(a_pool_goes_from_session_to_session) { // its thread and the variables are older than each of
                                            // them
    static var<int> x, y;
    std::atomic<int> step{0};
    auto go_to = [&](int n) {
        step = n;
        while (step == n)
            std::this_thread::yield();
    };
    std::thread pool([&] {
        for (int i = 0; i < 3; i++) {
            while (step != 1)
                std::this_thread::yield();
            VELODROME_ATOMIC("pool");
            x = i;
            go_to(2);
            (void)y.load();
            step = 0;
        }
    });
    for (int i = 0; i < 3; i++) {
        session s;
        go_to(1);
        VELODROME_ATOMIC("main");
        (void)x.load();
        y = 1;
        go_to(3);
        EXPECT(s.close().what == verdict::alarm);
    }
    pool.join();
}
TEST(held_before_the_session_and_released_in_it) {
    velodrome::mutex m;
    m.lock();
    session s;
    m.unlock();
    m.lock();
    EXPECT(clean(s));
    m.unlock();
}
TEST(a_block_begun_before_the_session_counts_from_there) {
    var<int> x;
    VELODROME_ATOMIC("outer");
    session s;
    add_around(x, [&] { x = 1; });
    EXPECT(s.close().what == verdict::alarm);
}

// ---- nothing fails the program

TEST(a_block_that_is_too_long) {
    session s(limited_to(40));
    velodrome::mutex m;
    var<int> x;
    {
        VELODROME_ATOMIC("long");
        std::lock_guard hold(m);
        for (int i = 0; i < 1000; i++)
            x += 1;
    }
    EXPECT(x.unwatched() == 1000);
    EXPECT(m.try_lock());
    m.unlock();
    const result r = s.close();
    EXPECT(r.what == verdict::incomplete && !r.fails &&
           has(r.words, "too many events while a block was open"));
}
TEST(locks_work_where_nothing_is_told) {
    session s(limited_to(1));
    velodrome::mutex m;
    var<int> x;
    VELODROME_ATOMIC("b");
    for (int i = 0; i < 3; i++) {
        m.lock();
        x = 7;
        m.unlock();
    }
    EXPECT(x.unwatched() == 7);
    EXPECT(s.so_far() == verdict::incomplete);
}
TEST(an_alarm_stays) {
    session s(limited_to(60));
    var<int> x;
    add_around(x, [&] { x = 5; });
    {
        VELODROME_ATOMIC("long");
        for (int i = 0; i < 1000; i++)
            x += 1;
    }
    EXPECT(s.so_far() == verdict::alarm);
    EXPECT(s.close().what == verdict::alarm);
}
TEST(exceptions_and_returns) {
    session s;
    velodrome::mutex m;
    var<int> x;
    auto f = [&](int i) {
        VELODROME_ATOMIC("b");
        std::lock_guard hold(m);
        if (i)
            return;
        x = 1;
        throw std::runtime_error("mine");
    };
    bool mine = false;
    try {
        f(0);
    } catch (const std::runtime_error &) {
        mine = true;
    }
    f(1);
    EXPECT(mine && m.try_lock());
    m.unlock();
    EXPECT(clean(s));
}
TEST(a_thread_that_could_not_be_started) {
    session s;
    struct no_copy {
        no_copy() = default;
        no_copy(const no_copy &) { throw std::runtime_error("no"); }
        void operator()() const {}
    } f;
    bool thrown = false;
    try {
        velodrome::thread t(f);
    } catch (const std::runtime_error &) {
        thrown = true;
    }
    EXPECT(thrown);
    EXPECT(clean(s));
}
TEST(a_thread_full_of_events_ends) {
    session s(limited_to(8));
    var<int> x;
    velodrome::thread([&] {
        VELODROME_ATOMIC("b");
        for (int i = 0; i < 100; i++)
            x += 1;
    }).join();
    EXPECT(x.unwatched() == 100);
    EXPECT(s.close().what == verdict::incomplete);
}
TEST(a_thread_ends_in_a_block) { // by its object; a scope cannot
    session s;
    var<int> x;
    velodrome::thread([&] {
        static vs_object label{0, "b", 0};
        vs_begin(&label);
        x = 1;
    }).join();
    x = 2;
    EXPECT(clean(s));
}
TEST(ends_without_blocks) {
    session s;
    vs_end();
    var<int> x;
    x = 1;
    vs_end();
    EXPECT(clean(s));
}
TEST(thread_locals_act_after_the_body) {
    session s;
    static var<int> x;
    struct last {
        ~last() { x += 1; }
    };
    velodrome::thread([&] {
        static thread_local last l;
        (void)&l;
        x += 1;
    }).join();
    EXPECT(x == 2);
    EXPECT(clean(s));
}
static var<int> *late;
struct at_exit {
    ~at_exit() {
        if (late)
            *late = 1;
    }
} at_exit_; // made before the session, so it goes after it
TEST(statics_in_any_order) {
    static session s;
    static var<int> x;
    late = &x;
    x = 0;
}
struct nosy {
    var<int> *x = nullptr;
    nosy() = default;
    nosy(var<int> *p) : x(p) {}
    nosy(const nosy &o) : x(o.x) {
        if (x)
            (void)x->load();
    }
    nosy &operator=(const nosy &) = default;
    ~nosy() {
        if (x)
            (void)x->load();
    }
};
TEST(accesses_within_accesses) {
    session s;
    var<int> x;
    var<nosy> y(nosy(&x), named{"y"});
    (void)y.load();
    y.store(nosy(&x));
    y.with([&](const nosy &n) { return n.x->load(); });
    EXPECT(clean(s));
}
TEST(sessions_within_accesses) {
    session s;
    var<int> x;
    x.with_mut([&](int &v) {
        session t;
        var<int> y;
        y = 1;
        EXPECT(clean(t));
        v = 1;
    });
    x.with_mut([&](int &) { EXPECT(clean(s)); });
    x = 2;
}
TEST(children_of_fork) { // while another thread is in a call
    session s;
    var<int> x;
    std::atomic<bool> stop{false};
    velodrome::thread t([&] {
        while (!stop)
            (void)x.load();
    });
    int hung = 0;
    for (int i = 0; i < 20; i++) {
        const pid_t child = fork();
        if (!child) {
            ::alarm(5);
            x = 1; // there is no session here
            session mine;
            var<int> y;
            y = 1;
            _exit(mine.close().what == verdict::clean ? 0 : 1);
        }
        int status = 0;
        waitpid(child, &status, 0);
        hung += status != 0;
    }
    stop = true;
    t.join();
    EXPECT(hung == 0);
    EXPECT(clean(s));
}
TEST(a_fork_within_an_access) {
    session s;
    var<int> x;
    int status = 1;
    x.with_mut([&](int &) {
        const pid_t child = fork();
        if (!child)
            return;
        waitpid(child, &status, 0);
    });
    if (vs_current() == 0)
        _exit(0); // the child, whose access has ended
    EXPECT(status == 0);
    EXPECT(clean(s));
}

// ---- no limit of the program

TEST(a_long_run) { // 7,000 events through a log of 40
    session s(limited_to(40));
    velodrome::mutex m;
    var<int> x;
    for (int i = 0; i < 1000; i++) {
        VELODROME_ATOMIC("inc");
        std::lock_guard hold(m);
        x += 1;
    }
    EXPECT(x.unwatched() == 1000);
    EXPECT(clean(s));
}
TEST(a_long_run_with_locks_held_throughout) {
    session s(limited_to(40));
    velodrome::mutex m VELODROME_NAMED("m");
    velodrome::recursive_mutex r VELODROME_NAMED("r");
    velodrome::shared_mutex w VELODROME_NAMED("w");
    var<int> x;
    std::unique_lock a(m);
    std::unique_lock b(r), c(r);
    std::shared_lock d(w);
    for (int i = 0; i < 1000; i++) {
        VELODROME_ATOMIC("inc");
        x += 1;
    }
    std::thread([&] { std::shared_lock e(w); }).join();
    a.unlock();
    b.unlock();
    for (int i = 0; i < 100; i++)
        x += 1;
    c.unlock();
    d.unlock();
    std::thread([&] { std::scoped_lock all(m, r, w); }).join();
    EXPECT(clean(s));
}
TEST(an_alarm_after_cuts) {
    session s(limited_to(40));
    var<int> x;
    for (int i = 0; i < 1000; i++)
        x = i;
    add_around(x, [&] { x = 5; });
    EXPECT(s.close().what == verdict::alarm);
}
TEST(an_alarm_through_a_lock_that_was_held_across_a_cut) {
    session s(limited_to(40));
    velodrome::mutex m VELODROME_NAMED("m");
    var<int> x, y;
    m.lock();
    for (int i = 0; i < 100; i++)
        y = i;
    {
        VELODROME_ATOMIC("b");
        x = 1;
        m.unlock();
        apart([&] {
            std::lock_guard hold(m);
            (void)y.load();
        });
        m.lock();
    }
    m.unlock();
    EXPECT(s.close().what == verdict::alarm);
}
TEST(hundreds_of_threads) {
    session s;
    var<int> x;
    for (int i = 0; i < 300; i++)
        velodrome::thread([&] { x += 1; }).join();
    for (int i = 0; i < 300; i++)
        apart([&] { x += 1; });
    EXPECT(x.unwatched() == 600);
    EXPECT(clean(s));
}
TEST(more_threads_in_a_block_than_can_be_told) {
    session s;
    var<int> x;
    {
        VELODROME_ATOMIC("b");
        x = 1;
        for (int i = 0; i < 80; i++)
            apart([&] {
                var<int> y;
                y = 1;
            });
    }
    const result r = s.close();
    EXPECT(r.what == verdict::incomplete && has(r.words, "more than 63 threads"));
}
TEST(many_labels) {
    session s;
    var<int> x;
    std::vector<std::string> names;
    for (int i = 0; i < 65536; i++)
        names.push_back("method " + std::to_string(i));
    for (const std::string &n : names) {
        vs_object label{0, n.c_str(), 0};
        atomic_block b(label);
        (void)x.load();
    }
    EXPECT(clean(s));
}
TEST(deep_blocks) {
    session s;
    var<int> x;
    std::function<void(int)> f = [&](int n) {
        VELODROME_ATOMIC("f");
        x = n;
        if (n)
            f(n - 1);
    };
    f(100);
    EXPECT(clean(s));
}
TEST(thousands_of_sessions) {
    for (int i = 0; i < 2000; i++) {
        session s;
        var<int> x;
        x = 1;
        if (!clean(s))
            EXPECT(!"clean");
    }
}
TEST(more_sessions_than_there_is_room) {
    std::vector<std::unique_ptr<session>> all;
    for (int i = 0; i < 300; i++)
        all.push_back(std::make_unique<session>());
    var<int> x;
    x = 1;
    EXPECT(all[299]->native_handle() == 0 && all[299]->close().what == verdict::incomplete);
    while (!all.empty())
        all.pop_back();
}

// ---- std's interface

TEST(std_async) {
    session s;
    velodrome::mutex m;
    var<int> x;
    std::vector<std::future<void>> all;
    for (int i = 0; i < 8; i++)
        all.push_back(std::async(std::launch::async, [&] {
            for (int k = 0; k < 50; k++) {
                VELODROME_ATOMIC("inc");
                std::lock_guard hold(m);
                x += 1;
            }
        }));
    for (auto &f : all)
        f.get();
    EXPECT(x.unwatched() == 400);
    EXPECT(clean(s));
}
TEST(mutexes) {
    static velodrome::mutex m;
    session s;
    {
        std::unique_lock a(m, std::defer_lock);
        EXPECT(a.try_lock());
        apart([&] { EXPECT(!m.try_lock()); });
    }
    velodrome::recursive_mutex r;
    {
        std::lock_guard a(r), b(r);
        EXPECT(r.try_lock());
        r.unlock();
    }
    apart([&] { std::lock_guard a(r); });
    EXPECT(clean(s));
}
TEST(timed_mutexes) { // not under ThreadSanitizer, which does not know of the C library's call
                      // behind them
    session s;
    velodrome::timed_mutex t;
    {
        std::unique_lock a(t, std::chrono::milliseconds(1));
        EXPECT(a.owns_lock());
        apart([&] { EXPECT(!t.try_lock_for(std::chrono::milliseconds(1))); });
    }
    velodrome::recursive_timed_mutex q;
    EXPECT(q.try_lock_until(std::chrono::steady_clock::now()));
    q.unlock();
    velodrome::shared_timed_mutex u;
    EXPECT(u.try_lock_shared_for(std::chrono::milliseconds(1)));
    u.unlock_shared();
    EXPECT(clean(s));
}
TEST(shared_mutexes) {
    session s;
    velodrome::shared_mutex m;
    var<int> x;
    std::shared_lock a(m);
    velodrome::thread([&] {
        std::shared_lock b(m);
        (void)x.load();
    }).join();
    apart([&] { EXPECT(!m.try_lock()); });
    a.unlock();
    std::unique_lock c(m, std::try_to_lock);
    EXPECT(c.owns_lock());
    EXPECT(clean(s));
}
TEST(the_outermost_share_counts) {
    session s;
    velodrome::shared_mutex m;
    var<int> x;
    m.lock_shared();
    m.lock_shared();
    x = 1;
    m.unlock_shared();
    x = 2;
    m.unlock_shared();
    EXPECT(s.save("shares.vlog"));
    std::ifstream log("shares.vlog");
    std::stringstream text;
    text << log.rdbuf();
    EXPECT(has(text.str(), "1 acqs 0\n1 wr 0 0\n1 wr 0 0\n1 rels 0\n"));
    std::remove("shares.vlog");
    std::remove("shares.vlog.names");
    std::remove("shares.vlog.sites");
    EXPECT(clean(s));
}
TEST(shares_guard_writers) { // an alarm: between two shares of one block another thread writes
    session s;
    velodrome::shared_mutex m;
    var<int> x;
    {
        VELODROME_ATOMIC("twice");
        for (int i = 0; i < 2; i++) {
            std::shared_lock a(m);
            (void)x.load();
            a.unlock();
            if (!i)
                apart([&] {
                    std::unique_lock b(m);
                    x = 1;
                });
        }
    }
    EXPECT(s.close().what == verdict::alarm);
}
template <class Condition> static void wait_with() {
    session s(limited_to(100));
    velodrome::mutex m;
    Condition c;
    var<bool> go(false);
    velodrome::thread t([&] {
        std::unique_lock hold(m);
        c.wait(hold, [&] { return go.load(); });
        EXPECT(c.wait_for(hold, std::chrono::milliseconds(1)) == std::cv_status::timeout);
        EXPECT(!c.wait_for(hold, std::chrono::milliseconds(1), [] { return false; }));
        EXPECT(hold.owns_lock());
    });
    {
        std::lock_guard hold(m);
        go = true;
    }
    c.notify_all();
    t.join();
    EXPECT(m.try_lock());
    m.unlock();
    EXPECT(clean(s));
}
TEST(condition_variables) {
    wait_with<velodrome::condition_variable>();
    wait_with<velodrome::condition_variable_any>();
}
TEST(a_wait_in_a_block_is_an_alarm) { // by the definition: others act between its release and its
                                      // acquire
    session s;
    velodrome::mutex m;
    velodrome::condition_variable c;
    var<bool> go(false);
    std::atomic<bool> inside{false};
    velodrome::thread t([&] {
        std::unique_lock hold(m);
        VELODROME_ATOMIC("waits");
        while (!go) {
            inside = true;
            c.wait(hold);
        }
    });
    while (!inside)
        std::this_thread::yield();
    {
        std::lock_guard hold(m); // so it waits
        go = true;
    }
    c.notify_all();
    t.join();
    const result r = s.close();
    EXPECT(r.what == verdict::alarm && has(r.words, "not atomic: waits"));
}
TEST(a_fork_and_a_join_in_a_block_are_an_alarm) { // by the definition: such a block never runs
                                                  // without a break
    session s;
    VELODROME_ATOMIC("parallel");
    velodrome::thread([] {}).join();
    EXPECT(s.close().what == verdict::alarm);
}
TEST(atomics) {
    static velodrome::atomic<int> x VELODROME_VALUE(0, "x");
    session s;
    x++;
    ++x;
    x += 3;
    x -= 1;
    EXPECT(x.fetch_add(6) == 4 && x == 10 && x.exchange(3) == 10);
    EXPECT((x |= 4) == 7 && (x &= 6) == 6 && (x ^= 1) == 7 && x-- == 7 && --x == 5);
    int wrong = 9;
    EXPECT(!x.compare_exchange_strong(wrong, 1) && wrong == 5);
    while (
        !x.compare_exchange_weak(wrong, 1, std::memory_order_acq_rel, std::memory_order_relaxed)) {
    }
    EXPECT(x.load(std::memory_order_relaxed) == 1);
    velodrome::atomic<int *> p(nullptr);
    int two[2];
    p = two;
    EXPECT(++p == two + 1);
    EXPECT(clean(s));
}
#ifdef __cpp_lib_atomic_wait
TEST(atomics_that_are_waited_for) { // the wait is a read: between it and the write of the same
                                    // block another thread writes
    session s;
    velodrome::atomic<int> x(0);
    velodrome::thread t([&] {
        x = 1;
        x.notify_all();
    });
    {
        VELODROME_ATOMIC("waits");
        x.wait(0);
        apart([&] { x = 2; });
        x = 3;
    }
    t.join();
    EXPECT(x == 3 && s.close().what == verdict::alarm);
    x.notify_one();
}
#endif
TEST(native_handles) {
    velodrome::mutex m;
    velodrome::recursive_mutex r;
    velodrome::timed_mutex t;
    velodrome::shared_mutex u;
    velodrome::condition_variable c;
    EXPECT(m.native_handle() && r.native_handle() && t.native_handle() && u.native_handle() &&
           c.native_handle());
}
TEST(a_compare_exchange_that_fails_reads) {
    for (int value : {0, 1}) {
        session s;
        velodrome::atomic<int> x(value);
        {
            VELODROME_ATOMIC("b");
            (void)x.load();
            apart([&] {
                int zero = 0;
                x.compare_exchange_strong(zero, 5);
            });
            (void)x.load();
        }
        EXPECT(s.close().what == (value ? verdict::clean : verdict::alarm));
    }
}
TEST(threads) {
    session s;
    int r = 0;
    velodrome::thread t([&r](std::unique_ptr<int> p, int k) { r = *p + k; },
                        std::make_unique<int>(3), 4);
    EXPECT(t.joinable());
    velodrome::thread u = std::move(t);
    swap(t, u);
    t.join();
    EXPECT(r == 7 && !t.joinable() && t.get_id() == std::thread::id());
    struct counter {
        int n = 0;
        void add(int k) { n += k; }
    } c;
    velodrome::thread(&counter::add, &c, 5).join();
    EXPECT(c.n == 5);
    std::promise<void> done;
    velodrome::thread([&] { done.set_value(); }).detach();
    done.get_future().wait();
    EXPECT(clean(s));
}
#ifdef __cpp_lib_jthread
TEST(jthreads) {
    session s;
    var<int> x;
    {
        velodrome::jthread a([&](std::stop_token stop) {
            while (!stop.stop_requested())
                std::this_thread::yield();
            x = 1;
        });
        velodrome::jthread b([&](int n) { EXPECT(n == 3); }, 3);
        a = std::move(b);
    }
    x = 2;
    EXPECT(clean(s));
}
#endif

TEST(std_lock_is_one_acquire) { // where it backs off, its tries are no events of the block
    session s;
    velodrome::mutex a, b;
    var<int> x;
    std::atomic<bool> held{false};
    velodrome::thread t([&] {
        std::unique_lock second(b);
        held = true;
        std::this_thread::sleep_for(std::chrono::milliseconds(20));
        { std::lock_guard first(a); }
        x = 1;
    });
    while (!held)
        std::this_thread::yield();
    {
        VELODROME_ATOMIC("both");
        std::scoped_lock both(a, b);
        x += 1;
    }
    t.join();
    EXPECT(clean(s));
}
TEST(locks_of_the_programs_own) {
    struct spin {
        void lock() {
            while (taken.test_and_set())
                std::this_thread::yield();
        }
        void unlock() { taken.clear(); }
        std::atomic_flag taken = ATOMIC_FLAG_INIT;
    };
    session s;
    watched<spin> lock VELODROME_NAMED("spin");
    var<int> x;
    auto add = [&] {
        for (int i = 0; i < 20; i++) {
            VELODROME_ATOMIC("add");
            std::lock_guard hold(lock);
            x += 1;
        }
    };
    velodrome::thread one(add), two(add);
    one.join();
    two.join();
    EXPECT(x == 40 && clean(s));
}
struct named_account {
    std::string owner;
    var<long> balance;
    explicit named_account(std::string o)
        : owner(std::move(o)), balance(0, velodrome::named{owner.c_str()}) {}
};
TEST(copies_outlive_the_names_of_the_first) { // as in a vector that grows
    std::vector<named_account> all;
    for (int i = 0; i < 3; i++)
        all.emplace_back("the account of customer number " + std::to_string(i));
    session s;
    for (named_account &a : all)
        a.balance = 1;
    EXPECT(s.save("copies.vlog"));
    std::ifstream names("copies.vlog.names");
    std::stringstream text;
    text << names.rdbuf();
    EXPECT(text.str() == "variable 0 the account of customer number 0\nvariable 1 the account of "
                         "customer number 1\nvariable 2 the account of customer number 2\n");
    for (const char *suffix : {"", ".names", ".sites"})
        std::remove((std::string("copies.vlog") + suffix).c_str());
    EXPECT(clean(s));
}
struct copy_that_waits { // for another thread, as for a lock that it holds
    copy_that_waits() = default;
    copy_that_waits(const copy_that_waits &) {
        asked = true;
        for (int i = 0; i < 5000 && !go; i++)
            std::this_thread::sleep_for(std::chrono::milliseconds(1));
        came = go.load();
    }
    copy_that_waits &operator=(const copy_that_waits &) = default;
    static inline std::atomic<bool> asked{false}, go{false}, came{false};
};
TEST(a_copy_may_wait_for_another_thread) {
    session s;
    var<copy_that_waits> x;
    var<int> y;
    velodrome::thread t([&] {
        while (!copy_that_waits::asked)
            std::this_thread::yield();
        y = 1;
        copy_that_waits::go = true;
    });
    (void)x.load();
    t.join();
    EXPECT(copy_that_waits::came && clean(s));
}
TEST(values_that_only_move) {
    struct holder {
        var<std::unique_ptr<int>> p;
    };
    session s;
    std::vector<holder> all;
    for (int i = 0; i < 5; i++) {
        holder h;
        h.p.store(std::make_unique<int>(i));
        all.push_back(std::move(h));
    }
    EXPECT(all[3].p.with([](const auto &p) { return *p; }) == 3);
    static_assert(!std::is_copy_constructible_v<var<std::unique_ptr<int>>> &&
                  std::is_nothrow_move_constructible_v<holder> &&
                  std::is_copy_constructible_v<var<int>>);
    static_assert(!std::is_convertible_v<velodrome::named, velodrome::mutex>);
    static_assert(noexcept(std::declval<velodrome::mutex &>().try_lock()) ==
                  noexcept(std::declval<std::mutex &>().try_lock()));
    EXPECT(clean(s));
}
TEST(what_is_left_out_makes_no_alarm) {
    session s;
    EXPECT(s.ignore_variable("count*") && s.ignore_label("none") && s.ignore_lock("none"));
    var<int> x VELODROME_VALUE(0, "counter"), y VELODROME_VALUE(0, "y");
    add_around(x, [&] { x = 5; });
    EXPECT(s.so_far() == verdict::clean);
    add_around(y, [&] { y = 5; });
    EXPECT(s.close().what == verdict::alarm);
}

// ---- blocks of coroutines

#ifdef __cpp_lib_coroutine
struct task {
    struct promise_type {
        task get_return_object() {
            return {std::coroutine_handle<promise_type>::from_promise(*this)};
        }
        std::suspend_never initial_suspend() noexcept { return {}; }
        std::suspend_always final_suspend() noexcept { return {}; }
        void return_void() {}
        void unhandled_exception() {}
    };
    std::coroutine_handle<promise_type> handle;
};
static task write_twice(var<int> &y) {
    VELODROME_ATOMIC("work");
    y.store(1);
    co_await std::suspend_always{};
    y.store(2);
}
static task wait_once() {
    VELODROME_ATOMIC("work");
    co_await std::suspend_always{};
}
TEST(
    a_coroutine_that_another_thread_resumes) { // its block is over then, and its session incomplete
    session s;
    var<int> x, y;
    task t = write_twice(y);
    apart([&] { t.handle.resume(); });
    const int before = x;
    apart([&] { x = 5; });
    x = before + 1;
    const result r = s.close();
    EXPECT(r.what == verdict::incomplete && has(r.words, "ended by another thread"));
    t.handle.destroy();
}
TEST(a_coroutine_within_a_block_of_another_thread) { // whose block goes on
    session s;
    var<int> x;
    task t = wait_once();
    apart([&] {
        VELODROME_ATOMIC("update");
        const int before = x;
        t.handle.resume();
        apart([&] { x = 5; });
        x = before + 1;
    });
    const result r = s.close();
    EXPECT(r.what == verdict::alarm && has(r.words, "not atomic: update"));
    t.handle.destroy();
}
TEST(a_coroutine_that_its_threads_act_as) { // its block is its own, wherever it is resumed
    for (bool lost : {false, true}) {
        session s;
        var<int> y;
        actor who;
        task t = [&] {
            acting as(who);
            return write_twice(y);
        }();
        if (lost)
            (void)y.load();
        else
            (void)s.so_far();
        apart([&] {
            acting as(who);
            t.handle.resume();
        });
        if (lost)
            EXPECT(s.close().what == verdict::alarm);
        else
            EXPECT(clean(s));
        t.handle.destroy();
    }
}
#endif

// ---- what is told of an alarm

TEST(the_hook_gets_both_sides) {
    collision found;
    int calls = 0;
    options o;
    o.on_alarm = [&](const collision &a) {
        found = a;
        calls++;
        throw std::runtime_error("lost");
    };
    session s(o);
    var<int> x VELODROME_VALUE(0, "balance");
    const int line = __LINE__;
    {
        VELODROME_ATOMIC("transfer");
        const int before = x.load();
        apart([&] { x.store(5); });
        x.store(before + 1);
    }
    EXPECT(calls == 1);
    EXPECT(found.first.event == "writes balance" &&
           found.first.place == "test.cpp:" + std::to_string(line + 4) &&
           found.first.block.empty());
    EXPECT(found.second.event == "writes balance" &&
           found.second.place == "test.cpp:" + std::to_string(line + 5));
    EXPECT(found.second.block == "transfer (test.cpp:" + std::to_string(line + 2) + ")");
    EXPECT(found.first.thread != found.second.thread);
    const result r = s.close();
    EXPECT(r.words == found.report &&
           has(r.words, ("reads balance at test.cpp:" + std::to_string(line + 3)).c_str()));
}
TEST(objects_without_a_name_have_their_place) {
    session s;
    const int line = __LINE__;
    var<int> x;
    add_around(x, [&] { x = 5; });
    EXPECT(
        has(s.close().words, ("writes variable at test.cpp:" + std::to_string(line + 1)).c_str()));
}
TEST(calls_of_locks_have_their_place) { // those of a guard stand in the library, and have none
    session s;
    mutex m VELODROME_NAMED("m");
    const int line = __LINE__;
    {
        VELODROME_ATOMIC("two holds");
        m.lock();
        m.unlock();
        apart([&] { std::lock_guard hold(m); });
        m.lock();
        m.unlock();
    }
    const std::string words = s.close().words;
    EXPECT(has(words, ("releases m at test.cpp:" + std::to_string(line + 4)).c_str()));
    EXPECT(has(words, ("acquires m at test.cpp:" + std::to_string(line + 6)).c_str()));
    EXPECT(has(words, "acquires m)") && !has(words, ".h:"));
}
TEST(names_of_any_kind) {
    session s;
    var<int> x VELODROME_VALUE(0, "pay\nlabel 1 refund"), y VELODROME_VALUE(0, "");
    x = 1;
    y = 1;
    std::string long_name(500, 'x'), wide;
    for (int i = 0; i < 300; i++)
        wide += "\xc3\xb6";
    for (const std::string *n : {&long_name, &wide}) {
        vs_object label{0, n->c_str(), 0};
        atomic_block b(label);
        x = 2;
    }
    EXPECT(s.save("names.vlog"));
    std::ifstream names("names.vlog.names");
    std::vector<std::string> lines;
    for (std::string l; std::getline(names, l);)
        lines.push_back(l);
    EXPECT(lines.size() == 4 && lines[0] == "variable 0 pay label 1 refund" &&
           lines[1] == "variable 1 unnamed variable");
    for (const std::string &l : lines)
        EXPECT(l.size() < 200);
    std::remove("names.vlog");
    std::remove("names.vlog.names");
    std::remove("names.vlog.sites");
    EXPECT(clean(s));
}
TEST(the_end_of_a_test) {
    mkdir("kept", 0700);
    setenv("VELODROME_LOGS", "kept", 1);
    const std::string path = "kept/Bank.Deposit";
    for (bool strict : {false, true}) {
        if (!strict)
            setenv("VELODROME_INCOMPLETE", "warn", 1);
        else
            unsetenv("VELODROME_INCOMPLETE");
        session s(limited_to(2));
        var<int> x;
        {
            VELODROME_ATOMIC("b");
            x += 1;
            x += 1;
        }
        const result r = s.finish("Bank/Deposit");
        EXPECT(r.what == verdict::incomplete && r.fails == strict);
        EXPECT(std::ifstream(path + ".vlog").good() == strict);
        if (strict)
            EXPECT(has(
                r.words,
                ("velodrome explain " + path + ".vlog --names " + path + ".vlog.names").c_str()));
    }
    for (const char *suffix : {".vlog", ".vlog.names", ".vlog.sites"})
        std::remove((path + suffix).c_str());
    rmdir("kept");
    unsetenv("VELODROME_LOGS");
    session s;
    var<int> x;
    x = 1;
    const result r = s.finish("clean");
    EXPECT(r && !r.fails && r.words.empty() && !std::ifstream("./clean.vlog").good());
}
TEST(settings_of_the_environment) {
    setenv("VELODROME_NOISE", "4", 1);
    setenv("VELODROME_SEED", "18446744073709551615", 1);
    const options o = options::environment();
    EXPECT(o.noise == 4 && o.seed == ~std::uint64_t{0});
    unsetenv("VELODROME_NOISE");
    unsetenv("VELODROME_SEED");
}
// Two threads, each with one round, as a unit test has it: an update is lost if one comes between
// the two holds of the other.
static bool loses_one(std::uint64_t seed) {
    options o;
    o.noise = 4;
    o.seed = seed;
    session s(o);
    var<int> x;
    velodrome::mutex m;
    auto add = [&] {
        VELODROME_ATOMIC("inc");
        int v;
        {
            std::lock_guard hold(m);
            v = x;
        }
        std::lock_guard hold(m);
        x = v + 1;
    };
    velodrome::thread a(add), b(add);
    a.join();
    b.join();
    return s.close().what == verdict::alarm;
}
TEST(noise_finds_what_is_rare) {
    std::uint64_t run = 1;
    while (run < 20000 && !loses_one(run))
        run++;
    std::cout << "    in run " << run << "\n";
    EXPECT(run < 20000);
}

int main(int count, char **names) {
    for (const test_case &t : cases()) {
        bool asked = count < 2 || names[1][0] == '-';
        for (int i = 1; i < count; i++)
            if (!std::strcmp(names[i] + (names[i][0] == '-'), t.name))
                asked = names[i][0] != '-';
        if (!asked)
            continue;
        const int before = failures;
        std::cout << t.name << std::endl;
        t.run();
        if (failures > before)
            std::cout << "    FAILED" << std::endl;
    }
    std::cout << (failures ? "failed" : "passed") << std::endl;
    return failures != 0;
}
