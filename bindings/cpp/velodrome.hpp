// velodrome.hpp: std's mutexes, threads and atomics, watched. C++17, header only, over
// velodrome_session.h.
//
//     velodrome::mutex m;
//     velodrome::var<int> balance VELODROME_VALUE(100, "balance");
//     void deposit(int n) { VELODROME_ATOMIC("deposit"); std::lock_guard hold(m); balance += n; }
//
// Each type has the interface of std's type of its name. What goes wrong in the watching is never
// thrown at the program: it is in the session's result. With VELODROME_OFF all are std's own types,
// a var is its value alone, and the macros say nothing.
#ifndef VELODROME_HPP
#define VELODROME_HPP
#ifdef VELODROME_H
#error                                                                                             \
    "velodrome.h has a struct with the name of this header's namespace: include one of them in a file"
#endif
#include <atomic>
#include <chrono>
#include <condition_variable>
#include <cstdint>
#include <functional>
#include <mutex>
#include <shared_mutex>
#include <string>
#include <thread>
#include <tuple>
#include <type_traits>
#include <utility>
#if __has_include(<stop_token>)
#include <stop_token>
#endif

// Files of one program are built with VELODROME_OFF, or without: what they share does not link
// else.
#ifdef VELODROME_OFF
#define VELODROME_KIND_ not_watched
#else
#define VELODROME_KIND_ is_watched
#endif

namespace velodrome {
inline namespace VELODROME_KIND_ {
// A name for people; several objects may have the same.
struct named {
    const char *name;
};
// A mutex of std's: the same in both worlds.
using std::condition_variable_any;
} // namespace VELODROME_KIND_
} // namespace velodrome

#ifdef VELODROME_OFF
#include "velodrome_off.hpp"
#else
#include "velodrome_session.h"

// A block that is meant to be atomic: from here to the end of the scope, however it is left.
#define VELODROME_ATOMIC(name)                                                                     \
    VELODROME_BLOCK_(name, VELODROME_JOIN_(velodrome_label_, __LINE__),                            \
                     VELODROME_JOIN_(velodrome_block_, __LINE__))
// The initializer of an object with a name, where it has no value, and where it has one.
#define VELODROME_NAMED(name)                                                                      \
    {                                                                                              \
        ::velodrome::named {                                                                       \
            name                                                                                   \
        }                                                                                          \
    }
#define VELODROME_VALUE(value, name)                                                               \
    {                                                                                              \
        value, ::velodrome::named {                                                                \
            name                                                                                   \
        }                                                                                          \
    }

#define VELODROME_BLOCK_(name, label, block)                                                       \
    static ::vs_object label{0, name " (" VELODROME_FILE_ ":" VELODROME_TEXT_(__LINE__) ")", 0};   \
    const ::velodrome::atomic_block block(label)
#define VELODROME_JOIN_(a, b) VELODROME_JOINED_(a, b)
#define VELODROME_JOINED_(a, b) a##b
#define VELODROME_TEXT_(x) VELODROME_TEXT_OF_(x)
#define VELODROME_TEXT_OF_(x) #x
#ifdef __FILE_NAME__
#define VELODROME_FILE_ __FILE_NAME__
#else
#define VELODROME_FILE_ __FILE__
#endif

namespace velodrome {
inline namespace VELODROME_KIND_ {

// Where a call stands in the source, as a default argument.
class place {
public:
    static constexpr place here(const char *file = __builtin_FILE(),
                                std::uint32_t line = __builtin_LINE()) noexcept {
        return place{file, line};
    }
    constexpr vs_object object() const noexcept { return vs_object{0, file_, line_}; }
    constexpr vs_place told() const noexcept { return vs_place{file_, 0, line_}; }

private:
    constexpr place(const char *file, std::uint32_t line) noexcept : file_(file), line_(line) {}
    const char *file_;
    std::uint32_t line_;
};

// ---- blocks

// VELODROME_ATOMIC makes one in a scope; it stands nowhere else.
class [[nodiscard]] atomic_block {
public:
    [[nodiscard]] explicit atomic_block(vs_object &label) noexcept
        : block_(vs_idle() ? vs_block{} : vs_begin_block(&label)) {}
    atomic_block(const atomic_block &) = delete;
    atomic_block &operator=(const atomic_block &) = delete;
    ~atomic_block() {
        if (block_.who)
            vs_end_block(block_);
    }
    static void *operator new(std::size_t) = delete;
    static void *operator new[](std::size_t) = delete;

private:
    vs_block block_;
};

// Who acts, where that is no thread: a coroutine that is resumed by one thread or another, a fiber.
// It has blocks of its own.
class actor {
public:
    actor() noexcept : self_(vs_self_new()) {}
    actor(actor &&other) noexcept : self_(std::exchange(other.self_, nullptr)) {}
    actor &operator=(actor &&other) noexcept {
        std::swap(self_, other.self_);
        return *this;
    }
    ~actor() { vs_self_free(self_); }

private:
    friend class acting;
    vs_self *self_;
};

// While it lives, its thread acts as the actor: put one round each resume.
class [[nodiscard]] acting {
public:
    [[nodiscard]] explicit acting(actor &as) noexcept : before_(vs_switch(as.self_)) {}
    acting(const acting &) = delete;
    acting &operator=(const acting &) = delete;
    ~acting() { vs_switch(before_); }

private:
    vs_self *before_;
};

namespace detail {

// The hold in which an access and its event stand.
class access {
public:
    access(vs_object &object, vs_kind kind) noexcept
        : token_(vs_idle() ? 0 : vs_before(&object, kind)) {}
    access(vs_object &object, vs_kind kind, const vs_place *at) noexcept
        : token_(vs_idle() ? 0 : vs_before_at(&object, kind, at)) {}
    access(vs_object &object, vs_kind kind, place at) noexcept : token_(0) {
        if (vs_idle())
            return;
        const vs_place told = at.told();
        token_ = vs_before_at(&object, kind, &told);
    }
    access(const access &) = delete;
    access &operator=(const access &) = delete;
    ~access() {
        if (token_)
            vs_after(token_);
    }

private:
    unsigned token_;
};

inline void tell(vs_object &object, vs_kind kind, const vs_place *at = nullptr) noexcept {
    if (!vs_idle())
        vs_tell_at(&object, kind, at);
}
inline void tell(vs_object &object, vs_kind kind, place at) noexcept {
    if (vs_idle())
        return;
    const vs_place told = at.told();
    vs_tell_at(&object, kind, &told);
}

// A mutex of std's, recorded: an acquire after it was acquired, a release before it is released.
// What std::lock tries and gives back is no event.
template <class M> class lockable {
public:
    constexpr lockable(place at = place::here()) noexcept : object_(at.object()) {}
    constexpr explicit lockable(named n) noexcept : object_{0, n.name, 0} {}
    lockable(const lockable &) = delete;
    lockable &operator=(const lockable &) = delete;

    void lock(place at = place::here()) {
        inner_.lock();
        acquired(VS_ACQUIRE, at);
    }
    [[nodiscard]] bool
    try_lock(place at = place::here()) noexcept(noexcept(std::declval<M &>().try_lock())) {
        return taken(inner_.try_lock(), VS_ACQUIRE, at);
    }
    void unlock(place at = place::here()) noexcept {
        tell(object_, VS_RELEASE, at);
        inner_.unlock();
    }
    template <class U = M> typename U::native_handle_type native_handle() {
        return inner_.native_handle();
    }

protected:
    void acquired(vs_kind kind, place at) noexcept {
        if (vs_idle())
            return;
        const vs_place told = at.told();
        vs_acquired_at(&object_, kind, &told);
    }
    bool taken(bool got, vs_kind kind, place at) noexcept {
        if (got)
            acquired(kind, at);
        else if (!vs_idle())
            vs_try_failed();
        return got;
    }
    M inner_;
    vs_object object_;
};

template <class M> class timed : public lockable<M> {
public:
    using lockable<M>::lockable;
    template <class R, class P>
    [[nodiscard]] bool try_lock_for(const std::chrono::duration<R, P> &time,
                                    place at = place::here()) {
        return this->taken(this->inner_.try_lock_for(time), VS_ACQUIRE, at);
    }
    template <class C, class D>
    [[nodiscard]] bool try_lock_until(const std::chrono::time_point<C, D> &time,
                                      place at = place::here()) {
        return this->taken(this->inner_.try_lock_until(time), VS_ACQUIRE, at);
    }
};

template <class Base> class shared : public Base {
public:
    using Base::Base;
    void lock_shared(place at = place::here()) {
        this->inner_.lock_shared();
        this->acquired(VS_ACQUIRE_SHARED, at);
    }
    [[nodiscard]] bool try_lock_shared(place at = place::here()) noexcept(
        noexcept(std::declval<shared &>().inner_.try_lock_shared())) {
        return this->taken(this->inner_.try_lock_shared(), VS_ACQUIRE_SHARED, at);
    }
    void unlock_shared(place at = place::here()) noexcept {
        tell(this->object_, VS_RELEASE_SHARED, at);
        this->inner_.unlock_shared();
    }
};

} // namespace detail

// ---- locks

class mutex : public detail::lockable<std::mutex> {
public:
    constexpr mutex(place at = place::here()) noexcept : lockable(at) {}
    constexpr explicit mutex(named n) noexcept : lockable(n) {}
    using native_handle_type = std::mutex::native_handle_type;

private:
    friend class condition_variable;
};

// Of these, the outermost hold of a thread is an event.
class recursive_mutex : public detail::lockable<std::recursive_mutex> {
public:
    constexpr recursive_mutex(place at = place::here()) noexcept : lockable(at) {}
    constexpr explicit recursive_mutex(named n) noexcept : lockable(n) {}
    using native_handle_type = std::recursive_mutex::native_handle_type;
};

class timed_mutex : public detail::timed<std::timed_mutex> {
public:
    constexpr timed_mutex(place at = place::here()) noexcept : timed(at) {}
    constexpr explicit timed_mutex(named n) noexcept : timed(n) {}
};

class recursive_timed_mutex : public detail::timed<std::recursive_timed_mutex> {
public:
    constexpr recursive_timed_mutex(place at = place::here()) noexcept : timed(at) {}
    constexpr explicit recursive_timed_mutex(named n) noexcept : timed(n) {}
};

class shared_mutex : public detail::shared<detail::lockable<std::shared_mutex>> {
public:
    constexpr shared_mutex(place at = place::here()) noexcept : shared(at) {}
    constexpr explicit shared_mutex(named n) noexcept : shared(n) {}
    using native_handle_type = std::shared_mutex::native_handle_type;
};

class shared_timed_mutex : public detail::shared<detail::timed<std::shared_timed_mutex>> {
public:
    constexpr shared_timed_mutex(place at = place::here()) noexcept : shared(at) {}
    constexpr explicit shared_timed_mutex(named n) noexcept : shared(n) {}
    template <class R, class P>
    [[nodiscard]] bool try_lock_shared_for(const std::chrono::duration<R, P> &time,
                                           place at = place::here()) {
        return taken(inner_.try_lock_shared_for(time), VS_ACQUIRE_SHARED, at);
    }
    template <class C, class D>
    [[nodiscard]] bool try_lock_shared_until(const std::chrono::time_point<C, D> &time,
                                             place at = place::here()) {
        return taken(inner_.try_lock_shared_until(time), VS_ACQUIRE_SHARED, at);
    }
};

// A lock of the program's own, with lock() and unlock(), and what else of std's it has: its holds
// are recorded, and what it does to come about is not.
template <class M> class watched : public detail::lockable<M> {
public:
    constexpr watched(place at = place::here()) noexcept : detail::lockable<M>(at) {}
    constexpr explicit watched(named n) noexcept : detail::lockable<M>(n) {}
};

// ---- waiting: the mutex is released and acquired again, and both are recorded

class condition_variable {
public:
    condition_variable() = default;
    using native_handle_type = std::condition_variable::native_handle_type;
    native_handle_type native_handle() { return inner_.native_handle(); }
    condition_variable(const condition_variable &) = delete;
    condition_variable &operator=(const condition_variable &) = delete;
    void notify_one() noexcept { inner_.notify_one(); }
    void notify_all() noexcept { inner_.notify_all(); }

    void wait(std::unique_lock<mutex> &lock) {
        waiting w(*lock.mutex());
        inner_.wait(w.inner);
    }
    template <class F> void wait(std::unique_lock<mutex> &lock, F ready) {
        while (!ready())
            wait(lock);
    }
    template <class C, class D>
    std::cv_status wait_until(std::unique_lock<mutex> &lock,
                              const std::chrono::time_point<C, D> &time) {
        waiting w(*lock.mutex());
        return inner_.wait_until(w.inner, time);
    }
    template <class C, class D, class F>
    bool wait_until(std::unique_lock<mutex> &lock, const std::chrono::time_point<C, D> &time,
                    F ready) {
        while (!ready())
            if (wait_until(lock, time) == std::cv_status::timeout)
                return ready();
        return true;
    }
    template <class R, class P>
    std::cv_status wait_for(std::unique_lock<mutex> &lock,
                            const std::chrono::duration<R, P> &time) {
        return wait_until(lock, std::chrono::steady_clock::now() + time);
    }
    template <class R, class P, class F>
    bool wait_for(std::unique_lock<mutex> &lock, const std::chrono::duration<R, P> &time, F ready) {
        return wait_until(lock, std::chrono::steady_clock::now() + time, std::move(ready));
    }

private:
    struct waiting {
        explicit waiting(mutex &m) noexcept : outer(m), inner(m.inner_, std::adopt_lock) {
            detail::tell(outer.object_, VS_RELEASE);
        }
        waiting(const waiting &) = delete;
        waiting &operator=(const waiting &) = delete;
        ~waiting() {
            inner.release();
            detail::tell(outer.object_, VS_ACQUIRE);
        }
        mutex &outer;
        std::unique_lock<std::mutex> inner;
    };
    std::condition_variable inner_;
};

// ---- variables

namespace detail {

// A copy of a value that is no more than bytes is made in the hold of its event. Any other may run
// code of the program, which may wait for a lock of its own, so its event is told first.
template <class T> inline constexpr bool is_copied_in_hold = std::is_trivially_copyable_v<T>;
template <class T>
inline constexpr bool is_swapped_in_hold =
    std::is_trivially_copyable_v<T> || std::is_nothrow_swappable_v<T>;

// The object of a copy: its name may go with the first.
inline vs_object another(const vs_object &o) noexcept {
    return vs_object{0, o.line ? o.name : vs_keep_name(o.name), o.line};
}

// A value and its object. A copy is another variable with the same value.
template <class T> class cell {
public:
    constexpr explicit cell(vs_object object) noexcept(std::is_nothrow_default_constructible_v<T>)
        : value_(), object_(object) {}
    constexpr cell(T value, vs_object object) : value_(std::move(value)), object_(object) {}
    cell(const cell &other) : value_(other.get(nullptr)), object_(another(other.object_)) {}
    cell(cell &&other) noexcept(std::is_nothrow_move_constructible_v<T>)
        : value_(other.taken()), object_(another(other.object_)) {}
    cell &operator=(const cell &other) {
        put(other.get(nullptr), nullptr);
        return *this;
    }
    cell &operator=(cell &&other) {
        put(other.taken(), nullptr);
        return *this;
    }
    ~cell() = default;

protected:
    T get(const vs_place *at) const {
        if constexpr (is_copied_in_hold<T>) {
            access a(object_, VS_READ, at);
            return value_;
        } else {
            tell(object_, VS_READ, at);
            return value_;
        }
    }
    void put(T value, const vs_place *at) { // the old value goes when the hold is over
        using std::swap;
        if constexpr (is_swapped_in_hold<T>) {
            access a(object_, VS_WRITE, at);
            swap(value_, value);
        } else {
            tell(object_, VS_WRITE, at);
            swap(value_, value);
        }
    }
    T taken() noexcept(std::is_nothrow_move_constructible_v<T>) {
        if constexpr (std::is_nothrow_move_constructible_v<T>) {
            access a(object_, VS_WRITE);
            return std::move(value_);
        } else {
            tell(object_, VS_WRITE);
            return std::move(value_);
        }
    }
    T value_;
    mutable vs_object object_;
};

// What can be copied where its value can.
template <bool> struct copying {};
template <> struct copying<false> {
    copying() = default;
    copying(const copying &) = delete;
    copying(copying &&) = default;
    copying &operator=(const copying &) = delete;
    copying &operator=(copying &&) = default;
    ~copying() = default;
};

} // namespace detail

// A variable that threads share: to be read and written as T is. `x += 1` is a read and a write.
template <class T>
class var : public detail::cell<T>, private detail::copying<std::is_copy_constructible_v<T>> {
    using cell = detail::cell<T>;
    using cell::get, cell::put, cell::value_, cell::object_;

public:
    using value_type = T;
    constexpr var(place at = place::here()) noexcept(std::is_nothrow_default_constructible_v<T>)
        : cell(at.object()) {}
    constexpr var(T value, place at = place::here()) : cell(std::move(value), at.object()) {}
    constexpr var(T value, named n) : cell(std::move(value), vs_object{0, n.name, 0}) {}
    constexpr explicit var(named n) : cell(vs_object{0, n.name, 0}) {}
    var(const var &) = default; // another variable with the same value
    var(var &&) = default;
    var &operator=(const var &) = default;
    var &operator=(var &&) = default;
    ~var() = default;

    [[nodiscard]] T load(place at = place::here()) const {
        const vs_place told = at.told();
        return get(&told);
    }
    void store(T value, place at = place::here()) {
        const vs_place told = at.told();
        put(std::move(value), &told);
    }
    operator T() const { return get(nullptr); }
    T operator=(T value) {
        put(value, nullptr);
        return value;
    }
    template <class U> T operator+=(U &&d) { return *this = get(nullptr) + std::forward<U>(d); }
    template <class U> T operator-=(U &&d) { return *this = get(nullptr) - std::forward<U>(d); }
    T operator++() { return *this += 1; }
    T operator--() { return *this -= 1; }
    T operator++(int) {
        T before = get(nullptr);
        put(before + 1, nullptr);
        return before;
    }
    T operator--(int) {
        T before = get(nullptr);
        put(before - 1, nullptr);
        return before;
    }

    // One access by f, which gets a reference and is short: no other thread's events are recorded
    // meanwhile.
    template <class F> decltype(auto) with(F &&f, place at = place::here()) const {
        detail::access a(object_, VS_READ, at);
        return std::forward<F>(f)(value_);
    }
    template <class F> decltype(auto) with_mut(F &&f, place at = place::here()) {
        detail::access a(object_, VS_WRITE, at);
        return std::forward<F>(f)(value_);
    }
    T &unwatched() noexcept { return value_; }
    const T &unwatched() const noexcept { return value_; }
};
template <class T> var(T, named) -> var<T>;

// An operation that reads and writes is one write; a compare_exchange that fails is one read.
template <class T> class atomic {
    static constexpr std::memory_order strongest = std::memory_order_seq_cst;

public:
    using value_type = T;
    static constexpr bool is_always_lock_free = std::atomic<T>::is_always_lock_free;
    constexpr atomic(place at = place::here()) noexcept : object_(at.object()) {}
    constexpr atomic(T value, place at = place::here()) noexcept
        : value_(value), object_(at.object()) {}
    constexpr atomic(T value, named n) noexcept : value_(value), object_{0, n.name, 0} {}
    atomic(const atomic &) = delete;
    atomic &operator=(const atomic &) = delete;
    bool is_lock_free() const noexcept { return value_.is_lock_free(); }

    [[nodiscard]] T load(std::memory_order order = strongest,
                         place at = place::here()) const noexcept {
        detail::access a(object_, VS_READ, at);
        return value_.load(order);
    }
    void store(T value, std::memory_order order = strongest, place at = place::here()) noexcept {
        detail::access a(object_, VS_WRITE, at);
        value_.store(value, order);
    }
    T exchange(T value, std::memory_order order = strongest, place at = place::here()) noexcept {
        detail::access a(object_, VS_WRITE, at);
        return value_.exchange(value, order);
    }
    bool compare_exchange_strong(T &expected, T value, std::memory_order yes, std::memory_order no,
                                 place at = place::here()) noexcept {
        return exchanged(at,
                         [&] { return value_.compare_exchange_strong(expected, value, yes, no); });
    }
    bool compare_exchange_strong(T &expected, T value, std::memory_order order = strongest,
                                 place at = place::here()) noexcept {
        return exchanged(at,
                         [&] { return value_.compare_exchange_strong(expected, value, order); });
    }
    bool compare_exchange_weak(T &expected, T value, std::memory_order yes, std::memory_order no,
                               place at = place::here()) noexcept {
        return exchanged(at,
                         [&] { return value_.compare_exchange_weak(expected, value, yes, no); });
    }
    bool compare_exchange_weak(T &expected, T value, std::memory_order order = strongest,
                               place at = place::here()) noexcept {
        return exchanged(at, [&] { return value_.compare_exchange_weak(expected, value, order); });
    }
    operator T() const noexcept { return load(); }
    T operator=(T value) noexcept {
        store(value);
        return value;
    }
#ifdef __cpp_lib_atomic_wait
    void wait(T old, std::memory_order order = strongest,
              place at = place::here()) const noexcept { // a read, once it is another value
        value_.wait(old, order);
        (void)load(order, at);
    }
    void notify_one() noexcept {
        value_.notify_one();
    }
    void notify_all() noexcept {
        value_.notify_all();
    }
#endif

#define VELODROME_UPDATE_(name)                                                                    \
    template <class D, class A = std::atomic<T>>                                                   \
    auto name(D d, std::memory_order order = strongest,                                            \
              place at = place::here()) noexcept->decltype(std::declval<A &>().name(d, order)) {   \
        detail::access a(object_, VS_WRITE, at);                                                   \
        return value_.name(d, order);                                                              \
    }
    VELODROME_UPDATE_(fetch_add)
    VELODROME_UPDATE_(fetch_sub)
    VELODROME_UPDATE_(fetch_and)
    VELODROME_UPDATE_(fetch_or)
    VELODROME_UPDATE_(fetch_xor)
#undef VELODROME_UPDATE_
    template <class D>
    auto operator+=(D d) noexcept -> decltype(std::declval<std::atomic<T> &>() += d) {
        return updated([d](auto &v) { return v += d; });
    }
    template <class D>
    auto operator-=(D d) noexcept -> decltype(std::declval<std::atomic<T> &>() -= d) {
        return updated([d](auto &v) { return v -= d; });
    }
    template <class D>
    auto operator&=(D d) noexcept -> decltype(std::declval<std::atomic<T> &>() &= d) {
        return updated([d](auto &v) { return v &= d; });
    }
    template <class D>
    auto operator|=(D d) noexcept -> decltype(std::declval<std::atomic<T> &>() |= d) {
        return updated([d](auto &v) { return v |= d; });
    }
    template <class D>
    auto operator^=(D d) noexcept -> decltype(std::declval<std::atomic<T> &>() ^= d) {
        return updated([d](auto &v) { return v ^= d; });
    }
    T operator++() noexcept {
        return updated([](auto &v) { return ++v; });
    }
    T operator--() noexcept {
        return updated([](auto &v) { return --v; });
    }
    T operator++(int) noexcept {
        return updated([](auto &v) { return v++; });
    }
    T operator--(int) noexcept {
        return updated([](auto &v) { return v--; });
    }

private:
    template <class F> T updated(F f) noexcept {
        detail::access a(object_, VS_WRITE);
        return f(value_);
    }
    template <class F>
    bool exchanged(place at, F f) noexcept { // the event is known once it is done
        const unsigned token = vs_idle() ? 0 : vs_hold(&object_);
        const bool done = f();
        const vs_place told = at.told();
        if (token)
            vs_tell_at(&object_, done ? VS_WRITE : VS_READ, &told);
        if (token)
            vs_after(token);
        return done;
    }
    std::atomic<T> value_{};
    mutable vs_object object_;
};

// ---- threads

namespace detail {
struct living { // reports the thread's begin and end, also if it is unwound
    explicit living(vs_child c) noexcept : child(c) { vs_born(child); }
    living(const living &) = delete;
    living &operator=(const living &) = delete;
    ~living() { vs_exit(child); }
    vs_child child;
};
struct starting { // reports the end of a thread that could not be started
    explicit starting(vs_child c) noexcept : child(c) {}
    starting(const starting &) = delete;
    starting &operator=(const starting &) = delete;
    ~starting() {
        if (!done)
            vs_exit(child);
    }
    vs_child child;
    bool done = false;
};
} // namespace detail

class thread {
public:
    using id = std::thread::id;
    using native_handle_type = std::thread::native_handle_type;
    thread() noexcept = default;
    template <class F, class... A,
              class = std::enable_if_t<
                  !std::is_same_v<std::remove_cv_t<std::remove_reference_t<F>>, thread>>>
    explicit thread(F &&f, A &&...a) : child_(vs_fork()) {
        detail::starting start(child_);
        inner_ = std::thread(
            [](vs_child child, std::decay_t<F> body, std::decay_t<A>... with) {
                detail::living l(child);
                std::invoke(
                    std::move(body),
                    std::move(with)...); // what it throws ends the program, as std::thread's does
            },
            child_, std::forward<F>(f), std::forward<A>(a)...);
        start.done = true;
    }
    thread(thread &&) noexcept = default;
    thread &operator=(thread &&) noexcept = default;
    void swap(thread &other) noexcept {
        std::swap(child_, other.child_);
        inner_.swap(other.inner_);
    }
    bool joinable() const noexcept { return inner_.joinable(); }
    void join(place at = place::here()) {
        inner_.join();
        const vs_place told = at.told();
        vs_join_at(child_, &told);
    }
    void detach() { inner_.detach(); }
    id get_id() const noexcept { return inner_.get_id(); }
    native_handle_type native_handle() { return inner_.native_handle(); }
    static unsigned hardware_concurrency() noexcept { return std::thread::hardware_concurrency(); }

private:
    vs_child child_{};
    std::thread inner_;
};
inline void swap(thread &a, thread &b) noexcept {
    a.swap(b);
}

#ifdef __cpp_lib_jthread
class jthread {
public:
    using id = thread::id;
    using native_handle_type = thread::native_handle_type;
    jthread() noexcept : source_(std::nostopstate) {}
    template <class F, class... A,
              class = std::enable_if_t<!std::is_same_v<std::remove_cvref_t<F>, jthread>>>
    explicit jthread(F &&f, A &&...a)
        : inner_(started(source_, std::forward<F>(f), std::forward<A>(a)...)) {}
    jthread(jthread &&) noexcept = default;
    jthread &operator=(jthread &&other) noexcept {
        jthread(std::move(other)).swap(*this);
        return *this;
    }
    ~jthread() {
        if (!joinable())
            return;
        request_stop();
        join();
    }
    void swap(jthread &other) noexcept {
        std::swap(source_, other.source_);
        inner_.swap(other.inner_);
    }
    bool joinable() const noexcept { return inner_.joinable(); }
    void join(place at = place::here()) { inner_.join(at); }
    void detach() { inner_.detach(); }
    id get_id() const noexcept { return inner_.get_id(); }
    native_handle_type native_handle() { return inner_.native_handle(); }
    [[nodiscard]] std::stop_source get_stop_source() noexcept { return source_; }
    [[nodiscard]] std::stop_token get_stop_token() const noexcept { return source_.get_token(); }
    bool request_stop() noexcept { return source_.request_stop(); }
    static unsigned hardware_concurrency() noexcept { return thread::hardware_concurrency(); }

private:
    template <class F, class... A>
    static thread started(std::stop_source &source, F &&f, A &&...a) {
        if constexpr (std::is_invocable_v<std::decay_t<F>, std::stop_token, std::decay_t<A>...>)
            return thread(std::forward<F>(f), source.get_token(), std::forward<A>(a)...);
        else
            return thread(std::forward<F>(f), std::forward<A>(a)...);
    }
    std::stop_source source_;
    thread inner_;
};
inline void swap(jthread &a, jthread &b) noexcept {
    a.swap(b);
}
#endif

// ---- sessions

enum class verdict { clean = VS_CLEAN, alarm = VS_ALARM, incomplete = VS_INCOMPLETE };

// One of the two events that collide.
struct side {
    std::uint64_t position;
    unsigned thread;
    std::string event, block, place; // "writes balance", "transfer (bank.cpp:12)", "bank.cpp:14";
                                     // what is not known is empty
};

struct collision {
    side first, second; // the second closed the cycle
    std::string report;
};

struct options {
    std::uint32_t events = 0;    // most of them between two cuts; 0: 1,048,576
    std::uint16_t variables = 0; // 0: 65,471
    std::uint16_t locks = 0;     // 0: 4,096
    std::uint32_t noise = 0;     // one event in `noise` waits for a while; 0: none
    std::uint64_t seed = 0;      // which ones; 0: by the clock
    bool everywhere = true;      // also for threads that velodrome::thread did not start
    std::function<void(const collision &)>
        on_alarm; // called once, in the thread of the event; what it throws is lost

    // What the environment asks for: VELODROME_NOISE, VELODROME_SEED, VELODROME_EVENTS.
    static options environment() {
        vs_options asked{};
        vs_environment(&asked);
        options o;
        o.events = asked.events;
        o.noise = asked.noise;
        o.seed = asked.seed;
        return o;
    }
};

struct [[nodiscard]] result {
    verdict what = verdict::incomplete;
    std::string words; // what `velodrome explain` prints of an alarm, with names and places; why it
                       // is incomplete
    bool fails = true; // whether the test fails, by finish()
    explicit operator bool() const noexcept { return what == verdict::clean; }
};

// A run that is watched: the thread that opens it and those that it starts.
class session {
public:
    explicit session(options o = {}) : on_alarm_(std::move(o.on_alarm)) {
        vs_options asked{};
        asked.events = o.events;
        asked.variables = o.variables;
        asked.locks = o.locks;
        asked.noise = o.noise;
        asked.seed = o.seed;
        if (on_alarm_)
            asked.alarm = called;
        asked.data = this;
        id_ = vs_open(&asked, o.everywhere);
    }
    session(const session &) = delete;
    session &operator=(const session &) = delete;
    ~session() {
        if (id_)
            vs_close(id_, nullptr);
    }
    verdict so_far() const noexcept { return static_cast<verdict>(vs_so_far(id_)); }
    bool save(const char *path) const noexcept { return vs_save(id_, path); }
    // Leaves out, from here on, what has this name; a star in it stands for any characters.
    bool ignore_variable(const char *name) noexcept {
        return vs_ignore(id_, VS_NAMED_VARIABLE, name);
    }
    bool ignore_lock(const char *name) noexcept { return vs_ignore(id_, VS_NAMED_LOCK, name); }
    bool ignore_label(const char *name) noexcept { return vs_ignore(id_, VS_NAMED_LABEL, name); }
    vs_session native_handle() const noexcept { return id_; }

    // The verdict, for good.
    result close() {
        char *words = nullptr;
        const vs_verdict v = vs_close(std::exchange(id_, 0), &words);
        return taken(v, words, v == VS_ALARM);
    }
    // The same at the end of a test of this name: log and names are kept where it fails.
    result finish(const char *name) {
        char *words = nullptr;
        bool fails = true;
        const vs_verdict v = vs_finish(std::exchange(id_, 0), name, &words, &fails);
        return taken(v, words, fails);
    }

private:
    static result taken(vs_verdict v, char *words, bool fails) {
        result r;
        r.what = static_cast<verdict>(v);
        r.fails = fails;
        if (words)
            r.words = words;
        vs_free(words);
        return r;
    }
    static side side_of(const vs_side &s) {
        return {s.position, s.thread, s.event ? s.event : "", s.block ? s.block : "",
                s.place ? s.place : ""};
    }
    void call(const vs_alarm &a) {
        on_alarm_(collision{side_of(a.first), side_of(a.second), a.report});
    }
    static void called(void *data, const vs_alarm *a) noexcept {
        session &s = *static_cast<session *>(data);
#ifdef __cpp_exceptions
        try {
            s.call(*a);
        } catch (...) { // it is lost
        }
#else
        s.call(*a);
#endif
    }
    std::function<void(const collision &)> on_alarm_;
    vs_session id_ = 0;
};

} // namespace VELODROME_KIND_
} // namespace velodrome
#endif
#endif
