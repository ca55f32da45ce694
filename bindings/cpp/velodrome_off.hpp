// velodrome_off.hpp: velodrome.hpp with VELODROME_OFF. Nothing is watched, and nothing is linked.
#ifndef VELODROME_OFF_HPP
#define VELODROME_OFF_HPP
#define VELODROME_ATOMIC(name) static_cast<void>(0)
#define VELODROME_NAMED(name)                                                                      \
    {}
#define VELODROME_VALUE(value, name)                                                               \
    { value }

namespace velodrome {
inline namespace VELODROME_KIND_ {
using std::atomic;
using std::condition_variable;
using std::mutex;
using std::recursive_mutex;
using std::recursive_timed_mutex;
using std::shared_mutex;
using std::shared_timed_mutex;
using std::thread;
using std::timed_mutex;
#ifdef __cpp_lib_jthread
using std::jthread;
#endif

// The value alone.
template <class T> class var {
public:
    using value_type = T;
    constexpr var() noexcept(std::is_nothrow_default_constructible_v<T>) : value_() {}
    constexpr var(T value) : value_(std::move(value)) {}
    constexpr var(T value, named) : value_(std::move(value)) {}
    constexpr explicit var(named) : value_() {}
    [[nodiscard]] T load() const { return value_; }
    void store(T value) { value_ = std::move(value); }
    operator T() const { return value_; }
    T operator=(T value) { return value_ = std::move(value); }
    template <class U> T operator+=(U &&d) { return value_ = value_ + std::forward<U>(d); }
    template <class U> T operator-=(U &&d) { return value_ = value_ - std::forward<U>(d); }
    T operator++() { return ++value_; }
    T operator--() { return --value_; }
    T operator++(int) { return value_++; }
    T operator--(int) { return value_--; }
    template <class F> decltype(auto) with(F &&f) const { return std::forward<F>(f)(value_); }
    template <class F> decltype(auto) with_mut(F &&f) { return std::forward<F>(f)(value_); }
    T &unwatched() noexcept { return value_; }
    const T &unwatched() const noexcept { return value_; }

private:
    T value_;
};

template <class T> var(T, named) -> var<T>;

// The lock alone.
template <class M> class watched : public M {
public:
    watched() = default;
    explicit watched(named) {}
};

class actor {};
class [[nodiscard]] acting {
public:
    [[nodiscard]] explicit acting(actor &) noexcept {}
    acting(const acting &) = delete;
    acting &operator=(const acting &) = delete;
    ~acting() {} // as one that is used
};

// Sessions see nothing, and say so: a test that asks for a verdict is not one of such a build.
enum class verdict { clean = 0, alarm = 3, incomplete = 4 };
struct side {
    std::uint64_t position;
    unsigned thread;
    std::string event, block, place;
};
struct collision {
    side first, second;
    std::string report;
};
struct options {
    std::uint32_t events = 0;
    std::uint16_t variables = 0, locks = 0;
    std::uint32_t noise = 0;
    std::uint64_t seed = 0;
    bool everywhere = true;
    std::function<void(const collision &)> on_alarm;
    static options environment() { return {}; }
};
struct [[nodiscard]] result {
    verdict what = verdict::incomplete;
    std::string words = "built with VELODROME_OFF\n";
    bool fails = false;
    explicit operator bool() const noexcept { return what == verdict::clean; }
};
class session {
public:
    explicit session(options = {}) {}
    session(const session &) = delete;
    session &operator=(const session &) = delete;
    verdict so_far() const noexcept { return verdict::incomplete; }
    bool save(const char *) const noexcept { return false; }
    bool ignore_variable(const char *) noexcept { return false; }
    bool ignore_lock(const char *) noexcept { return false; }
    bool ignore_label(const char *) noexcept { return false; }
    result close() { return {}; }
    result finish(const char *) { return {}; }
};
} // namespace VELODROME_KIND_
} // namespace velodrome
#endif
