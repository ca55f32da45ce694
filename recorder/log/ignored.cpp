#include "ignored.hpp"
#include "write.hpp"
#include <cstring>

using namespace std;

// ---- counts of shared pointers
static bool begins(const string &s, const char *with) {
    return s.compare(0, strlen(with), with) == 0;
}
// Also what asks for the count: its answer is the program's.
static bool counts_pointers(const string &function) {
    if (function.find("use_count") != string::npos)
        return false;
    for (const char *p : {"std::_Sp_counted_base<", "__gnu_cxx::__exchange_and_add",
                          "__gnu_cxx::__atomic_add", "std::__1::__shared_count::",
                          "std::__1::__shared_weak_count::", "std::__1::__libcpp_atomic_refcount"})
        if (begins(function, p))
            return true;
    return false;
}
static set<u32> counts(Shared &shared, Modules &modules) {
    set<u32> found, others;
    unordered_map<u64, bool> by_code;
    auto some = any_of(shared.variables.begin(), shared.variables.end(),
                       [](auto &v) { return v.atomic && v.many && v.written; });
    if (!some)
        return found;
    shared.each(
        [&](const Event &e, u32 piece, const Granule &, int, int, int, u64) {
            auto i = by_code.emplace(e.code, false);
            if (i.second)
                i.first->second = counts_pointers(modules.function(e.code));
            (i.first->second ? found : others).insert(piece);
        },
        [](const Event &) { return true; });
    for (u32 piece : others)
        found.erase(piece);
    return found;
}

// ---- names
static set<u64> locks_of(Shared &shared, Places &places, const set<string> &names) {
    set<u64> locks;
    for (auto &l : shared.lock_uses)
        if (names.count(tidy(places.lock(l.first))))
            locks.insert(l.first);
    return locks;
}
static void add_variables(set<u32> &pieces, Shared &shared, Places &places,
                          const set<string> &names) {
    for (u32 x : shared.order)
        if (names.count(tidy(places.variable(x, shared.variables[x].at))))
            pieces.insert(x);
}
void leave_out(Shared &shared, Modules &modules, Places &places, const Ignored &ignored) {
    set<u64> locks;
    set<u32> pieces = counts(shared, modules);
    if (!ignored.none()) {
        set<u64> codes;
        places.add_codes(codes);
        modules.find_lines(codes);
        locks = locks_of(shared, places, ignored.locks);
        add_variables(pieces, shared, places, ignored.variables);
    }
    if (!locks.empty() || !pieces.empty())
        shared.ignore(locks, pieces);
}
