#include "stale.hpp"

using namespace std;

Stale::Stale(const Stacks &stacks, const Shared &shared, bool races_are_ordered)
    : stacks_(stacks), shared_(shared), races_are_ordered_(races_are_ordered),
      seen_(shared.variables.size()), holds_(shared.routine.size()), steps_(shared.routine.size()) {
}

// ---- holds
bool Stale::Held::has(u64 lock) const {
    for (int i = 0; i < count; i++)
        if (hold[i].lock == lock)
            return true;
    return false;
}
Stale::Held Stale::held(u32 thread) const {
    Held h;
    auto &all = holds_[thread];
    for (auto i = all.rbegin(); i != all.rend() && h.count < 2; ++i)
        h.hold[h.count++] = *i;
    return h;
}
void Stale::step(const Event &e) {
    steps_[e.thread]++;
    if (e.kind < ACQ || e.kind > RELS)
        return;
    auto &all = holds_[e.thread];
    auto same = find_if(all.begin(), all.end(), [&](auto &h) { return h.lock == e.at; });
    bool acquires = e.kind == ACQ || e.kind == ACQS;
    if (acquires && same == all.end())
        all.push_back({e.at, ++holds_numbered_, 1});
    else if (acquires)
        same->times++;
    else if (same != all.end() && --same->times == 0)
        all.erase(same);
}

// ---- accesses
void Stale::access(const Event &e, u32 piece, u64 at) {
    Seen &s = seen_[piece];
    auto own =
        find_if(s.reads.begin(), s.reads.end(), [&](auto &r) { return r.thread == e.thread; });
    bool sure = !(e.flags & LATE);
    if (e.writes())
        write(e, piece, at, s);
    else if (sure) {
        Read r{e.thread, stacks_.now(), stacks_.own_code(e.thread, e.code), steps_[e.thread],
               held(e.thread)};
        if (own == s.reads.end())
            s.reads.push_back(r);
        else
            *own = r;
    } else if (own != s.reads.end())
        s.reads.erase(own);
}
// Both under one lock, in two holds of it, and not in one hold of another; or no lock at both.
bool Stale::in_two_holds(const Read &read, const Held &now, u64 &lock) const {
    lock = 0;
    for (int i = 0; i < read.held.count; i++)
        for (int k = 0; k < now.count; k++) {
            if (read.held.hold[i].lock != now.hold[k].lock)
                continue;
            if (read.held.hold[i].number == now.hold[k].number)
                return false;
            lock = now.hold[k].lock;
        }
    return lock || (!read.held.count && !now.count && races_are_ordered_);
}
void Stale::write(const Event &e, u32 piece, u64 at, Seen &s) {
    Held now = held(e.thread);
    auto own =
        find_if(s.reads.begin(), s.reads.end(), [&](auto &r) { return r.thread == e.thread; });
    bool sure = !(e.flags & LATE);
    if (own != s.reads.end()) {
        const Write &between = s.last.thread == e.thread + 1 ? s.other : s.last;
        u64 lock;
        bool gap = between.thread && between.event > own->event;
        if (sure && gap && in_two_holds(*own, now, lock) &&
            (races_are_ordered_ || between.held.has(lock)))
            tell(e, piece, at, *own, between, lock);
        s.reads.erase(own);
    }
    if (!sure)
        return;
    if (s.last.thread && s.last.thread != e.thread + 1)
        s.other = s.last;
    s.last = {e.thread + 1, stacks_.now(), stacks_.own_code(e.thread, e.code), now};
}
void Stale::tell(const Event &e, u32 piece, u64 at, const Read &r, const Write &w, u64 lock) {
    StaleWrite f;
    f.read.thread = f.write.thread = e.thread, f.between.thread = w.thread - 1;
    f.read.event = r.event, f.between.event = w.event, f.write.event = stacks_.now();
    f.read.code = r.code, f.between.code = w.code;
    f.write.code = stacks_.own_code(e.thread, e.code);
    f.by_library = f.write.code != e.code && !e.atomic();
    f.piece = piece, f.at = at, f.lock = lock, f.steps = steps_[e.thread] - r.step;
    for (auto &frame : stacks_.of(e.thread))
        if (frame.opened <= r.event && !frame.library)
            f.opened = frame.opened, f.function = frame.function;
    auto i = found_.emplace(make_pair(f.read.code, f.write.code), f);
    if (i.second)
        return;
    StaleWrite &known = i.first->second;
    f.times = known.times + 1;
    if (f.steps < known.steps)
        known = f;
    known.times = f.times;
}
vector<StaleWrite> Stale::found() const {
    vector<StaleWrite> all;
    for (auto &f : found_)
        all.push_back(f.second);
    stable_sort(all.begin(), all.end(), [](auto &a, auto &b) { return a.steps < b.steps; });
    if (all.size() > MOST)
        all.resize(MOST);
    return all;
}

void find_functions(Trace &trace, Modules &modules, vector<StaleWrite> &found) {
    multimap<u64, StaleAccess *> wanted;
    for (auto &f : found)
        for (auto a : {&f.read, &f.between, &f.write})
            wanted.emplace(a->event, a);
    Stacks stacks(trace.threads(), modules);
    auto next = wanted.begin();
    trace.each([&](const Event &e) {
        for (; next != wanted.end() && next->first == stacks.now(); ++next)
            for (auto &frame : stacks.of(e.thread))
                if (!frame.library)
                    next->second->inside.push_back(frame);
        stacks.step(e);
        return next != wanted.end();
    });
}
