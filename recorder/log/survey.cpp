#include "survey.hpp"

using namespace std;

Survey::Survey(Trace &trace, Modules &modules, const Blocks &blocks)
    : modules_(modules), blocks_(blocks), stacks_(trace.threads(), modules),
      threads_(trace.threads()) {
    trace.each([&](const Event &e) {
        step(e);
        return true;
    });
    tell_holds();
    if (!trace.full())
        find_circles();
}
void Survey::step(const Event &e) {
    Thread &t = threads_[e.thread];
    t.began = true;
    look_for_loops(e);
    stacks_.step(e);
    follow_lock(e);
    follow_wait(e);
    if (e.kind == EXIT)
        t.ended = true;
}

// ---- loops. A routine that does the same at the same place again.
static bool tells_of_loop(int kind) {
    return kind == RD || kind == WR || kind == ARD || kind == BEGIN || kind == ACQ ||
           kind == ACQS || kind == FORK || kind == JOIN;
}
void Survey::look_for_loops(const Event &e) {
    Thread &t = threads_[e.thread];
    size_t depth = stacks_.of(e.thread).size();
    bool inside = !t.routines.empty() && t.routines.back() == depth;
    u64 code = e.kind == BEGIN ? e.at : e.code;
    if (inside && tells_of_loop(e.kind) && !t.seen.back().insert({code, e.kind}).second)
        loops.insert(modules_.function(stacks_.of(e.thread).back().function));
    if (inside && e.kind == END)
        t.routines.pop_back(), t.seen.pop_back();
    if (e.kind != BEGIN)
        return;
    auto i = routine_.emplace(e.code, false);
    if (i.second) {
        functions.insert(e.code);
        string name = modules_.function(e.code);
        i.first->second = blocks_.is_routine(name);
        if (i.first->second && modules_.loops(e.code))
            loops.insert(name);
    }
    if (i.first->second)
        t.routines.push_back(depth + 1), t.seen.emplace_back();
}

// ---- waits
static bool is_part_of_wait(const LastState &s, int kind) {
    return (s.what == FOR_CONDITION && kind == REL) || (s.what == FOR_BARRIER && kind == SWR) ||
           kind == BEGIN || kind == NAMED || kind == ALLOC || kind == TITLE;
}
void Survey::follow_wait(const Event &e) {
    LastState &s = threads_[e.thread].last;
    bool stuck = e.kind == STUCK && e.size <= FOR_FUTEX;
    if (e.kind != WAIT && e.kind != CONTENDED && !stuck) {
        if (s.what != FOR_TIME && !is_part_of_wait(s, e.kind))
            s.what = FOR_TIME;
        return;
    }
    s.what = wait(e.size), s.at = stuck && s.what == FOR_THREAD ? e.number : e.at;
    s.ends = e.flags & TRIED;
    s.code = stacks_.own_code(e.thread, e.code), s.inside = 0;
    for (auto &f : stacks_.of(e.thread))
        if (!f.library && !f.named)
            s.inside = f.function;
}
void Survey::follow_lock(const Event &e) {
    if (e.kind < ACQ || e.kind > RELS)
        return;
    Lock &l = locks_[e.at];
    u64 code = 0;
    if (e.kind == ACQ || e.kind == ACQS)
        lock_code.emplace(e.at, code = stacks_.own_code(e.thread, e.code));
    if (e.kind == ACQ) {
        if (l.owner == int(e.thread))
            l.times++;
        else
            l.owner = e.thread, l.times = 1, l.code = code;
    } else if (e.kind == REL) {
        if (l.owner == int(e.thread) && --l.times == 0)
            l.owner = -1;
    } else if (e.kind == ACQS) {
        auto &share = l.shares[e.thread];
        if (!share.first++)
            share.second = code;
    } else {
        auto share = l.shares.find(e.thread);
        if (share != l.shares.end() && --share->second.first == 0)
            l.shares.erase(share);
    }
}

// ---- the end of the trace
int Survey::holder(const LastState &s) const {
    if (s.what == FOR_THREAD)
        return s.at > 0 && s.at <= threads_.size() && !threads_[s.at - 1].ended ? int(s.at) - 1
                                                                                : -1;
    bool is_lock = s.what == FOR_MUTEX || s.what == FOR_RWLOCK || s.what == FOR_SPIN;
    auto l = locks_.find(s.at);
    if (!is_lock || l == locks_.end())
        return -1;
    if (l->second.owner >= 0)
        return l->second.owner;
    return l->second.shares.empty() ? -1 : int(l->second.shares.begin()->first);
}
void Survey::tell_holds() {
    for (auto &l : locks_) {
        if (l.second.owner >= 0)
            threads_[l.second.owner].last.holds.push_back({l.first, l.second.code, false});
        for (auto &share : l.second.shares)
            threads_[share.first].last.holds.push_back({l.first, share.second.second, true});
    }
    for (u32 t = 0; t < threads_.size(); t++) {
        Thread &thread = threads_[t];
        if (!thread.began || thread.ended)
            continue;
        thread.last.thread = t, thread.last.held_by = holder(thread.last);
        last.push_back(thread.last);
    }
}
// Each thread waits for at most one other: a walk that comes back to where it began is a circle.
void Survey::find_circles() {
    map<u32, u32> next;
    for (auto &s : last)
        if (s.what != FOR_TIME && !s.ends && s.held_by >= 0)
            next[s.thread] = s.held_by;
    for (auto &start : next) {
        vector<u32> walk = {start.first};
        for (u32 t = start.second; next.count(t) && t > start.first && walk.size() <= next.size();
             t = next[t])
            walk.push_back(t);
        bool back = next.count(walk.back()) && next[walk.back()] == start.first;
        if (back)
            circles.push_back(walk);
    }
}
