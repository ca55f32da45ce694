#include "retries.hpp"
#include <algorithm>

using namespace std;

static const size_t MOST = 256; // reads that are looked at

void Retries::drop(At from, At to, vector<size_t> &dropped) {
    for (At i = from; i != to; ++i)
        dropped.push_back(i->kept);
    reads_.erase(from, to);
}
// Where the reads at the end begin that are all of the variable.
Retries::At Retries::last_run(uint32_t variable) {
    At i = reads_.end();
    while (i != reads_.begin() && (i - 1)->variable == variable)
        --i;
    return i;
}
// A compare-and-swap failed, and its round begins anew: with the read that it began with, or with
// what the compare-and-swap has found.
void Retries::drop_failed_round(const Read &r, vector<size_t> &dropped) {
    auto is_missed = [&](const Read &x) { return x.variable == r.variable && x.missed; };
    auto missed = find_if(reads_.rbegin(), reads_.rend(), is_missed);
    if (missed == reads_.rend())
        return;
    At found = missed.base() - 1;
    if (found->place == r.place) {
        auto of_same = [&](const Read &x) { return x.variable == r.variable; };
        auto begin = find_if(make_reverse_iterator(found), reads_.rend(), of_same);
        if (begin != reads_.rend())
            drop(begin.base() - 1, found, dropped);
        return;
    }
    auto at_same = [&](const Read &x) { return x.variable == r.variable && x.place == r.place; };
    At begin = find_if(reads_.begin(), found, at_same);
    if (begin != found)
        drop(begin, reads_.end(), dropped);
}
void Retries::read(const Read &r, vector<size_t> &dropped) {
    if (exchange_.variable != r.variable)
        exchange_ = {};
    size_t before = dropped.size();
    bool again = !reads_.empty() && reads_.back().kept == r.kept; // one event for both
    if (again)
        reads_.pop_back();
    if (r.expected && !again &&
        last_run(r.variable) != reads_.end()) // it stands for the read before it
        drop(reads_.end() - 1, reads_.end(), dropped);
    At same = find_if(last_run(r.variable), reads_.end(),
                      [&](const Read &x) { return x.place == r.place; });
    if (same != reads_.end())
        drop(same, reads_.end(), dropped);
    if (dropped.size() == before)
        drop_failed_round(r, dropped);
    if (reads_.size() >= MOST)
        reads_.erase(reads_.begin(), reads_.begin() + MOST / 2);
    reads_.push_back(r);
}
void Retries::write(uint32_t variable, bool changes, size_t kept, bool again,
                    vector<size_t> &dropped) {
    Exchange now;
    now.variable = variable;
    At run = last_run(variable);
    if (changes && run != reads_.end()) {
        for (At i = run; i != reads_.end() - 1; ++i)
            if (i->missed)
                dropped.push_back(i->kept);
        now.kept.push_back(reads_.back().kept);
    }
    now.kept.push_back(kept);
    if (again && exchange_.waited && exchange_.variable == variable)
        dropped.insert(dropped.end(), exchange_.kept.begin(), exchange_.kept.end());
    reads_.clear();
    exchange_ = now;
}
void Retries::waits_at(uint32_t variable) {
    if (exchange_.variable == variable)
        exchange_.waited = true;
}
void Retries::other() {
    reads_.clear();
    exchange_ = {};
}
