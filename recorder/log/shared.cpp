#include "shared.hpp"

using namespace std;

int Granule::first_byte(int p) const {
    int byte = 0;
    while (piece(byte) != p)
        byte++;
    return byte;
}
bool value_of(const Event &e, const Granule &g, int piece, int a, int b, u64 at, u64 &value) {
    int low = a, high;
    while (g.piece(low) != piece)
        low++;
    for (high = low; high < b && g.piece(high + 1) == piece;)
        high++;
    u64 offset = at + low - e.at, bits = (high - low + 1) * 8;
    if (!e.valued || offset > 7)
        return false;
    value = e.number >> offset * 8;
    if (bits < 64)
        value &= (1ull << bits) - 1;
    return true;
}

Shared::Shared(Trace &trace, bool with_values) : trace_(trace), with_values_(with_values) {
    find_shared();
    number_pieces();
    find_races();
    if (with_values_)
        compare_values();
}
void Shared::ignore(const set<u64> &locks, const set<u32> &pieces) {
    ignored_locks_ = locks;
    ignored_pieces_ = pieces;
    size_t n = variables.size();
    variables.clear();
    variables.resize(n);
    order.clear();
    objects.clear();
    lock_uses.clear();
    hidden = 0;
    hidden_at.clear();
    find_races();
    if (with_values_)
        compare_values();
}

// ---- granules that two threads touch, and one writes
void Shared::find_shared() {
    size_t threads = trace_.threads();
    Memory memory(threads);
    vector<char> forked(threads), seen(threads);
    routine.resize(threads), title.resize(threads), begins.resize(threads);
    granules_.resize(1 << 16);
    trace_.each([&](const Event &e) {
        records++;
        kinds[e.kind]++;
        late += (e.kind == RD || e.kind == WR || e.kind == RDS || e.kind == WRS) && e.flags & LATE;
        seen[e.thread] = 1;
        if (e.kind == START)
            routine[e.thread] = u32(e.code) ? e.code : 0;
        if (e.kind == FORK && e.at < threads)
            forked[e.at] = 1;
        if (e.kind == BEGIN && begins[e.thread].size() < 100)
            begins[e.thread].push_back(e.code);
        if (e.kind == TITLE && e.at < threads)
            title[e.at] = string(reinterpret_cast<const char *>(&e.number), 8) +
                          string(reinterpret_cast<const char *>(&e.second), 8);
        memory.step(e, [&](u32 id, int a, int b, u64) {
            ids_.push_back(id);
            if (id >= granules_.size())
                granules_.resize(granules_.size() * 2);
            Granule &g = granules_[id];
            if (!g.first)
                g.first = e.thread + 1;
            else if (g.first != e.thread + 1)
                g.many = true;
            g.written |= e.writes();
            if (e.atomic())
                g.atomics |= ((2 << b) - 1) & ~((1 << a) - 1);
            if (a)
                g.cuts |= 1 << a;
            if (b < 7)
                g.cuts |= 2 << b;
        });
        return true;
    });
    for (auto &s : title)
        s = s.c_str(); // up to its zero
    for (u32 t = 1; t < threads; t++)
        if (!forked[t] && seen[t])
            foreign.push_back(t);
}
void Shared::number_pieces() {
    u32 pieces = 0;
    shared_.resize(granules_.size() / 64 + 1);
    for (size_t id = 0; id < granules_.size(); id++) {
        Granule &g = granules_[id];
        if (!g.many || !g.written)
            continue;
        g.base = pieces + 1, pieces += g.pieces();
        shared_[id >> 6] |= 1ull << (id & 63);
    }
    variables.resize(pieces + 1);
}

// ---- happens-before, by what stands in the log: locks, forks, joins, atomics, semaphores
static void join(Clock &a, const Clock &b) {
    for (size_t i = 0; i < b.size(); i++)
        if (b[i] > a[i])
            a[i] = b[i];
}
namespace {
class HappensBefore {
public:
    explicit HappensBefore(size_t threads)
        : threads_(threads), clocks_(threads, Clock(threads)), ended_(threads) {
        for (size_t t = 0; t < threads; t++)
            clocks_[t][t] = 1;
    }
    void meet(Object &o, u32 t, bool writes) {
        if (o.w.empty())
            o.w.resize(threads_), o.r.resize(threads_);
        join(clocks_[t], o.w);
        if (writes)
            join(clocks_[t], o.r), o.w = clocks_[t];
        else
            join(o.r, clocks_[t]);
        clocks_[t][t]++;
    }
    void step(const Event &e) {
        u32 t = e.thread;
        if (e.kind == ACQ || e.kind == ACQS) {
            Object &l = lock(e.at);
            join(clocks_[t], l.w);
            if (e.kind == ACQ)
                join(clocks_[t], l.r);
        } else if (e.kind == REL || e.kind == RELS) {
            Object &l = lock(e.at);
            if (e.kind == REL)
                l.w = clocks_[t];
            else
                join(l.r, clocks_[t]);
            clocks_[t][t]++;
        } else if (e.kind == FORK && e.at < threads_)
            join(clocks_[e.at], clocks_[t]), clocks_[t][t]++;
        else if (e.kind == EXIT)
            ended_[t] = clocks_[t], clocks_[t][t]++;
        else if (e.kind == JOIN && e.at < threads_)
            join(clocks_[t], ended_[e.at]);
    }
    // Whether the access races with one before. (FastTrack: last write, last read or all threads'
    // last reads.)
    bool races(Variable &x, u32 t, bool writes) {
        const Clock &c = clocks_[t];
        bool racy = x.write_clock > c[x.writer];
        if (writes) {
            if (x.readers)
                for (size_t u = 0; u < threads_; u++)
                    racy |= (*x.readers)[u] > c[u];
            else
                racy |= x.read_clock > c[x.reader];
            x.readers.reset(), x.read_clock = 0;
            x.writer = t, x.write_clock = c[t];
        } else if (x.readers)
            (*x.readers)[t] = c[t];
        else if (!x.read_clock || x.reader == t || x.read_clock <= c[x.reader])
            x.reader = t, x.read_clock = c[t];
        else {
            x.readers = make_unique<Clock>(threads_);
            (*x.readers)[x.reader] = x.read_clock, (*x.readers)[t] = c[t];
        }
        return racy;
    }

private:
    Object &lock(u64 at) {
        Object &l = locks_[at];
        if (l.w.empty())
            l.w.resize(threads_), l.r.resize(threads_);
        return l;
    }
    size_t threads_;
    vector<Clock> clocks_, ended_;
    unordered_map<u64, Object> locks_;
};
} // namespace
static bool is_atomic(const Granule &g, int piece) {
    for (int b = 0; b < 8; b++)
        if (g.atomics >> b & 1 && g.piece(b) == piece)
            return true;
    return false;
}
void Shared::find_races() {
    HappensBefore before(trace_.threads());
    unordered_map<u32, Object> atomics;
    auto access = [&](const Event &e, u32 piece, const Granule &g, int p, int, int, u64 at) {
        Variable &x = variables[piece];
        if (!x.first) {
            x.first = e.thread + 1, x.at = at + g.first_byte(p), x.atomic = is_atomic(g, p);
            order.push_back(piece);
        } else if (x.first != e.thread + 1)
            x.many = true;
        x.written |= e.writes();
        x.ignored = ignored_pieces_.count(piece);
        if (x.ignored)
            return;
        if (x.atomic)
            before.meet(atomics[piece], e.thread, e.writes());
        else
            x.racy |= before.races(x, e.thread, e.writes());
    };
    each(access, [&](const Event &e) {
        bool is_lock = e.kind >= ACQ && e.kind <= RELS;
        if (!is_lock || !ignores(e.at))
            before.step(e);
        meet_lock(e);
        if (e.kind == SRD || e.kind == SWR) {
            Object &o = objects[e.at];
            before.meet(o, e.thread, e.kind == SWR);
            if (!o.first)
                o.first = e.thread + 1;
            else if (o.first != e.thread + 1)
                o.many = true;
        }
        return true;
    });
}
void Shared::meet_lock(const Event &e) {
    if (e.kind != ACQ && e.kind != ACQS)
        return;
    LockUse &l = lock_uses[e.at];
    if (!l.first)
        l.first = e.thread + 1;
    l.many |= l.first != e.thread + 1;
}

// ---- values. A read that has not what was written last tells of a write that was not recorded.
void Shared::compare_values() {
    struct Seen {
        bool met = false, known = false;
        u64 value = 0;
    };
    vector<Seen> seen(variables.size());
    for (auto &x : variables)
        x.valued = true;
    auto access = [&](const Event &e, u32 piece, const Granule &g, int p, int a, int b, u64 at) {
        Seen &s = seen[piece];
        Variable &x = variables[piece];
        u64 value = 0;
        if (!value_of(e, g, p, a, b, at, value)) {
            s.known = x.valued = false;
            return;
        }
        if (e.reads() && s.known && s.value != value)
            hidden++, hidden_at[e.code]++, x.valued = false;
        if (!s.met && e.reads())
            x.initial = value;
        s = {true, true, value};
    };
    each(access, [](const Event &) { return true; });
}
