#include "events.hpp"

using namespace std;

static const u32 MAX_VARIABLES = 65535;
static const u32 MAX_LOCKS = 4096;
static const u32 MAX_THREADS = 64;
static const u32 MAX_OPEN = 32;

Events::Events(Trace &trace, Shared &shared, Blocks &blocks, const Options &options)
    : shared_(shared), blocks_(blocks), options_(options), threads_(trace.threads()),
      holder_(MAX_THREADS, -1) {
    many_ = threads_.size() > MAX_THREADS;
    begins_late_ = trace.overwritten() > 0;
    if (threads_.empty())
        return;
    number_variables();
    threads_[0].state = LIVE, threads_[0].carrier = 0, holder_[0] = 0;
    for (u32 x : shared_.order) {
        const Variable &v = shared_.variables[x];
        if (v.number && v.valued && v.initial)
            keep(0, WR, v.number - 1, 0, v.initial);
    }
    for (u32 t : shared_.foreign)
        begin_foreign(t);
    shared_.each([&](const Event &e, u32 piece, const Granule &g, int p, int a, int b,
                     u64 at) { access(e, piece, g, p, a, b, at); },
                 [&](const Event &e) { return step(e); });
    drop_empty_blocks();
    forget_values();
}

// A variable whose accesses are all ordered by what else is in the log adds no edge.
void Events::number_variables() {
    size_t sync = count_if(shared_.objects.begin(), shared_.objects.end(),
                           [](auto &o) { return o.second.many; });
    u32 room = MAX_VARIABLES - (many_ ? 2 * MAX_THREADS : 0);
    for (u32 x : shared_.order) {
        Variable &v = shared_.variables[x];
        if (!v.many || !v.written || v.ignored)
            continue;
        if (!options_.data && !options_.all && !v.atomic && !v.racy) {
            ordered++;
            continue;
        }
        if (variables.size() + sync >= room) {
            dropped++;
            continue;
        }
        variables.push_back(&v);
        v.number = variables.size();
        if (v.atomic)
            variable_at_[v.at] = v.number - 1;
    }
    number_objects(room);
    auto shared = count_if(shared_.lock_uses.begin(), shared_.lock_uses.end(),
                           [](auto &l) { return l.second.many; });
    room_for_unshared_ = options_.all && shared < MAX_LOCKS ? MAX_LOCKS - shared : 0;
}
void Events::number_objects(size_t room) {
    map<u64, Object *> by_address;
    for (auto &o : shared_.objects)
        if (o.second.many)
            by_address[o.first] = &o.second;
    for (auto &o : by_address) {
        if (variables.size() + objects.size() >= room)
            break;
        objects.push_back(o.first);
        o.second->number = variables.size() + objects.size();
    }
    numbers_of_threads = variables.size() + objects.size();
    last_by_.assign(numbers_of_threads + 2 * MAX_THREADS, ~0u);
}

// ---- what is kept
// A thread's access that does what its event before did, with no block begun or ended and no other
// thread's access between.
bool Events::repeats(u32 thread, int kind, u32 variable, u64 value) {
    Thread &t = threads_[thread];
    bool same = !options_.all && t.last.variable == variable && t.last.version == t.version &&
                last_by_[variable] == thread && (kind == RD || t.last.kind == WR);
    if (same && kind == WR)
        kept[t.last.kept].value = value;
    if (!same)
        t.last = {variable, kind, t.version, 0}, last_by_[variable] = thread;
    return same;
}
void Events::keep(u32 thread, int kind, u32 number, u64 code, u64 value) {
    Thread &t = threads_[thread];
    for (auto o = t.open.rbegin(); code && o != t.open.rend() && o->library && o->from; ++o)
        code = o->from; // where the program called the library
    bool access = kind == RD || kind == WR;
    if (access && repeats(thread, kind, number, value))
        return;
    if (!access)
        t.last.variable = ~0u;
    if (t.greets) {
        t.greets = false;
        kept.push_back({0, numbers_of_threads + 2 * t.carrier, u8(t.carrier), RD, true, false, 0}),
            events++;
    }
    for (auto o = t.open.rbegin(); o != t.open.rend(); ++o) {
        if (!o->function || kept[o->kept].in_log)
            continue;
        kept[o->kept].in_log = true;
        events += 2;
        begun[kept[o->kept].number]->calls++;
    }
    if (!access)
        t.retries.other();
    t.last.kept = kept.size();
    kept.push_back({code, number, u8(t.carrier), u8(kind), true, false, value}), events++;
}
void Events::access(const Event &e, u32 piece, const Granule &g, int p, int a, int b, u64 at) {
    const Variable &v = shared_.variables[piece];
    if (!v.number || threads_[e.thread].state != LIVE || events >= options_.events)
        return;
    u64 value = 0;
    if (v.valued)
        value_of(e, g, p, a, b, at, value);
    size_t before = kept.size();
    keep(e.thread, e.writes() ? WR : RD, v.number - 1, e.code, value);
    codes.insert(e.code);
    const Last &last = threads_[e.thread].last;
    if (kept.size() > before)
        retry(e, v.number - 1, kept.size() - 1);
    else if (e.reads() && last.kind == RD) // the read before it stands for it
        retry(e, v.number - 1, last.kept);
}
// Its code, by the same calls: a function that reads, called at two places, is no loop.
u64 Events::place_of(const Event &e) const {
    u64 place = e.code;
    for (auto &o : threads_[e.thread].open)
        place = place * 0x9e3779b97f4a7c15ull + o.from;
    return place;
}
// What the access replaces of the thread's tries before.
void Events::retry(const Event &e, u32 variable, size_t at) {
    Retries &r = threads_[e.thread].retries;
    vector<size_t> dropped;
    u8 flags = e.atomic() ? e.flags : 0;
    bool tried = flags & TRIED;
    u64 place = place_of(e);
    if (e.writes())
        r.write(variable, flags & CHANGES, at, flags & AGAIN, dropped);
    else
        r.read({variable, place, tried && flags & MISSED, tried && flags & EXPECTED, at}, dropped);
    drop(dropped);
}
void Events::drop(const vector<size_t> &all) {
    for (size_t i : all) {
        Kept &k = kept[i];
        if (k.kind == WR)
            rewritten_.insert(k.number);
        events -= k.in_log;
        k.in_log = false;
    }
}
// A block of which all events were dropped.
void Events::drop_empty_blocks() {
    struct Begun {
        size_t kept;
        bool empty;
    };
    vector<vector<Begun>> open(MAX_THREADS);
    for (size_t i = 0; i < kept.size(); i++) {
        auto &stack = open[kept[i].thread];
        if (!kept[i].in_log)
            continue;
        if (kept[i].kind == BEGIN) {
            stack.push_back({i, true});
            continue;
        }
        if (kept[i].kind != END) {
            for (auto b = stack.rbegin(); b != stack.rend() && b->empty; ++b)
                b->empty = false;
            continue;
        }
        if (stack.back().empty) {
            Kept &begin = kept[stack.back().kept];
            begun[begin.number]->calls--;
            begin.in_log = false;
            kept[i].in_log = false;
            events -= 2;
        }
        stack.pop_back();
    }
}
// With a write dropped, the values of what is left do not follow from each other.
void Events::forget_values() {
    if (rewritten_.empty())
        return;
    for (Kept &k : kept)
        if ((k.kind == RD || k.kind == WR) && rewritten_.count(k.number))
            k.value = 0;
}
bool Events::step(const Event &e) {
    Thread &t = threads_[e.thread];
    if (events >= options_.events) {
        cut = true;
        return false;
    }
    if (t.state != LIVE) {
        odd += e.kind != START && e.kind != ALLOC && e.kind != TITLE && e.kind != STUCK;
        return true;
    }
    switch (e.kind) {
    case BEGIN:
    case NAMED:
        begin(e);
        break;
    case END:
        if (t.open.empty())
            odd++;
        else
            close(e.thread);
        break;
    case WAIT:
        wait_in_blocks(e);
        break;
    case ACQ:
    case REL:
    case ACQS:
    case RELS:
        lock(e);
        break;
    case SRD:
    case SWR: {
        auto o = shared_.objects.find(e.at);
        if (o != shared_.objects.end() && o->second.number)
            keep(e.thread, e.kind == SWR ? WR : RD, o->second.number - 1, e.code);
        break;
    }
    case FORK:
        if (e.at < threads_.size())
            fork(e.thread, e.at, e.code);
        break;
    case EXIT:
        exit(e.thread);
        break;
    case JOIN:
        if (e.at < threads_.size())
            join(e.thread, e.at, e.code);
        break;
    default:
        break;
    }
    if (t.cuts_after == e.kind)
        e.kind == SWR ? return_to_blocks(e.thread) : cut_blocks(e.thread);
    return true;
}

// ---- blocks: a begin counts once an event stands in it
void Events::begin(const Event &e) {
    Thread &t = threads_[e.thread];
    Function *f = blocks_.of(e);
    bool library = f && f->library;
    if (f && !f->block)
        f = nullptr;
    if (f && t.depth >= int(MAX_OPEN))
        f = nullptr, deep++;
    t.open.push_back({kept.size(), f, library, e.at, false, nullptr, 0});
    if (!f)
        return;
    t.depth++;
    begin_part(e.thread, t.open.back(), f, e.at ? e.at : f->code);
}
void Events::begin_part(u32 thread, Open &o, Function *f, u64 code) {
    Thread &t = threads_[thread];
    t.version++;
    o.kept = kept.size();
    kept.push_back({code, u32(begun.size()), u8(t.carrier), BEGIN, false, false, 0});
    begun.push_back(f);
}
void Events::close(u32 thread) {
    Thread &t = threads_[thread];
    Open o = t.open.back();
    t.open.pop_back();
    if (!o.function)
        return;
    t.depth--;
    end_part(thread, o);
}
void Events::end_part(u32 thread, const Open &o) {
    Thread &t = threads_[thread];
    t.version++;
    if (kept[o.kept].in_log)
        kept.push_back({0, 0, u8(t.carrier), END, true, false, 0});
}

// ---- waits. A block that waits is two: what is before the wait, and what is after it.
void Events::wait_in_blocks(const Event &e) {
    Thread &t = threads_[e.thread];
    if (e.size == FOR_CONDITION)
        t.cuts_after = REL;           // the next event of the thread
    else if (e.size == FOR_BARRIER) { // who comes first does not matter: it is in no block
        cut_blocks(e.thread);
        leave_blocks(e.thread);
        t.cuts_after = SWR;
    } else if (e.flags & RETURNS)
        return_to_blocks(e.thread);
    else if (e.size != FOR_FUTEX) // it may be of a lock that others made
        cut_blocks(e.thread);
    else if (auto x = variable_at_.find(e.at); x != variable_at_.end())
        t.retries.waits_at(x->second);
    if (e.flags & LEAVES)
        leave_blocks(e.thread);
}
void Events::leave_blocks(u32 thread) {
    Thread &t = threads_[thread];
    t.left++;
    for (auto &o : t.open) {
        if (!o.function)
            continue;
        o.left = t.left;
        o.away = o.function;
        o.function = nullptr;
        t.depth--;
    }
}
void Events::return_to_blocks(u32 thread) {
    Thread &t = threads_[thread];
    t.cuts_after = 0;
    for (auto &o : t.open) {
        if (!o.away || o.left != t.left)
            continue;
        o.function = o.away;
        o.away = nullptr;
        t.depth++;
        begin_part(thread, o, blocks_.part(o.function, true), kept[o.kept].code);
        o.waited = true;
    }
    t.left--;
}
void Events::cut_blocks(u32 thread) {
    Thread &t = threads_[thread];
    t.cuts_after = 0;
    for (auto o = t.open.rbegin(); o != t.open.rend(); ++o) {
        if (!o->function)
            continue;
        Kept &k = kept[o->kept];
        if (!o->waited && k.in_log) {
            begun[k.number]->calls--;
            begun[k.number] = blocks_.part(o->function, false);
            begun[k.number]->calls++;
        }
        end_part(thread, *o);
    }
    for (auto &o : t.open) {
        if (!o.function)
            continue;
        begin_part(thread, o, blocks_.part(o.function, true), kept[o.kept].code);
        o.waited = true;
    }
}

// ---- locks: the outermost hold of a recursive one
bool Events::locks_again(Lock &l, const Event &e) { // or it cannot be
    u32 t = e.thread;
    auto share = l.shares.find(t);
    switch (e.kind) {
    case ACQ:
        if (l.owner == int(t))
            return l.times++, true;
        if (l.owner >= 0 || !l.shares.empty())
            return odd++, true;
        l.owner = t, l.times = 1;
        return false;
    case REL:
        if (l.owner != int(t))
            return odd++, true;
        if (--l.times)
            return true;
        l.owner = -1;
        return false;
    case ACQS:
        if (l.owner >= 0)
            return odd++, true;
        return l.shares[t]++ > 0;
    default:
        if (share == l.shares.end())
            return odd++, true;
        if (--share->second)
            return true;
        l.shares.erase(share);
        return false;
    }
}
// A lock that one thread alone takes adds no edge.
bool Events::is_numbered(Lock &l, u64 at) {
    if (l.number)
        return true;
    bool shared = shared_.lock_uses[at].many;
    if (!shared && !options_.all)
        return false;
    if (locks.size() == MAX_LOCKS || (!shared && !room_for_unshared_)) {
        dropped++;
        return false;
    }
    room_for_unshared_ -= !shared;
    locks.push_back(at);
    l.number = locks.size();
    return true;
}
void Events::lock(const Event &e) {
    Lock &l = locks_[e.at];
    if (locks_again(l, e) || options_.data || shared_.ignores(e.at) || !is_numbered(l, e.at))
        return;
    keep(e.thread, e.kind, l.number - 1, e.code);
    kept.back().tried = e.flags & TRIED;
}

// ---- threads. Over 64 of them, one number is given to several in turn; forks and joins are writes
// and reads then.
int Events::carrier_for(u32 thread) {
    for (u32 i = 0; i < MAX_THREADS; i++)
        if (holder_[i] < 0)
            return i;
    for (u32 i = 0; i < MAX_THREADS; i++) // of a thread whose end is known here: nothing is added
        if (threads_[holder_[i]].state >= ENDED && threads_[thread].knows.count(holder_[i]))
            return i;
    for (u32 i = 0; i < MAX_THREADS; i++)
        if (threads_[holder_[i]].state >= ENDED)
            return orders_added++, i;
    return -1;
}
// One that nobody forked. No order is known: it is forked at the start.
void Events::begin_foreign(u32 thread) {
    u32 number = thread;
    if (many_)
        number = find(holder_.begin(), holder_.end(), -1) - holder_.begin();
    if (number == MAX_THREADS)
        return void(odd++);
    threads_[thread].state = LIVE, threads_[thread].carrier = number;
    holder_[number] = thread;
    threads = max(threads, number + 1);
    keep(0, FORK, number, 0);
}
void Events::fork(u32 thread, u32 child, u64 code) {
    Thread &c = threads_[child];
    if (c.state != UNBORN)
        return void(odd++);
    int number = many_ ? carrier_for(thread) : int(child);
    if (number < 0)
        return void(odd++);
    bool fresh = !many_ || holder_[number] < 0;
    c.state = LIVE, c.carrier = number, holder_[number] = child;
    threads = max(threads, u32(number) + 1);
    if (many_)
        c.knows = threads_[thread].knows;
    if (fresh)
        return keep(thread, FORK, number, code);
    c.greets = true;
    keep(thread, WR, numbers_of_threads + 2 * number, code);
}
void Events::exit(u32 thread) {
    Thread &t = threads_[thread];
    while (!t.open.empty())
        close(thread);
    for (auto &l : locks_) { // a lock that its thread never releases
        bool alone = l.second.owner == int(thread), shares = l.second.shares.erase(thread);
        if (!alone && !shares)
            continue;
        odd++;
        if (alone)
            l.second.owner = -1;
        if (!options_.data && l.second.number)
            keep(thread, alone ? REL : RELS, l.second.number - 1, 0);
    }
    t.state = ENDED;
    if (many_)
        keep(thread, WR, numbers_of_threads + 2 * t.carrier + 1, 0);
    else
        keep(thread, EXIT, 0, 0);
}
void Events::join(u32 thread, u32 other, u64 code) {
    Thread &o = threads_[other];
    if (o.state == UNBORN && begins_late_)
        return; // it ended before the log begins
    if (o.state != ENDED)
        return void(odd++);
    o.state = JOINED;
    if (!many_)
        return keep(thread, JOIN, other, code);
    Thread &t = threads_[thread];
    t.knows.insert(o.knows.begin(), o.knows.end());
    t.knows.insert(other);
    keep(thread, RD, numbers_of_threads + 2 * o.carrier + 1, code);
}
