#include "trace.hpp"
#include <algorithm>
#include <cerrno>
#include <cstring>
#include <fcntl.h>
#include <map>
#include <queue>
#include <stdexcept>
#include <sys/mman.h>
#include <sys/stat.h>
#include <unistd.h>

using namespace std;

static const u64 MAX_THREAD = 1 << 24; // plus one
static const u64 MAX_DEPTH = 4096;     // of blocks

Trace::Trace(const string &path) {
    struct stat s;
    int fd = ::open(path.c_str(), O_RDONLY);
    if (fd < 0 || fstat(fd, &s))
        throw runtime_error(path + ": " + strerror(errno));
    length_ = s.st_size;
    void *p =
        length_ >= HEAD_BYTES ? mmap(nullptr, length_, PROT_READ, MAP_PRIVATE, fd, 0) : MAP_FAILED;
    close(fd);
    head_ = static_cast<const head *>(p);
    if (p == MAP_FAILED || head_->magic != MAGIC)
        throw runtime_error(path + ": no trace");
    first_ = reinterpret_cast<const record *>(static_cast<const char *>(p) + HEAD_BYTES);
    read_chunks();
    starts_.resize(streams_.size());
    for (size_t t = 0; t < starts_.size(); t++)
        open(starts_[t], t);
    if (overwritten())
        begin_behind(head_->overwritten_until);
    else
        merge();
}

// What lies behind the end of the file was given out, and never written.
void Trace::read_chunks() {
    typedef pair<u64, u32> Place; // round, chunk
    u64 chunks = min<u64>(head_->chunks, (length_ - HEAD_BYTES) / (CHUNK * sizeof(record)));
    vector<vector<Place>> places;
    for (u64 c = 0; c < chunks; c++) {
        u64 what = first_[c * CHUNK].what, thread = what & ((1 << ROUND_SHIFT) - 1);
        if (!thread || thread >= MAX_THREAD || first_[c * CHUNK].where >> STATE_SHIFT >= CHUNK)
            continue;
        if (thread > places.size())
            places.resize(thread);
        places[thread - 1].push_back({what >> ROUND_SHIFT, c});
    }
    streams_.resize(places.size());
    for (size_t t = 0; t < places.size(); t++) {
        sort(places[t].begin(), places[t].end());
        for (auto &place : places[t])
            streams_[t].push_back(place.second);
    }
}

void Trace::open(Cursor &c, size_t thread) const {
    c.chunks = &streams_[thread], c.thread = thread;
    if (!c.chunks->empty())
        enter_chunk(c);
}

static bool stamped(const record *r) {
    int k = r->what & 31;
    return k != BEGIN && k != NAMED && k != END && k != MORE && k != HIGH && k != STATE;
}
static int numbers_of(int kind) {
    switch (kind) {
    case RDS:
    case WRS:
    case ALLOC:
    case START:
    case STUCK:
        return 1;
    case TITLE:
        return 2;
    default:
        return 0;
    }
}
// The stamp of the next event; false where the stream ends, also in the middle of an event that a
// killed thread wrote.
bool Trace::next_stamp(Cursor c, u32 &stamp) const {
    while (const record *r = current(c)) {
        if (stamped(r)) {
            for (int i = 1; i <= numbers_of(r->what & 31); i++)
                if (c.place + i >= CHUNK || (r[i].what & 31) != MORE)
                    return false;
            stamp = r->where >> 32;
            return true;
        }
        c.place++;
    }
    return false;
}
// An event with the begins before it and the ends behind it.
u32 Trace::take_group(Cursor &c) const {
    u32 n = 0;
    for (bool done = false; const record *r = current(c);) {
        int k = r->what & 31;
        if (done && k != END && k != MORE)
            break;
        done |= stamped(r);
        c.place++, n++;
    }
    return n;
}

void Trace::merge() {
    typedef pair<u32, u32> Next; // stamp, thread
    priority_queue<Next, vector<Next>, greater<Next>> queue;
    vector<Cursor> at = starts_;
    u32 stamp;
    for (u32 t = 0; t < at.size(); t++)
        if (next_stamp(at[t], stamp))
            queue.push({stamp, t});
    while (!queue.empty()) {
        u32 t = queue.top().second, taken = 0;
        queue.pop();
        u32 limit = queue.empty() ? ~0u : queue.top().first;
        bool more;
        do {
            taken += take_group(at[t]);
            more = next_stamp(at[t], stamp);
        } while (more && stamp <= limit);
        runs_.push_back({t, taken});
        records_ += taken;
        if (more)
            queue.push({stamp, t});
    }
}

// ---- a ring. Its log begins behind the last stamp that is missing in some thread. What is so
// there is told before the first event.
static Event state_event(u32 thread, int kind, u64 at, u64 code) {
    Event e{};
    e.thread = thread, e.kind = kind, e.at = at, e.code = code;
    return e;
}
namespace {
struct State {
    vector<Event> thread, held, open, waits;
    bool ended = false;
    void step(const Event &e);

private:
    void release(const Event &e);
};
} // namespace
void State::release(const Event &e) {
    int taken = e.kind == REL ? ACQ : ACQS;
    auto l = find_if(held.rbegin(), held.rend(),
                     [&](auto &h) { return h.kind == taken && h.at == e.at; });
    if (l != held.rend())
        held.erase(next(l).base());
}
void State::step(const Event &e) {
    if (e.kind != END && e.kind != HIGH)
        waits.clear();
    switch (e.kind) {
    case START:
    case TITLE:
        thread.push_back(e);
        break;
    case BEGIN:
    case NAMED:
        open.push_back(e);
        break;
    case END:
        if (!open.empty())
            open.pop_back();
        break;
    case ACQ:
    case ACQS:
        held.push_back(e);
        break;
    case REL:
    case RELS:
        release(e);
        break;
    case WAIT:
    case CONTENDED:
    case STUCK:
        waits.push_back(e);
        break;
    case EXIT:
        ended = true;
        break;
    default:
        break;
    }
}
// What the chunk at the cursor begins with.
vector<Event> Trace::state_of_chunk(Cursor c) const {
    const record *r = chunk_at(c);
    vector<Event> all;
    if (!(r->where >> STATE_SHIFT))
        return all; // the thread begins here
    all.push_back(state_event(c.thread, START, r[1].what >> 16, r[1].where));
    all.back().number = r[2].where;
    if (r[4].where) {
        all.push_back(state_event(c.thread, TITLE, c.thread, 0));
        all.back().number = r[4].where, all.back().second = r[5].where;
    }
    u32 end = c.place;
    u64 open = r[3].where;
    c.place = 2 + STATE_NUMBERS;
    for (; c.place < end; open--)
        all.emplace_back(), decode(c, chunk_at(c) + c.place, all.back());
    bool deeper = open > 0 && open <= MAX_DEPTH && all.back().kind != START;
    if (deeper) // they have no names there
        all.insert(all.end(), open, Event(all.back()));
    return all;
}
void Trace::begin_behind(u32 stamp) {
    State all;
    auto add = [](vector<Event> &to, const vector<Event> &from) {
        to.insert(to.end(), from.begin(), from.end());
    };
    for (auto &c : starts_) {
        State one;
        if (c.chunks->empty())
            continue;
        for (auto &e : state_of_chunk(c))
            one.step(e);
        for (u32 next; next_stamp(c, next) && next <= stamp;) {
            Cursor group = c;
            for (u32 left = take_group(group); left > 0;) {
                Event e;
                left -= decode(c, current(c), e);
                one.step(e);
            }
        }
        if (one.ended)
            continue;
        add(all.thread, one.thread), add(all.held, one.held);
        add(all.open, one.open), add(all.waits, one.waits);
    }
    merge();
    for (auto *part : {&all.thread, &all.held})
        add(state_, *part);
    add_held_locks();
    for (auto *part : {&all.open, &all.waits})
        add(state_, *part);
}
// A lock that is released without being taken was taken before.
void Trace::add_held_locks() {
    map<pair<u64, u32>, long> exclusive, shares; // by lock and thread: how many holds
    vector<Event> taken;
    each([&](const Event &e) {
        bool share = e.kind == ACQS || e.kind == RELS;
        if (e.kind < ACQ || e.kind > RELS)
            return true;
        long &holds = (share ? shares : exclusive)[{e.at, e.thread}];
        if (e.kind == ACQ || e.kind == ACQS)
            holds++;
        else if (holds > 0)
            holds--;
        else
            taken.push_back(state_event(e.thread, share ? ACQS : ACQ, e.at, 0));
        return true;
    });
    state_.insert(state_.end(), taken.begin(), taken.end());
}
