// A trace, read in the order of its stamps.
#pragma once
#include "trace.h"
#include <string>
#include <vector>

typedef uint64_t u64;
typedef uint32_t u32;
typedef uint8_t u8;

struct Event {
    u32 thread;
    u8 kind, flags;
    bool valued;
    unsigned size;
    u64 at, code, number; // number: of the first MORE
    u64 second;           // of the second
    u64 span;             // of a begin: how far its frame lies below the outer one's, 0 unknown
    bool reads() const { return kind == RD || kind == RDS || kind == ARD; }
    bool writes() const { return kind == WR || kind == WRS || kind == AWR; }
    bool atomic() const { return kind == ARD || kind == AWR; }
    bool access() const { return kind >= RD && kind <= AWR; }
    u64 bytes() const { return kind == RDS || kind == WRS ? number : size; }
};

class Trace {
public:
    explicit Trace(const std::string &path); // throws std::runtime_error
    const head &info() const { return *head_; }
    size_t threads() const { return streams_.size(); }
    bool full() const { return head_->stopped != GOES_ON && head_->stopped != ENDED; }
    u64 records() const { return records_; }
    // Records that made way for newer ones: the trace begins behind them.
    u64 overwritten() const { return head_->overwritten; }

    // Calls use(event) for each event, until it returns false. The streams are merged once; what
    // comes again is a replay. What was so where the trace begins comes first.
    template <class F> void each(F use) {
        std::vector<Cursor> at = starts_;
        for (const Event &e : state_)
            if (!use(e))
                return;
        for (const Run &r : runs_) {
            Cursor &c = at[r.thread];
            for (u32 left = r.records; left > 0;) {
                Event e;
                left -= decode(c, current(c), e);
                if (e.kind != HIGH && !use(e))
                    return;
            }
        }
    }

private:
    struct Cursor {
        const std::vector<u32> *chunks;
        size_t chunk = 0;
        u32 place = 1;
        u64 high = 0;
        u32 thread = 0;
    };
    struct Run {
        u32 thread, records;
    };
    const record *chunk_at(const Cursor &c) const {
        return first_ + u64((*c.chunks)[c.chunk]) * CHUNK;
    }
    // To where the cursor's chunk begins, behind the state of its thread.
    void enter_chunk(Cursor &c) const {
        const record *r = chunk_at(c);
        c.high = r->where << 32;
        c.place = 1 + (r->where >> STATE_SHIFT);
    }
    void open(Cursor &c, size_t thread) const;
    const record *current(Cursor &c) const {
        for (;;) {
            if (c.chunk == c.chunks->size())
                return nullptr;
            const record *r = chunk_at(c) + c.place;
            if (c.place < CHUNK && r->what)
                return r;
            if (++c.chunk < c.chunks->size())
                enter_chunk(c);
        }
    }
    // The event at the cursor, which moves behind it: how many records it took.
    u32 decode(Cursor &c, const record *r, Event &e) const {
        e.thread = c.thread, e.kind = r->what & 31, e.flags = r->what >> 13 & 7,
        e.size = r->what >> 5 & 255, e.at = r->what >> 16;
        e.code = c.high | u32(r->where), e.number = e.second = e.span = 0, e.valued = false;
        if (e.kind == BEGIN || e.kind == NAMED)
            e.code = r->where & ((1ull << FRAME_SHIFT) - 1),
            e.span = (r->where >> FRAME_SHIFT) * FRAME_UNIT;
        if (e.kind == HIGH)
            c.high = e.at << 32;
        u32 taken = 1;
        for (; c.place + taken < CHUNK && (r[taken].what & 31) == MORE; taken++) {
            (taken == 1 ? e.number : e.second) = r[taken].where;
            e.valued |= (r[taken].what >> 13 & VALUED) != 0;
        }
        c.place += taken;
        return taken;
    }
    bool next_stamp(Cursor c, u32 &stamp) const;
    u32 take_group(Cursor &c) const;
    void read_chunks();
    void merge();
    std::vector<Event> state_of_chunk(Cursor c) const;
    void begin_behind(u32 stamp);
    void add_held_locks();

    const head *head_;
    const record *first_;
    u64 length_ = 0, records_ = 0;
    std::vector<std::vector<u32>> streams_;
    std::vector<Cursor> starts_;
    std::vector<Event> state_;
    std::vector<Run> runs_;
};
