// Which memory threads share, cut into variables, and which variables' order is in the log without
// their accesses.
#pragma once
#include "memory.hpp"
#include <algorithm>
#include <map>
#include <memory>
#include <set>
#include <unordered_map>

typedef std::vector<u32> Clock;

// A granule of 8 bytes. Accesses cut it into pieces: a piece begins at each byte at which one
// begins, or behind which one ends.
struct Granule {
    u32 first = 0,
        base = 0; // the thread plus one that touched it first; the number of its first piece
    u8 cuts = 0,
       atomics = 0; // bit: a piece begins at this byte; this byte was accessed by an atomic
    bool many = false, written = false;
    int piece(int byte) const { return __builtin_popcount(cuts & ((2 << byte) - 1)); }
    int pieces() const { return 1 + __builtin_popcount(cuts); }
    int first_byte(int piece) const;
};
struct Variable {
    bool many = false, written = false, atomic = false, racy = false, valued = false;
    bool ignored = false;
    u32 first = 0, number = 0; // number: in the log, plus one
    u32 writer = 0, write_clock = 0, reader = 0, read_clock = 0;
    std::unique_ptr<Clock> readers;
    u64 at = 0, initial = 0;
};
struct Object { // a semaphore, a barrier, a once
    Clock w, r;
    u32 first = 0, number = 0;
    bool many = false;
};
struct LockUse {
    u32 first = 0; // the thread plus one that took it first
    bool many = false;
};

class Shared {
public:
    Shared(Trace &trace, bool with_values);
    std::vector<Variable> variables; // by piece; 0 is none
    std::vector<u32> order;          // pieces in the order of their first accesses
    std::unordered_map<u64, Object> objects;
    std::unordered_map<u64, LockUse> lock_uses;
    u64 records = 0, late = 0, kinds[32] = {};
    std::vector<u64> routine;             // of each thread
    std::vector<std::vector<u64>> begins; // the functions of its first begins
    std::vector<std::string> title;
    std::vector<u32> foreign; // threads that nobody forked
    u64 hidden = 0;           // reads that had not what was written last
    std::map<u64, u64> hidden_at;

    // What is ignored orders nothing: finds the races anew.
    void ignore(const std::set<u64> &locks, const std::set<u32> &pieces);
    bool ignores(u64 lock) const { return ignored_locks_.count(lock) > 0; }

    // Replays the trace. use(event, piece, value) for each piece of a shared access, then
    // done(event) for each event, until it returns false.
    template <class F, class G> void each(F use, G done) {
        size_t next = 0;
        trace_.each([&](const Event &e) {
            if (e.access())
                pieces(e, next, use);
            return done(e);
        });
    }

private:
    template <class F> void pieces(const Event &e, size_t &next, F use) {
        if (!e.bytes())
            return;
        u64 last = e.at + e.bytes() - 1;
        for (u64 g = e.at >> 3; g <= last >> 3; g++) {
            u32 id = ids_[next++];
            if (!(shared_[id >> 6] >> (id & 63) & 1))
                continue;
            const Granule &n = granules_[id];
            int a = g == e.at >> 3 ? e.at & 7 : 0, b = g == last >> 3 ? last & 7 : 7;
            for (int p = n.piece(a); p <= n.piece(b); p++)
                use(e, n.base + p, n, p, a, b, g << 3);
        }
    }
    void find_shared();
    void number_pieces();
    void find_races();
    void compare_values();
    void meet_lock(const Event &e);
    Trace &trace_;
    bool with_values_;
    std::set<u64> ignored_locks_;
    std::set<u32> ignored_pieces_;
    std::vector<Granule> granules_;
    std::vector<u32> ids_;    // granules of the accesses, in order
    std::vector<u64> shared_; // a bit for each granule
};
// The value that an access has of a piece; false where it was not noted.
bool value_of(const Event &e, const Granule &g, int piece, int a, int b, u64 at, u64 &value);
