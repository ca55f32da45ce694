// Values that were written from an old one: a variable that a thread read under one hold of a lock,
// and wrote under a later hold of it, with no read in between, where another thread wrote it in
// between. Where no lock is held, an unlocked read and an unlocked write are the two holds.
#pragma once
#include "shared.hpp"
#include "stacks.hpp"

struct StaleAccess {
    u32 thread = 0;
    u64 event = 0, code = 0;   // its number in the trace; where the program made it
    std::vector<Frame> inside; // its open functions, the library's left out
};
struct StaleWrite {
    StaleAccess read, between, write;
    u32 piece = 0;
    u64 at = 0;              // of the variable
    u64 lock = 0;            // 0: none was held
    u64 opened = 0;          // when the innermost function began that was open at both; 0 none
    u64 function = 0;        // its code
    u64 steps = 0;           // of the thread, from the read to the write
    bool by_library = false; // it wrote
    u64 times = 1;
};

class Stale {
public:
    Stale(const Stacks &stacks, const Shared &shared, bool races_are_ordered);
    void access(const Event &e, u32 piece, u64 at); // before the stacks' step
    void step(const Event &e);
    // The findings, those of the fewest steps first, at most MOST.
    std::vector<StaleWrite> found() const;
    static const size_t MOST = 50;

private:
    struct Hold {
        u64 lock;
        u32 number; // of all holds
        int times;
    };
    struct Held { // the innermost locks
        Hold hold[2];
        int count = 0;
        bool has(u64 lock) const;
    };
    struct Read {
        u32 thread;
        u64 event, code, step;
        Held held;
    };
    struct Write {
        u32 thread = 0; // plus one
        u64 event = 0, code = 0;
        Held held;
    };
    struct Seen {
        std::vector<Read> reads; // of each thread whose last access is a read
        Write last, other;       // the last write; the last one of another thread
    };
    Held held(u32 thread) const;
    bool in_two_holds(const Read &read, const Held &now, u64 &lock) const;
    void write(const Event &e, u32 piece, u64 at, Seen &seen);
    void tell(const Event &e, u32 piece, u64 at, const Read &r, const Write &w, u64 lock);
    const Stacks &stacks_;
    const Shared &shared_;
    bool races_are_ordered_;
    std::vector<Seen> seen_;               // by piece
    std::vector<std::vector<Hold>> holds_; // by thread
    std::vector<u64> steps_;               // by thread
    u32 holds_numbered_ = 0;
    std::map<std::pair<u64, u64>, StaleWrite> found_; // by the code of the read and of the write
};
// Fills `inside` of the accesses, by a replay of the trace.
void find_functions(Trace &trace, Modules &modules, std::vector<StaleWrite> &found);
