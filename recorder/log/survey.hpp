// A first look at the trace: which routines of threads loop, and what had not ended at its end.
#pragma once
#include "blocks.hpp"
#include "stacks.hpp"

struct HeldLock {
    u64 at, code; // its address; where it was acquired
    bool shared;
};
// A wait that had not ended, or a thread that holds locks.
struct LastState {
    u32 thread = 0;
    wait what = FOR_TIME; // FOR_TIME: it does not wait
    bool ends = false;    // by itself, after a time
    u64 at = 0, code = 0; // for what: an address, or a thread plus one; where
    u64 inside = 0;       // the program's innermost function
    int held_by = -1;     // a thread that holds the lock, or is waited for
    std::vector<HeldLock> holds;
};

class Survey {
public:
    Survey(Trace &trace, Modules &modules, const Blocks &blocks);
    std::set<std::string> loops;            // routines of threads that loop
    std::set<u64> functions;                // the code of all that were called
    std::vector<LastState> last;            // of the threads that had not ended
    std::vector<std::vector<u32>> circles;  // threads that wait for each other
    std::unordered_map<u64, u64> lock_code; // where each lock was first acquired

private:
    struct Lock {
        int owner = -1, times = 0;
        u64 code = 0;
        std::map<u32, std::pair<int, u64>> shares; // of each thread: how many, since where
    };
    struct Thread {
        bool began = false, ended = false;
        LastState last;
        std::vector<std::set<std::pair<u64, int>>> seen; // of each open routine: what it did
        std::vector<size_t> routines;                    // their depths
    };
    void step(const Event &e);
    void look_for_loops(const Event &e);
    void follow_wait(const Event &e);
    void follow_lock(const Event &e);
    void find_circles();
    void tell_holds();
    int holder(const LastState &s) const;

    Modules &modules_;
    const Blocks &blocks_;
    Stacks stacks_;
    std::vector<Thread> threads_;
    std::unordered_map<u64, Lock> locks_;
    std::unordered_map<u64, bool> routine_;
};
