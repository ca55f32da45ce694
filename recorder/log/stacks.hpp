// The open functions of each thread, as the trace goes on.
#pragma once
#include "modules.hpp"
#include "trace.hpp"
#include <map>
#include <unordered_map>
#include <vector>

struct Frame {
    u64 function, from; // its code; where it was called
    u64 base = 0;       // its frame pointer; 0 unknown
    u64 opened = 0;     // the event that opened it
    bool library = false, named = false;
};
// A place in the frame of a function: by its code, and the distance from its canonical frame
// address.
struct FramePlace {
    u64 function = 0;
    int64_t distance = 0;
};

class Stacks {
public:
    Stacks(size_t threads, Modules &modules) : modules_(modules), threads_(threads) {}
    void step(const Event &e);
    u64 now() const { return now_; } // the number of the event
    const std::vector<Frame> &of(u32 thread) const { return threads_[thread].open; }
    // Where the program called the library that the code is in; the code itself if it is in none.
    u64 own_code(u32 thread, u64 code) const;
    // What lies at this address, where it is on a stack; function 0: nothing that is known.
    FramePlace frame_place(u64 address) const;
    bool is_library_code(u64 function);

private:
    struct Thread {
        std::vector<Frame> open;
        u64 stack_end = 0;
    };
    struct Range {
        u64 low;
        u32 thread;
    };
    void open(const Event &e);
    Modules &modules_;
    std::vector<Thread> threads_;
    std::map<u64, Range> stacks_; // by their ends
    std::unordered_map<u64, bool> library_;
    u64 now_ = 0;
};
