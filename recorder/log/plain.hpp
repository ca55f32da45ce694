// Variables that are written without an atomic operation once two threads have touched them.
#pragma once
#include "shared.hpp"

class PlainWrites {
public:
    explicit PlainWrites(size_t pieces) : first_(pieces), state_(pieces) {}
    void access(const Event &e, u32 piece) {
        u32 thread = e.thread + 1;
        if (!first_[piece])
            first_[piece] = thread;
        if (first_[piece] != thread)
            state_[piece] |= MANY;
        if (state_[piece] & MANY && e.writes() && !e.atomic())
            state_[piece] |= PLAIN;
    }
    bool of(u32 piece) const { return state_[piece] & PLAIN; }

private:
    enum { MANY = 1, PLAIN = 2 };
    std::vector<u32> first_; // the first thread, plus one
    std::vector<u8> state_;
};
