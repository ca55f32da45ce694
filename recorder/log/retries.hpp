// Tries that a later one replaced: a loop that reads a variable until it finds what it waits for,
// the rounds of a compare-and-swap that failed, and the exchanges of a lock that was not free.
#pragma once
#include <cstddef>
#include <cstdint>
#include <vector>

class Retries { // of one thread
public:
    struct Read {
        uint32_t variable;
        uint64_t place;
        bool missed, expected; // of a compare-and-swap
        size_t kept;
    };
    // The thread's next event is a read. It replaces these, which are appended to `dropped`.
    void read(const Read &r, std::vector<size_t> &dropped);
    // It is a write; `changes`: of a read-modify-write, the read of which came before, or is one
    // with the read before; `again`: of an exchange, of what the thread's exchange there wrote
    // before.
    void write(uint32_t variable, bool changes, size_t kept, bool again,
               std::vector<size_t> &dropped);
    void waits_at(uint32_t variable); // by a futex
    void other();                     // another event

private:
    typedef std::vector<Read>::iterator At;
    void drop(At from, At to, std::vector<size_t> &dropped);
    At last_run(uint32_t variable);
    void drop_failed_round(const Read &r, std::vector<size_t> &dropped);
    std::vector<Read> reads_; // since the thread's last event of another kind
    struct Exchange {
        uint32_t variable = ~0u;
        std::vector<size_t> kept; // its read and its write
        bool waited = false;
    } exchange_;
};
