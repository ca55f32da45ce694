// Which life of memory an access is about. Memory begins anew where it is given out, and where a
// frame or a thread ends.
#pragma once
#include "trace.hpp"
#include <unordered_map>

class Memory {
public:
    explicit Memory(size_t threads)
        : low_(threads, ~0ull), from_(threads), to_(threads), near_(NEAR) {}
    u32 granules() const { return next_; }

    // Calls use(id, first byte, last byte, address) for each granule of 8 bytes that the event
    // accesses. The numbers count up from 1, in the order of the first accesses.
    template <class F> void step(const Event &e, F use) {
        if (e.kind == ALLOC || e.kind == START) {
            wipe(e.at, e.number);
            if (e.kind == START)
                from_[e.thread] = e.at, to_[e.thread] = e.at + e.number;
        } else if (e.kind == END) {
            u64 &low = low_[e.thread];
            if (low < e.at && e.at < to_[e.thread])
                wipe(low, e.at - low), low = e.at;
        } else if (e.access() && e.bytes()) {
            u64 last = e.at + e.bytes() - 1;
            if (e.at >= from_[e.thread] && e.at < to_[e.thread] && e.at < low_[e.thread])
                low_[e.thread] = e.at;
            for (u64 g = e.at >> 3; g <= last >> 3; g++)
                use(id(g), g == e.at >> 3 ? e.at & 7 : 0, g == last >> 3 ? last & 7 : 7, g << 3);
        }
    }

private:
    static constexpr size_t PAGE = 512,
                            NEAR = 1024; // granules of a page; pages that are found at once
    struct Found {
        u64 page = ~0ull;
        std::vector<u32> *ids = nullptr;
    };
    u32 id(u64 g) {
        u64 page = g / PAGE;
        Found &n = near_[page % NEAR];
        if (n.page != page) {
            auto &p = pages_[page];
            if (p.empty())
                p.resize(PAGE);
            n = {page, &p};
        }
        u32 &x = (*n.ids)[g % PAGE];
        return x ? x : x = next_++;
    }
    static void clear(std::vector<u32> &ids, u64 page, u64 first, u64 last) {
        for (u64 g = std::max(first, page * PAGE); g <= std::min(last, page * PAGE + PAGE - 1); g++)
            ids[g % PAGE] = 0;
    }
    void wipe(u64 a, u64 n) {
        if (!n)
            return;
        u64 first = a >> 3, last = (a + n - 1) >> 3;
        if ((last - first) / PAGE > pages_.size()) {
            for (auto &p : pages_)
                if (p.first >= first / PAGE && p.first <= last / PAGE)
                    clear(p.second, p.first, first, last);
            return;
        }
        for (u64 page = first / PAGE; page <= last / PAGE; page++) {
            auto p = pages_.find(page);
            if (p != pages_.end())
                clear(p->second, page, first, last);
        }
    }
    std::unordered_map<u64, std::vector<u32>> pages_;
    std::vector<u64> low_, from_,
        to_; // of each thread: the lowest address of its stack that it touched; its stack
    std::vector<Found> near_;
    u32 next_ = 1;
};
