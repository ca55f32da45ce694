// Names of what lies in memory: globals, objects on stacks and on the heap, by DWARF.
#pragma once
#include "shared.hpp"
#include "stacks.hpp"

class Places {
public:
    Places(Modules &modules, const Stacks &stacks, size_t pieces)
        : modules_(modules), stacks_(stacks), pieces_(pieces) {}
    void meet(u32 piece, u64 at); // a variable, at its first access
    void step(const Event &e);    // before the stacks' step
    std::string variable(u32 piece, u64 at);
    bool on_heap(u32 piece) const { return pieces_[piece].block.maker != 0; }
    std::string lock(u64 at);
    void add_codes(std::set<u64> &codes) const; // those whose lines a name has

private:
    struct Block {
        u64 maker = 0, size = 0; // maker: by which calls, 0 none
    };
    struct Maker {
        u64 code = 0, function = 0; // where; the function whose name tells the type
        size_t depth = 0;           // of the stack, as far as it was told
    };
    struct Place {
        FramePlace frame;
        Block block;
        u64 offset = 0;
        bool met = false;
    };
    struct New {
        u64 maker = 0;
        size_t depth = 0;
    };
    void allocate(const Event &e);
    void look_for_constructor(const Event &e);
    Place find(u64 at) const;
    std::string name(const Place &p, u64 at);
    std::string frame_name(const FramePlace &f);
    std::string heap_name(const Place &p);
    Modules &modules_;
    const Stacks &stacks_;
    std::vector<Place> pieces_;
    std::unordered_map<u64, Place> locks_;
    std::map<u64, Block> heap_;
    std::unordered_map<u64, Maker> makers_;
    std::unordered_map<u32, New> fresh_; // of each thread: what it allocated just now
};
// The class that a function of this name constructs, or allocates for; empty where it tells none.
std::string made_by(const std::string &function);
// The function's name without its parameters and what it returns.
std::string without_parameters(const std::string &function);
