#include "stacks.hpp"
#include "blocks.hpp"

using namespace std;

static const u64 POINTER_TO_CFA = 16; // the frame pointer and the return address

bool Stacks::is_library_code(u64 function) {
    auto i = library_.emplace(function, false);
    if (i.second)
        i.first->second = is_library(modules_.function(function));
    return i.first->second;
}
void Stacks::open(const Event &e) {
    Thread &t = threads_[e.thread];
    Frame f{e.code, e.at};
    f.opened = now_, f.named = e.kind == NAMED;
    f.library = !f.named && is_library_code(e.code);
    u64 outer = t.open.empty() ? t.stack_end : t.open.back().base;
    if (f.named)
        f.base = outer;
    else if (outer && e.span && e.span < outer)
        f.base = outer - e.span;
    t.open.push_back(f);
}
void Stacks::step(const Event &e) {
    now_++;
    Thread &t = threads_[e.thread];
    switch (e.kind) {
    case BEGIN:
    case NAMED:
        open(e);
        break;
    case END:
        if (!t.open.empty())
            t.open.pop_back();
        break;
    case START:
        t.stack_end = e.at + e.number;
        if (e.number)
            stacks_[t.stack_end] = {e.at, e.thread};
        break;
    case EXIT:
        t.open.clear();
        break;
    default:
        break;
    }
}
u64 Stacks::own_code(u32 thread, u64 code) const {
    auto &open = threads_[thread].open;
    for (auto f = open.rbegin(); f != open.rend() && f->library && f->from; ++f)
        code = f->from;
    return code;
}
FramePlace Stacks::frame_place(u64 address) const {
    auto range = stacks_.upper_bound(address);
    if (range == stacks_.end() || address < range->second.low)
        return {};
    auto &open = threads_[range->second.thread].open;
    for (auto f = open.rbegin(); f != open.rend(); ++f) {
        if (f->named || !f->base || address >= f->base + POINTER_TO_CFA)
            continue;
        return {f->function, int64_t(address - f->base - POINTER_TO_CFA)};
    }
    return {};
}
