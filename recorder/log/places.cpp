#include "places.hpp"
#include "fields.hpp"
#include <cstring>

using namespace std;

static const u64 BLOCK_MOST =
    1 << 20;                  // bytes behind the start of a block that are taken for its own
static const u64 COUNTS = 16; // of a shared pointer, before its object

// ---- what is met
void Places::meet(u32 piece, u64 at) {
    Place &p = pieces_[piece];
    if (!p.met)
        p = find(at);
}
void Places::step(const Event &e) {
    if (e.kind == ALLOC)
        allocate(e);
    else if (e.kind == BEGIN)
        look_for_constructor(e);
    else if ((e.kind == ACQ || e.kind == ACQS) && !locks_.count(e.at))
        locks_[e.at] = find(e.at);
}
void Places::allocate(const Event &e) {
    auto &open = stacks_.of(e.thread);
    u64 by = e.second ? e.second : e.code;
    heap_[e.at] = {by, e.number};
    Maker &m = makers_[by];
    if (m.code && m.depth >= open.size())
        return;
    m = {stacks_.own_code(e.thread, e.code), 0, open.size()};
    if (!open.empty() && open.back().library)
        m.function = open.back().function;
    else
        fresh_[e.thread] = {by, open.size()};
}
// A constructor that follows an allocation, called by the same function, is the object's.
void Places::look_for_constructor(const Event &e) {
    auto f = fresh_.find(e.thread);
    if (f == fresh_.end())
        return;
    if (stacks_.of(e.thread).size() == f->second.depth &&
        !made_by(modules_.function(e.code)).empty())
        makers_[f->second.maker].function = e.code;
    fresh_.erase(f);
}
Places::Place Places::find(u64 at) const {
    Place p;
    p.met = true;
    p.frame = stacks_.frame_place(at);
    auto b = heap_.upper_bound(at);
    if (p.frame.function || b == heap_.begin())
        return p;
    --b;
    u64 offset = at - b->first;
    if (offset < max(b->second.size, BLOCK_MOST))
        p.block = b->second, p.offset = offset;
    return p;
}

// ---- names
static size_t closing(const string &s, size_t open) { // of the bracket that opens here
    int depth = 0;
    for (size_t i = open; i < s.size(); i++) {
        depth += s[i] == '<' || s[i] == '(';
        depth -= (s[i] == '>' && s[i - 1] != '-') || s[i] == ')';
        if (!depth)
            return i;
    }
    return s.size();
}
static string first_argument(const string &s, size_t open) {
    size_t end = closing(s, open);
    int depth = 0;
    for (size_t i = open; i < end; i++) {
        depth += s[i] == '<' || s[i] == '(';
        depth -= (s[i] == '>' && s[i - 1] != '-') || s[i] == ')';
        if (s[i] == ',' && depth == 1)
            return s.substr(open + 1, i - open - 1);
    }
    return s.substr(open + 1, end - open - 1);
}
static size_t last_part(const string &s) { // where its last name begins
    size_t part = 0;
    for (size_t i = 0; i < s.size(); i++) {
        if (s[i] == '<' || s[i] == '(')
            i = closing(s, i);
        else if (s.compare(i, 2, "::") == 0)
            part = i + 2;
    }
    return part;
}
static bool opens_parameters(const string &s, size_t i) {
    return s[i] == '(' && s.compare(i, 21, "(anonymous namespace)") != 0;
}
string without_parameters(const string &s) {
    size_t start = 0, end = s.size();
    for (size_t i = 0; i < s.size(); i++) {
        if (s.compare(i, 8, "operator") == 0)
            break;
        if (opens_parameters(s, i)) {
            end = i;
            break;
        }
        if (s[i] == '<' || s[i] == '(')
            i = closing(s, i);
        else if (s[i] == ' ')
            start = i + 1;
    }
    return s.substr(start, end - start);
}
string made_by(const string &function) {
    for (const char *library : {"make_unique<", "new_allocator<"}) {
        size_t at = function.find(library);
        if (at != string::npos)
            return first_argument(function, at + strlen(library) - 1);
    }
    string name = without_parameters(function);
    size_t part = last_part(name);
    if (part < 2)
        return "";
    string outer = name.substr(0, part - 2), constructor = name.substr(part);
    string own = outer.substr(last_part(outer));
    return own.substr(0, own.find('<')) == constructor ? outer : "";
}
string Places::frame_name(const FramePlace &f) {
    Module *m = modules_.of(f.function);
    if (!m || !modules_.readable(*m))
        return "";
    string local = modules_.fields(*m).local(f.function - m->bias, f.distance);
    return local.empty() ? "" : without_parameters(modules_.function(f.function)) + "::" + local;
}
string Places::heap_name(const Place &p) {
    const Maker &by = makers_[p.block.maker];
    string line = modules_.line(by.code), type, path;
    u64 size = p.block.size, offset = p.offset;
    Module *m = by.function ? modules_.of(by.function) : nullptr;
    if (m)
        type = made_by(modules_.function(by.function));
    const string counted = "std::_Sp_counted_ptr_inplace<";
    if (type.compare(0, counted.size(), counted) == 0 && offset >= COUNTS && size > COUNTS)
        type = first_argument(type, counted.size() - 1), size -= COUNTS, offset -= COUNTS;
    string own = type.substr(last_part(type));
    if (!own.empty() && modules_.fields(*m).member(own, size, offset, path))
        return own + path + " at " + line;
    return "heap " + line + "+" + to_string(p.offset);
}
string Places::name(const Place &p, u64 at) {
    if (modules_.symbol(at))
        return modules_.place(at);
    string local = p.frame.function ? frame_name(p.frame) : "";
    if (!local.empty())
        return local;
    return p.block.maker ? heap_name(p) : modules_.place(at);
}
string Places::variable(u32 piece, u64 at) {
    return name(pieces_[piece], at);
}
string Places::lock(u64 at) {
    auto l = locks_.find(at);
    return l == locks_.end() ? modules_.place(at) : name(l->second, at);
}
void Places::add_codes(set<u64> &codes) const {
    auto add = [&](const Place &p) {
        auto m = makers_.find(p.block.maker);
        if (m != makers_.end())
            codes.insert(m->second.code);
    };
    for (auto &p : pieces_)
        add(p);
    for (auto &l : locks_)
        add(l.second);
}
