#include "fields.hpp"
#include "dwarf.hpp"
#include <algorithm>

using namespace std;
using namespace dwarf;

struct Fields::Reader {
    explicit Reader(const string &path);
    string path(u64 variable, u64 offset);
    string local(u64 code, int64_t distance);
    bool member(const string &name, u64 size, u64 offset, string &path);

private:
    struct Code {
        u64 high, entry;
        frame_base base;
    };
    Entry entry(u64 offset) { return dwarf_.entry(offset); }
    u64 size_of(u64 type, int depth = 0);
    bool find_member(u64 type, const Entry &e, u64 offset, Entry &found);
    vector<u64> dimensions(u64 type, const Entry &e);
    u64 type_of(const Entry &e);
    const char *name_of(const Entry &e);
    string path_in(u64 type, u64 offset);
    string local_in(u64 scope, int64_t distance);

    Dwarf dwarf_;
    unordered_map<u64, u64> variables_;     // address: entry
    map<u64, Code> functions_;              // by the start of their code
    unordered_multimap<string, u64> types_; // name: entry
};
static bool is_record(u64 tag) {
    return tag == STRUCTURE || tag == CLASS || tag == UNION;
}
Fields::Reader::Reader(const string &path) : dwarf_(path) {
    dwarf_.each([&](u64 at, const Entry &e) {
        if (e.tag == VARIABLE && e.address)
            variables_.emplace(e.address, at);
        else if (e.tag == SUBPROGRAM && e.low && e.high > e.low)
            functions_.emplace(e.low, Code{e.high, at, e.base});
        else if (is_record(e.tag) && e.name && e.sized && !e.declared)
            types_.emplace(e.name, at);
    });
}

// ---- types
static bool is_other_name(u64 tag) {
    return tag == TYPEDEF || tag == CONST || tag == VOLATILE || tag == RESTRICT || tag == ATOMIC;
}
// The inside of a mutex or of a type of the C++ library tells nobody anything.
static bool is_reserved(const char *name) {
    return name && name[0] == '_' && (name[1] == '_' || (name[1] >= 'A' && name[1] <= 'Z'));
}
vector<u64> Fields::Reader::dimensions(u64 type, const Entry &e) {
    vector<u64> d;
    dwarf_.children(type, e, [&](const Entry &c, u64) {
        if (c.tag == SUBRANGE)
            d.push_back(c.counted ? c.count : 0);
        return true;
    });
    return d;
}
u64 Fields::Reader::size_of(u64 type, int depth) {
    if (!type || depth > 20)
        return 0;
    Entry e = entry(type);
    if (e.sized)
        return e.size;
    if (e.tag == POINTER)
        return 8;
    if (is_other_name(e.tag))
        return size_of(e.type, depth + 1);
    if (e.tag != ARRAY)
        return 0;
    u64 n = size_of(e.type, depth + 1);
    for (u64 d : dimensions(type, e))
        n *= d;
    return n;
}
// The member that the offset lies in. Of a union, the first that is as large.
bool Fields::Reader::find_member(u64 type, const Entry &e, u64 offset, Entry &found) {
    bool is = false;
    dwarf_.children(type, e, [&](const Entry &c, u64) {
        if ((c.tag != MEMBER && c.tag != INHERITANCE) || (!c.placed && e.tag != UNION))
            return true;
        u64 n = max<u64>(size_of(c.type), 1);
        if (offset < c.at || offset - c.at >= n)
            return true;
        found = c, is = true;
        return false;
    });
    return is;
}
string Fields::Reader::path(u64 variable, u64 offset) {
    auto v = variables_.find(variable);
    if (v == variables_.end())
        return "";
    return path_in(type_of(entry(v->second)), offset);
}
u64 Fields::Reader::type_of(const Entry &e) {
    return !e.type && e.origin ? entry(e.origin).type : e.type;
}
const char *Fields::Reader::name_of(const Entry &e) {
    return !e.name && e.origin ? entry(e.origin).name : e.name;
}
string Fields::Reader::path_in(u64 type, u64 offset) {
    string text;
    for (int depth = 0; type && depth < 40; depth++) {
        Entry e = entry(type);
        if (is_other_name(e.tag))
            type = e.type;
        else if (is_record(e.tag)) {
            Entry m;
            if (!find_member(type, e, offset, m) || is_reserved(m.name))
                break;
            if (m.name && m.tag == MEMBER)
                text += string(".") + m.name;
            offset -= m.at, type = m.type;
        } else if (e.tag == ARRAY) {
            u64 inner = size_of(e.type);
            vector<u64> d = dimensions(type, e);
            for (size_t i = 1; i < d.size(); i++)
                inner *= d[i];
            for (size_t i = 0; i < d.size() && inner; i++) {
                text += "[" + to_string(offset / inner) + "]", offset %= inner;
                if (i + 1 < d.size() && d[i + 1])
                    inner /= d[i + 1];
            }
            if (!inner)
                break;
            type = e.type;
        } else
            break;
    }
    if (offset)
        text += "+" + to_string(offset);
    return text;
}

// ---- objects of frames
string Fields::Reader::local(u64 code, int64_t distance) {
    auto f = functions_.upper_bound(code);
    if (f == functions_.begin())
        return "";
    --f;
    if (code >= f->second.high || f->second.base == UNKNOWN_BASE)
        return "";
    if (f->second.base == OF_POINTER)
        distance += 16;
    return local_in(f->second.entry, distance);
}
string Fields::Reader::local_in(u64 scope, int64_t distance) {
    string found;
    dwarf_.children(scope, entry(scope), [&](const Entry &c, u64 at) {
        if (c.tag == LEXICAL_BLOCK || c.tag == INLINED)
            found = local_in(at, distance);
        else if ((c.tag == VARIABLE || c.tag == PARAMETER) && c.on_frame && name_of(c)) {
            int64_t offset = distance - c.frame_offset;
            u64 type = type_of(c);
            if (offset >= 0 && u64(offset) < size_of(type))
                found = name_of(c) + path_in(type, offset);
        }
        return found.empty();
    });
    return found;
}

// ---- objects of the heap
bool Fields::Reader::member(const string &name, u64 size, u64 offset, string &path) {
    auto same = types_.equal_range(name);
    for (auto t = same.first; t != same.second; ++t)
        if (entry(t->second).size == size) {
            path = path_in(t->second, offset);
            return true;
        }
    return false;
}

Fields::Fields(const string &path) : reader_(make_unique<Reader>(path)) {}
Fields::~Fields() = default;
string Fields::path(u64 variable, u64 offset) {
    try {
        return reader_->path(variable, offset);
    } catch (const out_of_range &) {
        return "";
    }
}
string Fields::local(uint64_t code, int64_t distance) {
    try {
        return reader_->local(code, distance);
    } catch (const out_of_range &) {
        return "";
    }
}
bool Fields::member(const string &name, uint64_t size, uint64_t offset, string &path) {
    try {
        return reader_->member(name, size, offset, path);
    } catch (const out_of_range &) {
        return false;
    }
}
