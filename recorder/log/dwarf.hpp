// What a module's DWARF says (versions 2 to 5, as gcc and clang write it), entry by entry.
#pragma once
#include <cstdint>
#include <cstring>
#include <map>
#include <stdexcept>
#include <string>
#include <unordered_map>
#include <vector>

namespace dwarf {
typedef uint64_t u64;
typedef uint8_t u8;

enum tag {
    ARRAY = 0x01,
    CLASS = 0x02,
    ENUMERATION = 0x04,
    PARAMETER = 0x05,
    LEXICAL_BLOCK = 0x0b,
    MEMBER = 0x0d,
    POINTER = 0x0f,
    STRUCTURE = 0x13,
    TYPEDEF = 0x16,
    UNION = 0x17,
    INHERITANCE = 0x1c,
    INLINED = 0x1d,
    SUBRANGE = 0x21,
    CONST = 0x26,
    SUBPROGRAM = 0x2e,
    VARIABLE = 0x34,
    VOLATILE = 0x35,
    RESTRICT = 0x37,
    ATOMIC = 0x47
};
enum attribute {
    LOCATION = 0x02,
    NAME = 0x03,
    BYTE_SIZE = 0x0b,
    LOW_PC = 0x11,
    HIGH_PC = 0x12,
    UPPER_BOUND = 0x2f,
    ABSTRACT_ORIGIN = 0x31,
    COUNT = 0x37,
    MEMBER_AT = 0x38,
    DECLARATION = 0x3c,
    FRAME_BASE = 0x40,
    SPECIFICATION = 0x47,
    TYPE = 0x49,
    BIT_AT = 0x6b,
    STR_OFFSETS_BASE = 0x72,
    ADDR_BASE = 0x73
};
enum operation {
    OP_ADDR = 0x03,
    OP_PLUS = 0x23,
    OP_REG6 = 0x56,
    OP_BREG6 = 0x76,
    OP_FBREG = 0x91,
    OP_CFA = 0x9c,
    OP_ADDRX = 0xa1
};
enum frame_base { UNKNOWN_BASE, OF_CFA, OF_POINTER }; // the frame pointer lies 16 below the CFA

struct Bytes {
    const u8 *at = nullptr, *end = nullptr;
    size_t left() const { return end - at; }
    void need(u64 n) const {
        if (n > left())
            throw std::out_of_range("DWARF ends early");
    }
    u64 fixed(size_t n) {
        u64 x = 0;
        need(n);
        memcpy(&x, at, std::min<size_t>(n, 8));
        at += n;
        return x;
    }
    u64 leb() {
        u64 x = 0;
        for (int shift = 0;; shift += 7) {
            u8 b = fixed(1);
            if (shift < 64)
                x |= u64(b & 127) << shift;
            if (!(b & 128))
                return x;
        }
    }
    int64_t signed_leb() {
        int64_t x = 0;
        for (int shift = 0;;) {
            u8 b = fixed(1);
            if (shift < 64)
                x |= int64_t(u64(b & 127) << shift);
            shift += 7;
            if (b & 128)
                continue;
            return b & 64 && shift < 64 ? x - (int64_t(1) << shift) : x;
        }
    }
    void skip(u64 n) { need(n), at += n; }
    const char *text() {
        auto p = reinterpret_cast<const char *>(at);
        auto zero = static_cast<const u8 *>(memchr(at, 0, left()));
        if (!zero)
            throw std::out_of_range("DWARF ends early");
        at = zero + 1;
        return p;
    }
    Bytes from(u64 offset) const {
        need(offset);
        return {at + offset, end};
    }
};
struct Attribute {
    u64 name, form, implicit;
};
struct Abbreviation {
    u64 tag;
    bool children;
    std::vector<Attribute> attributes;
};
typedef std::unordered_map<u64, Abbreviation> Abbreviations;
struct Unit {
    u64 start, first, end; // offsets in .debug_info: of its head, of its first entry, behind it
    unsigned version, address_size, offset_size;
    const Abbreviations *abbreviations;
    u64 str_offsets = 0, addresses = 0;
};
// What is wanted of an entry.
struct Entry {
    u64 tag = 0, next = 0; // the entry behind it, its first child if it has some
    bool children = false;
    const char *name = nullptr;
    u64 type = 0, origin = 0, size = 0, count = 0, at = 0;
    bool sized = false, counted = false, placed = false, declared = false;
    u64 address = 0;
    u64 low = 0, high = 0; // its code
    frame_base base = UNKNOWN_BASE;
    bool on_frame = false;
    int64_t frame_offset = 0;
};

class Dwarf {
public:
    explicit Dwarf(const std::string &path);
    // All of these throw std::out_of_range where the sections are cut or unknown.
    Entry entry(u64 offset) { return read_entry(unit_of(offset), offset); }
    // Calls use(offset, entry) for each entry of each unit; what is damaged is passed over.
    template <class F> void each(F use) {
        for (Unit &u : units_)
            try {
                for (u64 at = u.first; at < u.end;) {
                    Entry e = read_entry(u, at);
                    use(at, e);
                    at = e.next;
                }
            } catch (const std::out_of_range &) { // what was read so far counts
            }
    }
    // Calls use(entry) for each child, until it returns false.
    template <class F> void children(u64 parent, const Entry &e, F use) {
        if (!e.children)
            return;
        Unit &u = unit_of(parent);
        u64 at = e.next;
        for (int depth = 0; at < u.end;) {
            Entry c = read_entry(u, at);
            if (!c.tag && depth-- == 0)
                return;
            if (c.tag && depth == 0 && !use(c, at))
                return;
            if (c.tag && c.children)
                depth++;
            at = c.next;
        }
    }

private:
    void read_sections(const std::string &path);
    const Abbreviations *abbreviations(u64 offset);
    bool read_unit(u64 offset, Unit &unit);
    u64 string_at(const Bytes &section, u64 offset, const char **text);
    u64 read_form(Bytes &b, Unit &u, u64 form, u64 implicit, const char **text, Bytes *block);
    Entry read_entry(Unit &u, u64 offset);
    void set(Entry &e, Unit &u, u64 name, u64 form, u64 value, const char *text, Bytes block);
    void set_location(Entry &e, Unit &u, Bytes block);
    Unit &unit_of(u64 offset);

    std::vector<char> file_;
    std::map<std::string, Bytes> sections_;
    std::map<u64, Abbreviations> abbreviations_;
    std::vector<Unit> units_;
};
} // namespace dwarf
