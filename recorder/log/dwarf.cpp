#include "dwarf.hpp"
#include <algorithm>
#include <elf.h>
#include <fstream>

using namespace std;
namespace dwarf {
static const u64 FORM_ADDRESS = 0x01;

// ---- sections, units, abbreviations
void Dwarf::read_sections(const string &path) {
    ifstream f(path, ios::binary);
    file_.assign(istreambuf_iterator<char>(f), {});
    if (file_.size() < sizeof(Elf64_Ehdr))
        return;
    Elf64_Ehdr h;
    memcpy(&h, file_.data(), sizeof h);
    auto section = [&](unsigned i) {
        Elf64_Shdr s{};
        u64 at = h.e_shoff + u64(i) * sizeof s;
        if (at + sizeof s <= file_.size())
            memcpy(&s, file_.data() + at, sizeof s);
        if (s.sh_type == SHT_NOBITS || s.sh_offset > file_.size() ||
            s.sh_size > file_.size() - s.sh_offset)
            s.sh_size = 0;
        return s;
    };
    Elf64_Shdr names = section(h.e_shstrndx);
    for (unsigned i = 0; i < h.e_shnum; i++) {
        Elf64_Shdr s = section(i);
        if (!s.sh_size || s.sh_flags & SHF_COMPRESSED || s.sh_name >= names.sh_size)
            continue;
        auto start = reinterpret_cast<const u8 *>(file_.data()) + s.sh_offset;
        sections_[file_.data() + names.sh_offset + s.sh_name] = {start, start + s.sh_size};
    }
}
const Abbreviations *Dwarf::abbreviations(u64 offset) {
    auto known = abbreviations_.find(offset);
    if (known != abbreviations_.end())
        return &known->second;
    Abbreviations &all = abbreviations_[offset];
    Bytes b = sections_[".debug_abbrev"].from(offset);
    while (u64 code = b.leb()) {
        Abbreviation a;
        a.tag = b.leb(), a.children = b.fixed(1);
        for (;;) {
            u64 name = b.leb(), form = b.leb();
            u64 implicit = form == 0x21 ? b.leb() : 0;
            if (!name && !form)
                break;
            a.attributes.push_back({name, form, implicit});
        }
        all[code] = a;
    }
    return &all;
}
bool Dwarf::read_unit(u64 offset, Unit &u) {
    const Bytes &info = sections_[".debug_info"];
    Bytes b = info.from(offset);
    if (b.left() < 12)
        return false;
    u.start = offset, u.offset_size = 4;
    u64 length = b.fixed(4);
    if (length == 0xffffffff)
        length = b.fixed(8), u.offset_size = 8;
    b.need(length);
    u.end = b.at - info.at + length;
    u.version = b.fixed(2);
    u64 abbreviation, kind = 1;
    if (u.version >= 5)
        kind = b.fixed(1), u.address_size = b.fixed(1), abbreviation = b.fixed(u.offset_size);
    else
        abbreviation = b.fixed(u.offset_size), u.address_size = b.fixed(1);
    u.first = b.at - info.at;
    if (u.version < 2 || u.version > 5 || kind != 1)
        u.first = u.end; // a type or a skeleton
    u.abbreviations = abbreviations(abbreviation);
    u.str_offsets = u.addresses =
        8; // behind the heads of these sections, unless the unit says otherwise
    return true;
}

// ---- entries
u64 Dwarf::string_at(const Bytes &section, u64 offset, const char **text) {
    if (offset < section.left())
        *text = section.from(offset).text();
    return offset;
}
u64 Dwarf::read_form(Bytes &b, Unit &u, u64 form, u64 implicit, const char **text, Bytes *block) {
    auto take = [&](u64 n) {
        b.need(n);
        *block = {b.at, b.at + n};
        b.skip(n);
        return u64(0);
    };
    auto indexed = [&](u64 index) {
        Bytes s = sections_[".debug_str_offsets"];
        u64 at = u.str_offsets + index * u.offset_size;
        return at + u.offset_size <= s.left()
                   ? string_at(sections_[".debug_str"], s.from(at).fixed(u.offset_size), text)
                   : 0;
    };
    auto address = [&](u64 index) {
        Bytes s = sections_[".debug_addr"];
        u64 at = u.addresses + index * u.address_size;
        return at + u.address_size <= s.left() ? s.from(at).fixed(u.address_size) : 0;
    };
    switch (form) {
    case 0x01:
        return b.fixed(u.address_size);
    case 0x03:
        return take(b.fixed(2));
    case 0x04:
        return take(b.fixed(4));
    case 0x05:
    case 0x12:
        return b.fixed(2);
    case 0x06:
    case 0x13:
    case 0x1c:
        return b.fixed(4);
    case 0x07:
    case 0x14:
    case 0x20:
    case 0x24:
        return b.fixed(8);
    case 0x08:
        *text = b.text();
        return 0;
    case 0x09:
    case 0x18:
        return take(b.leb());
    case 0x0a:
        return take(b.fixed(1));
    case 0x0b:
    case 0x0c:
    case 0x11:
        return b.fixed(1);
    case 0x0d:
    case 0x0f:
    case 0x15:
    case 0x22:
    case 0x23:
        return b.leb();
    case 0x0e:
        return string_at(sections_[".debug_str"], b.fixed(u.offset_size), text);
    case 0x1f:
        return string_at(sections_[".debug_line_str"], b.fixed(u.offset_size), text);
    case 0x10:
        return b.fixed(u.version == 2 ? u.address_size : u.offset_size);
    case 0x16: {
        u64 real = b.leb();
        return read_form(b, u, real, 0, text, block);
    }
    case 0x17:
    case 0x1d:
        return b.fixed(u.offset_size);
    case 0x19:
        return 1;
    case 0x1a:
        return indexed(b.leb());
    case 0x1b:
        return address(b.leb());
    case 0x1e:
        return take(16);
    case 0x21:
        return implicit;
    case 0x25:
        return indexed(b.fixed(1));
    case 0x26:
        return indexed(b.fixed(2));
    case 0x27:
        return indexed(b.fixed(3));
    case 0x28:
        return indexed(b.fixed(4));
    case 0x29:
        return address(b.fixed(1));
    case 0x2a:
        return address(b.fixed(2));
    case 0x2b:
        return address(b.fixed(3));
    case 0x2c:
        return address(b.fixed(4));
    default:
        throw out_of_range("a form that is not known");
    }
}
static bool is_reference_in_unit(u64 form) {
    return form >= 0x11 && form <= 0x15;
}
void Dwarf::set_location(Entry &e, Unit &u, Bytes block) {
    if (!block.at || !block.left())
        return;
    switch (block.fixed(1)) {
    case OP_ADDR:
        if (block.left() == 8)
            e.address = block.fixed(8);
        break;
    case OP_ADDRX: {
        const char *none;
        Bytes rest;
        u64 index = block.leb();
        u8 bytes[4] = {u8(index), u8(index >> 8), u8(index >> 16), u8(index >> 24)};
        Bytes b = {bytes, bytes + 4};
        if (!block.left())
            e.address = read_form(b, u, 0x2c, 0, &none, &rest);
        break;
    }
    case OP_FBREG:
        e.frame_offset = block.signed_leb();
        e.on_frame = !block.left();
        break;
    }
}
void Dwarf::set(Entry &e, Unit &u, u64 name, u64 form, u64 value, const char *text, Bytes block) {
    u64 reference = is_reference_in_unit(form) ? u.start + value : value;
    switch (name) {
    case NAME:
        e.name = text;
        break;
    case TYPE:
        e.type = reference;
        break;
    case SPECIFICATION:
    case ABSTRACT_ORIGIN:
        e.origin = reference;
        break;
    case BYTE_SIZE:
        e.size = value, e.sized = true;
        break;
    case UPPER_BOUND:
        if (!block.at)
            e.count = value + 1, e.counted = true;
        break;
    case COUNT:
        if (!block.at)
            e.count = value, e.counted = true;
        break;
    case BIT_AT:
        e.at = value / 8, e.placed = true;
        break;
    case MEMBER_AT:
        if (block.at && block.left() > 1 && block.fixed(1) == OP_PLUS)
            value = block.leb();
        e.at = value, e.placed = true;
        break;
    case LOCATION:
        set_location(e, u, block);
        break;
    case LOW_PC:
        e.low = value;
        break;
    case HIGH_PC:
        e.high = form == FORM_ADDRESS ? value : e.low + value;
        break;
    case DECLARATION:
        e.declared = value;
        break;
    case FRAME_BASE:
        if (block.at && block.left()) {
            u8 operation = *block.at;
            if (operation == OP_CFA)
                e.base = OF_CFA;
            else if (operation == OP_REG6 || operation == OP_BREG6)
                e.base = OF_POINTER;
        }
        break;
    case STR_OFFSETS_BASE:
        u.str_offsets = value;
        break;
    case ADDR_BASE:
        u.addresses = value;
        break;
    }
}
Entry Dwarf::read_entry(Unit &u, u64 offset) {
    const Bytes &info = sections_[".debug_info"];
    Bytes b = info.from(offset);
    Entry e;
    u64 code = b.leb();
    if (code) {
        auto a = u.abbreviations->find(code);
        if (a == u.abbreviations->end())
            throw out_of_range("no such abbreviation");
        e.tag = a->second.tag, e.children = a->second.children;
        for (auto &x : a->second.attributes) {
            const char *text = nullptr;
            Bytes block;
            u64 value = read_form(b, u, x.form, x.implicit, &text, &block);
            set(e, u, x.name, x.form, value, text, block);
        }
    }
    e.next = b.at - info.at;
    return e;
}
Dwarf::Dwarf(const string &path) {
    try {
        read_sections(path);
        Unit u;
        for (u64 at = 0; at < sections_[".debug_info"].left() && read_unit(at, u); at = u.end) {
            if (u.first < u.end)
                read_entry(u, u.first); // it says where the unit's strings and addresses are
            units_.push_back(u);
        }
    } catch (const out_of_range &) { // what was read so far counts
    }
}
Unit &Dwarf::unit_of(u64 offset) {
    auto u = upper_bound(units_.begin(), units_.end(), offset,
                         [](u64 a, const Unit &u) { return a < u.start; });
    if (u == units_.begin() || offset >= (u - 1)->end)
        throw out_of_range("no such unit");
    return *(u - 1);
}
} // namespace dwarf
