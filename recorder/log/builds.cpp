#include "builds.hpp"
#include <algorithm>
#include <cstring>
#include <elf.h>
#include <fstream>
#include <sys/stat.h>

using namespace std;
typedef uint64_t u64;

namespace {
// A file of ELF, as far as it can be read.
class Elf {
public:
    explicit Elf(const string &path) {
        ifstream f(path, ios::binary);
        bytes_.assign(istreambuf_iterator<char>(f), {});
        if (bytes_.size() < sizeof head_)
            return;
        memcpy(&head_, bytes_.data(), sizeof head_);
        is_elf_ = !memcmp(head_.e_ident, ELFMAG, 4) && head_.e_ident[EI_CLASS] == ELFCLASS64;
    }
    // Calls use(section) for each section of the type.
    template <class F> void sections(unsigned type, F use) const {
        for (unsigned i = 0; is_elf_ && i < head_.e_shnum; i++) {
            Elf64_Shdr s = section(i);
            if (s.sh_type == type && s.sh_offset <= bytes_.size() &&
                s.sh_size <= bytes_.size() - s.sh_offset)
                use(s);
        }
    }
    Elf64_Shdr section(unsigned i) const {
        Elf64_Shdr s{};
        u64 at = head_.e_shoff + u64(i) * sizeof s;
        if (i < head_.e_shnum && at + sizeof s <= bytes_.size())
            memcpy(&s, bytes_.data() + at, sizeof s);
        return s;
    }
    // Calls use(symbol, name) for each symbol of a table of this type, in the order of the file.
    template <class F> void symbols(unsigned type, F use) const {
        sections(type, [&](const Elf64_Shdr &s) {
            Elf64_Shdr names = section(s.sh_link);
            for (u64 at = 0; at + sizeof(Elf64_Sym) <= s.sh_size; at += sizeof(Elf64_Sym)) {
                Elf64_Sym y;
                memcpy(&y, bytes_.data() + s.sh_offset + at, sizeof y);
                use(y, text(names.sh_offset + y.st_name));
            }
        });
    }
    const char *data(u64 at) const { return bytes_.data() + at; }

private:
    string text(u64 at) const {
        if (at >= bytes_.size())
            return "";
        return {bytes_.data() + at, strnlen(bytes_.data() + at, bytes_.size() - at)};
    }
    vector<char> bytes_;
    Elf64_Ehdr head_{};
    bool is_elf_ = false;
};
} // namespace

static string hex(const char *bytes, u64 n) {
    static const char digits[] = "0123456789abcdef";
    string s;
    for (u64 i = 0; i < n; i++)
        s += digits[static_cast<unsigned char>(bytes[i]) >> 4], s += digits[bytes[i] & 15];
    return s;
}
static string build_id(const Elf &file) {
    string id = "-";
    file.sections(SHT_NOTE, [&](const Elf64_Shdr &s) {
        Elf64_Nhdr n;
        if (id != "-" || s.sh_size < sizeof n + 4)
            return;
        memcpy(&n, file.data(s.sh_offset), sizeof n);
        bool is_id = n.n_type == NT_GNU_BUILD_ID && n.n_namesz == 4;
        if (is_id && sizeof n + 4 + n.n_descsz <= s.sh_size)
            id = hex(file.data(s.sh_offset + sizeof n + 4), n.n_descsz);
    });
    return id;
}
map<u64, Build> builds_that_ran(const string &maps) {
    map<u64, Build> all;
    ifstream f(maps);
    for (string l; getline(f, l);) {
        Build b;
        u64 address;
        char id[200];
        if (sscanf(l.c_str(), "build %199s %lu %lu %lx", id, &b.size, &b.time, &address) == 4)
            b.id = id, all[address] = b;
    }
    return all;
}
static u64 time_of(const string &path) {
    struct stat s;
    return stat(path.c_str(), &s) ? 0 : s.st_mtime;
}
static bool has_names(const Elf &file) {
    bool some = false;
    file.sections(SHT_SYMTAB, [&](const Elf64_Shdr &) { some = true; });
    return some;
}
BuildState state_of(const string &path, const Build *ran, const string &maps) {
    struct stat s;
    if (stat(path.c_str(), &s))
        return BuildState::GONE;
    Elf file(path);
    bool same = !ran             ? u64(s.st_mtime) <= time_of(maps)
                : ran->id != "-" ? ran->id == build_id(file)
                                 : ran->size == u64(s.st_size) && ran->time == u64(s.st_mtime);
    if (!same)
        return BuildState::CHANGED;
    return has_names(file) ? BuildState::SAME : BuildState::STRIPPED;
}
const char *name_of(BuildState state) {
    static const char *const names[] = {"same", "changed", "gone", "stripped"};
    return names[int(state)];
}

// ---- objects without hooks
// The compiler puts a constructor into each object that it gives hooks.
static bool is_hooks_constructor(const string &name) {
    return name.compare(0, 13, "_sub_I_00099_") == 0 || name == "tsan.module_ctor";
}
static bool is_of_the_toolchain(const string &name) {
    for (const char *known : {"crtstuff.c", "<stdin>", "elf-init.c", "init.c", "static-reloc.c"})
        if (name == known)
            return true;
    return name.empty() || (name.size() > 2 && name.compare(name.size() - 2, 2, ".o") == 0);
}
// The local symbols of an object stand behind the name of its source.
vector<string> unhooked_objects(const string &path) {
    vector<string> found;
    string source;
    bool hooked = true;
    auto end = [&] {
        bool known = find(found.begin(), found.end(), source) != found.end();
        if (!hooked && !known && !is_of_the_toolchain(source))
            found.push_back(source);
    };
    Elf(path).symbols(SHT_SYMTAB, [&](const Elf64_Sym &y, const string &name) {
        if (ELF64_ST_TYPE(y.st_info) == STT_FILE)
            end(), source = name, hooked = false;
        else
            hooked |= is_hooks_constructor(name);
    });
    end();
    return found;
}
bool is_hooked(const string &path) {
    bool some = false;
    Elf(path).symbols(SHT_DYNSYM, [&](const Elf64_Sym &, const string &name) {
        some |= name == "__tsan_init" || name == "__tsan_func_entry";
    });
    return some;
}
