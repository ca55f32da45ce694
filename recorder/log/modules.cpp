#include "modules.hpp"
#include "command.hpp"
#include "fields.hpp"
#include "loops.hpp"
#include <algorithm>
#include <cstring>
#include <cxxabi.h>
#include <elf.h>
#include <fstream>
#include <unistd.h>

using namespace std;

// ---- modules
static bool read_header(const string &path, Elf64_Ehdr &h) {
    ifstream f(path, ios::binary);
    return f.read(reinterpret_cast<char *>(&h), sizeof h) && !memcmp(h.e_ident, ELFMAG, 4) &&
           h.e_ident[EI_CLASS] == ELFCLASS64;
}
static string without_deleted(const string &path) {
    static const string mark = " (deleted)";
    bool deleted = path.size() > mark.size() &&
                   path.compare(path.size() - mark.size(), mark.size(), mark) == 0;
    return deleted ? path.substr(0, path.size() - mark.size()) : path;
}
static const u64 NO_FILE = ~0ull; // the offset of a piece of memory behind a module's file
// Each snapshot of the maps is in the file: what was mapped at any time counts.
Modules::Modules(const string &maps) : maps_(maps), ran_(builds_that_ran(maps)) {
    struct Span {
        u64 low, high;
        bool runs;
    };
    ifstream f(maps);
    map<string, Span> span;
    set<string> seen;
    Piece last{};
    for (string l; getline(f, l);) {
        u64 low, high, offset;
        char rights[8], name[4096] = "";
        if (!seen.insert(l).second)
            continue;
        if (sscanf(l.c_str(), "%lx-%lx %7s %lx %*s %*s %4095[^\n]", &low, &high, rights, &offset,
                   name) < 4)
            continue;
        if (!name[0] && low == last.high) // its zeros
            pieces_.push_back({low, high, NO_FILE, last.path});
        last = {};
        if (name[0] != '/')
            continue;
        string path = without_deleted(name);
        last = {low, high, offset, path};
        pieces_.push_back({low, high, offset, path});
        auto i = span.emplace(path, Span{low, high, false}).first;
        i->second.low = min(i->second.low, low), i->second.high = max(i->second.high, high);
        i->second.runs |= rights[2] == 'x';
    }
    for (auto &s : span)
        add_module(s.first, s.second.low, s.second.high, s.second.runs);
    sort(modules_.begin(), modules_.end(), [](auto &a, auto &b) { return a.low < b.low; });
    for (size_t i = 0; i + 1 < modules_.size(); i++)
        modules_[i].high = min(modules_[i].high, modules_[i + 1].low);
}
void Modules::add_module(const string &path, u64 low, u64 high, bool runs) {
    Elf64_Ehdr h{};
    bool there = read_header(path, h);
    if (!there && !runs)
        return; // data
    Module m;
    m.path = path, m.low = low, m.high = high + (64 << 20); // zeros behind the file's pages
    m.bias = !there || h.e_type == ET_DYN ? m.low : 0;
    modules_.push_back(m);
}
BuildState Modules::state(Module &m) {
    if (m.judged)
        return m.state;
    auto ran = ran_.find(m.low);
    m.judged = true;
    return m.state = state_of(m.path, ran == ran_.end() ? nullptr : &ran->second, maps_);
}
bool Modules::readable(Module &m) {
    return state(m) == BuildState::SAME || m.state == BuildState::STRIPPED;
}
Fields &Modules::fields(Module &m) {
    if (!m.fields)
        m.fields = make_shared<Fields>(readable(m) ? m.path : "");
    return *m.fields;
}
Module *Modules::of(u64 a) {
    auto i = upper_bound(modules_.begin(), modules_.end(), a,
                         [](u64 a, const Module &m) { return a < m.low; });
    return i == modules_.begin() || a >= (i - 1)->high ? nullptr : &*(i - 1);
}
string Modules::constant(u64 a) {
    for (auto &p : pieces_) {
        if (a < p.low || a >= p.high || p.offset == NO_FILE)
            continue;
        if (Module *m = of(a); m && !readable(*m))
            return "?";
        ifstream f(p.path, ios::binary);
        f.seekg(a - p.low + p.offset);
        string s;
        getline(f, s, '\0');
        return s;
    }
    return "?";
}

// ---- symbols
// `[0123456789abcdef]` behind the name of a crate.
static string without_hashes(const string &s) {
    string out;
    for (size_t i = 0; i < s.size(); i++) {
        size_t n = s[i] == '[' ? strspn(s.c_str() + i + 1, "0123456789abcdef") : 0;
        if (n >= 14 && n <= 16 && s[i + 1 + n] == ']')
            i += n + 1;
        else
            out += s[i];
    }
    return out;
}
static string demangle_rust(const string &s) {
    static map<string, string> known;
    auto i = known.emplace(s, s);
    if (i.second)
        lines_of("c++filt " + quoted_word(s),
                 [&](const char *l) { i.first->second = without_hashes(l); });
    return i.first->second;
}
string demangle(const string &s) {
    if (s.compare(0, 2, "_R") == 0)
        return demangle_rust(s);
    if (s.compare(0, 2, "_Z") != 0)
        return s;
    int status;
    char *d = abi::__cxa_demangle(s.c_str(), nullptr, nullptr, &status);
    string r = d ? d : s;
    free(d);
    return r;
}
void Modules::read_symbols(Module &m) {
    m.ready = true;
    if (!readable(m))
        return;
    for (const char *which : {"", "-D "}) {
        lines_of("nm -S --defined-only " + string(which) + quoted_word(m.path) + " 2>/dev/null",
                 [&](const char *l) {
                     u64 at, size;
                     char type;
                     int name = 0;
                     if (sscanf(l, "%lx %lx %c %n", &at, &size, &type, &name) == 3 && name)
                         m.symbols.push_back({at, size, l + name});
                 });
        if (!m.symbols.empty())
            break;
    }
    stable_sort(m.symbols.begin(), m.symbols.end(), [](auto &a, auto &b) { return a.at < b.at; });
}
const Symbol *Modules::symbol(u64 a) {
    Module *m = of(a);
    if (!m)
        return nullptr;
    if (!m->ready)
        read_symbols(*m);
    a -= m->bias;
    auto i = upper_bound(m->symbols.begin(), m->symbols.end(), a,
                         [](u64 a, const Symbol &s) { return a < s.at; });
    if (i == m->symbols.begin())
        return nullptr;
    --i;
    return a < i->at + max<u64>(i->size, 1) ? &*i : nullptr;
}
string Modules::function(u64 code) {
    auto y = symbol(code);
    return y ? demangle(y->name) : "";
}
bool Modules::loops(u64 function) {
    auto y = symbol(function);
    Module *m = of(function);
    return y && has_loop(m->path, y->at, y->at + y->size);
}
string Modules::place(u64 a) {
    auto y = symbol(a);
    char text[40] = "";
    if (!y) {
        Module *m = of(a);
        bool inside = m && any_of(pieces_.begin(), pieces_.end(), [&](auto &p) {
                          return a >= p.low && a < p.high && p.path == m->path;
                      });
        snprintf(text, sizeof text, "0x%lx", inside ? a - m->low : a);
        return inside ? m->path.substr(m->path.rfind('/') + 1) + "+" + text : text;
    }
    Module *m = of(a);
    u64 offset = a - m->bias - y->at;
    string field = fields(*m).path(y->at, offset);
    if (!field.empty())
        return demangle(y->name) + field;
    if (offset)
        snprintf(text, sizeof text, "+%lu", offset);
    return demangle(y->name) + text;
}

// ---- lines
static string shorten(const string &s) { // the last two parts of a path
    size_t p = s.rfind('/');
    if (p == string::npos || p == 0)
        return s;
    size_t q = s.rfind('/', p - 1);
    return q == string::npos ? s : s.substr(q + 1);
}
static bool is_library(const string &path) {
    for (const char *p : {"/usr/include/", "/usr/lib/", "/rustc/", "/usr/local/include/"})
        if (path.compare(0, strlen(p), p) == 0)
            return true;
    return path.find("/include/c++/") != string::npos || path.find("/rustlib/src/") != string::npos;
}
// The lines of one address, innermost first, where calls were inlined: the first that is the
// program's own.
static string own_line(const vector<string> &l) {
    for (auto &s : l)
        if (s[0] != '?' && !is_library(s))
            return shorten(s);
    return l.empty() || l[0][0] == '?' ? "" : shorten(l[0]);
}
void Modules::find_lines(const set<u64> &codes) {
    map<Module *, vector<u64>> by;
    for (u64 a : codes)
        if (Module *m = of(a); m && readable(*m))
            by[m].push_back(a);
    for (auto &g : by) {
        char name[] = P_tmpdir "/velodrome-XXXXXX";
        FILE *f = fdopen(mkstemp(name), "w");
        if (!f)
            return;
        for (u64 a : g.second)
            fprintf(f, "0x%lx\n", a - g.first->bias - 1); // in the call, not behind it
        fclose(f);
        size_t n = 0;
        vector<string> found;
        auto end = [&] {
            string l = n ? own_line(found) : "";
            if (!l.empty())
                lines_[g.second[n - 1]] = l;
            found.clear();
        };
        lines_of("addr2line -a -i -e " + quoted_word(g.first->path) + " < " + name + " 2>/dev/null",
                 [&](char *l) {
                     if (l[0] == '0' && l[1] == 'x')
                         end(), n++;
                     else
                         l[strcspn(l, " ")] = 0, found.push_back(l);
                 });
        end();
        unlink(name);
    }
}
string Modules::line(u64 code) const {
    auto i = lines_.find(code);
    return i == lines_.end() ? "?" : i->second;
}
