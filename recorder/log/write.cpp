#include "write.hpp"
#include <cerrno>
#include <cstring>
#include <stdexcept>

using namespace std;

static const char *const WORDS[] = {"",     "rd",    "wr",   "",     "",    "",
                                    "",     "begin", "",     "end",  "acq", "rel",
                                    "acqs", "rels",  "fork", "join", "exit"};

namespace {
class Out {
public:
    explicit Out(const string &path) : path_(path), file_(fopen(path.c_str(), "w")) {
        if (!file_)
            fail();
    }
    ~Out() {
        if (file_)
            fclose(file_);
    }
    FILE *file() { return file_; }
    void close() {
        bool bad = ferror(file_);
        FILE *f = file_;
        file_ = nullptr;
        if (fclose(f) || bad)
            fail();
    }

private:
    [[noreturn]] void fail() { throw runtime_error(path_ + ": " + strerror(errno)); }
    string path_;
    FILE *file_;
};
} // namespace
string tidy(string s) {
    for (char &c : s)
        if (c < ' ' || c == 127)
            c = '?'; // also what is not ASCII
    if (s.size() > 200)
        s = s.substr(0, 120) + "..." + s.substr(s.size() - 77);
    return s.empty() ? "?" : s;
}
static bool shares(const Kept &k) {
    return k.kind == ACQS || k.kind == RELS;
}
u32 Writer::variables() const {
    return events_.numbers_of_threads + (trace_.threads() > 64 ? 128 : 0);
}

// ---- the log
void Writer::log(const string &path) {
    Out out(path);
    auto &kept = events_.kept;
    map<pair<u64, Function *>, u32> site;
    bool version2 = any_of(kept.begin(), kept.end(), shares);
    fprintf(out.file(), "vlog %d %u %u %zu\n", version2 ? 2 : 1, events_.threads, variables(),
            events_.locks.size());
    for (Kept &k : kept) {
        if (!k.in_log)
            continue;
        Function *f = nullptr;
        if (k.kind == BEGIN) {
            f = events_.begun[k.number];
            if (f->label == ~0u)
                f->label = labels_.size(), labels_.push_back(f);
            k.number = f->label;
        }
        if (k.tried)
            tried_.push_back(at_.size());
        fprintf(out.file(), "%u %s", k.thread, WORDS[k.kind]);
        if (k.kind == RD || k.kind == WR)
            fprintf(out.file(), " %u %lu\n", k.number, k.value);
        else if (k.kind == END || k.kind == EXIT)
            fputc('\n', out.file());
        else
            fprintf(out.file(), " %u\n", k.number);
        if (!k.code) {
            at_.push_back(0);
            continue;
        }
        auto i = site.emplace(make_pair(k.code, f), sites_.size() + 1);
        if (i.second)
            sites_.push_back({k.code, f}), codes_.insert(k.code);
        at_.push_back(i.first->second);
    }
    out.close();
}
void Writer::add_codes(set<u64> &codes) const {
    codes.insert(codes_.begin(), codes_.end());
    for (auto &h : shared_.hidden_at)
        codes.insert(h.first);
    for (auto f : labels_)
        codes.insert(f->code);
}

// ---- sites: where each event stands in the source
void Writer::sites(const string &path) {
    Out out(path);
    fprintf(out.file(), "vsites 1 %zu %zu\n", sites_.size(), at_.size());
    for (auto &s : sites_) { // of a routine of a thread the call is not the program's
        bool unknown =
            s.called && (modules_.line(s.code) == "?" || is_library(modules_.function(s.code)));
        u64 code = unknown ? s.called->code : s.code;
        fprintf(out.file(), "%s %s\n", modules_.line(code).c_str(),
                tidy(modules_.function(code)).c_str());
    }
    for (u32 s : at_)
        fprintf(out.file(), "%u\n", s);
    out.close();
}
void Writer::tried(const string &path) {
    Out out(path);
    for (u64 p : tried_)
        fprintf(out.file(), "%lu\n", p);
    out.close();
}
static void write_code(FILE *f, Modules &modules, const char *sign, u64 code) {
    if (Module *m = modules.of(code))
        fprintf(f, "%s%lx %s\n", sign, code - m->bias, m->path.c_str());
}
void Writer::codes(const string &path) {
    Out out(path);
    for (u64 a : events_.codes)
        write_code(out.file(), modules_, "", a);
    out.close();
}
void Writer::quiet(const string &path, const set<u64> &all, const set<u64> &loud) {
    Out out(path);
    for (u64 a : all)
        write_code(out.file(), modules_, loud.count(a) ? "+" : "-", a);
    out.close();
}

// ---- names
string Writer::variable_name(u32 x) {
    if (x < events_.variables.size()) {
        const Variable *v = events_.variables[x];
        return places_.variable(v - shared_.variables.data(), v->at);
    }
    x -= events_.variables.size();
    if (x < events_.objects.size())
        return modules_.place(events_.objects[x]);
    x -= events_.objects.size();
    return (x % 2 ? "end of thread " : "start of thread ") + to_string(x / 2);
}
string Writer::lock_name(u32 m) {
    return places_.lock(events_.locks[m]);
}
string Writer::thread_name(u32 t) {
    if (!shared_.title[t].empty())
        return shared_.title[t];
    if (!blocks_.began_as[t].empty())
        return blocks_.began_as[t];
    return shared_.routine[t] ? modules_.place(shared_.routine[t]) : "";
}
void Writer::names(const string &path) {
    Out out(path);
    for (auto f : labels_)
        fprintf(out.file(), "label %u %s\n", f->label, tidy(f->name).c_str());
    for (u32 x = 0; x < variables(); x++)
        fprintf(out.file(), "variable %u %s\n", x, tidy(variable_name(x)).c_str());
    for (u32 m = 0; m < events_.locks.size(); m++)
        fprintf(out.file(), "lock %u %s\n", m, tidy(lock_name(m)).c_str());
    for (u32 t = 0; t < trace_.threads() && trace_.threads() <= 64; t++)
        if (string n = thread_name(t); !n.empty())
            fprintf(out.file(), "thread %u %s\n", t, tidy(n).c_str());
    out.close();
}
void Writer::functions(const string &path) {
    Out out(path);
    for (auto f : labels_)
        fprintf(out.file(), "%u %s %lu %s %s\n", f->label, f->waits ? "waits" : "-", f->calls,
                modules_.line(f->code).c_str(), f->name.c_str());
    out.close();
}
