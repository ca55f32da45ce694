#include "notes.hpp"
#include "short.hpp"
#include <cerrno>
#include <cstdio>
#include <cstring>
#include <fstream>
#include <stdexcept>
#include <sys/stat.h>

using namespace std;

// ---- JSON
static string quoted(const string &s) {
    string out = "\"";
    char code[8];
    for (unsigned char c : s) {
        if (c == '"' || c == '\\')
            out += '\\';
        if (c >= ' ' && c < 127)
            out += c;
        else
            snprintf(code, sizeof code, "\\u%04x", c), out += code;
    }
    return out + "\"";
}
static string member(const string &name, const string &value) {
    return quoted(name) + ": " + value;
}
static string joined(const vector<string> &all, const char *open, const char *close) {
    string s = open;
    for (size_t i = 0; i < all.size(); i++)
        s += (i ? ",\n  " : "\n  ") + all[i];
    return s + (all.empty() ? "" : "\n ") + close;
}
static string object(const vector<string> &members) {
    string s = "{";
    for (size_t i = 0; i < members.size(); i++)
        s += (i ? ", " : "") + members[i];
    return s + "}";
}
static string list_of(const vector<string> &all) {
    return joined(all, "[", "]");
}

static string numbers(const vector<u64> &all) {
    string s;
    for (u64 n : all)
        s += (s.empty() ? "" : ", ") + to_string(n);
    return "[" + s + "]";
}

// ---- places
string Notes::function_name(u64 function) const {
    string name = function ? modules_.function(function) : "";
    return name.empty() ? "?" : name;
}
// Of code without lines, as that of a library: the function of the program that it was called in.
string Notes::place(u64 code, u64 inside) const {
    string line = code ? modules_.line(code) : "?";
    if (line == "?" && inside)
        return function_place(inside) + " " + function_name(inside);
    return line + " " + (code ? function_name(code) : "?");
}
static u64 start_of(Modules &modules, u64 function) { // as lines are asked for: behind the call
    const Symbol *s = function ? modules.symbol(function) : nullptr;
    return s ? modules.of(function)->bias + s->at + 1 : 0;
}
string Notes::function_place(u64 function) const {
    u64 start = start_of(modules_, function);
    return start ? modules_.line(start) : "?";
}
void Notes::add_codes(set<u64> &codes) const {
    auto add_function = [&](u64 function) {
        if (u64 start = start_of(modules_, function))
            codes.insert(start);
    };
    for (auto &s : survey_.last) {
        codes.insert(s.code), add_function(s.inside);
        for (auto &h : s.holds)
            codes.insert(h.code);
    }
    for (u64 f : survey_.functions)
        if (survey_.loops.count(modules_.function(f)))
            add_function(f);
    for (auto &s : stale_)
        for (auto a : {&s.read, &s.between, &s.write}) {
            codes.insert(a->code);
            for (auto &f : a->inside)
                codes.insert(f.from), add_function(f.function);
        }
}

// ---- what the log was made of
string Notes::stopped(const string &path) const {
    struct stat s;
    const head &h = trace_.info();
    u64 room = h.chunks * CHUNK * sizeof(record) + HEAD_BYTES;
    if (!stat(path.c_str(), &s) && u64(s.st_size) < room)
        return quoted("cut off");
    return h.stopped == FULL       ? quoted("full")
           : h.stopped == NO_SPACE ? quoted("no space")
           : h.stopped == FIBERS   ? quoted("fibers")
           : h.stopped == TOO_LONG ? quoted("too long")
                                   : "null";
}
static bool is_of_the_system(const string &path) {
    for (const char *folder : {"/usr/", "/lib/", "/lib64/", "/lib32/"})
        if (path.compare(0, strlen(folder), folder) == 0)
            return true;
    return path.find("libvelodrome_recorder.so") != string::npos;
}
string Notes::modules() const {
    set<Module *> ran;
    for (u64 f : survey_.functions)
        if (Module *m = modules_.of(f))
            ran.insert(m);
    vector<string> all;
    for (Module &m : modules_.all()) {
        bool hooked = ran.count(&m);
        if (!hooked && is_of_the_system(m.path))
            continue;
        vector<string> objects;
        string state = name_of(modules_.state(m));
        if (m.state == BuildState::SAME) {
            for (auto &o : unhooked_objects(m.path))
                objects.push_back(quoted(o));
            if (!objects.empty() || (!hooked && !is_hooked(m.path)))
                state = "unhooked";
        }
        vector<string> members = {member("path", quoted(m.path)), member("state", quoted(state)),
                                  member("ran", hooked ? "true" : "false")};
        if (!objects.empty())
            members.push_back(member("objects", list_of(objects)));
        all.push_back(object(members));
    }
    return list_of(all);
}
string Notes::cannot_name() const {
    if (modules_.empty())
        return "the trace has no .maps beside it: no function can be named";
    for (u64 f : survey_.functions) {
        Module *m = modules_.of(f);
        if (!m || modules_.state(*m) == BuildState::SAME)
            continue;
        const char *what = m->state == BuildState::GONE ? " is not there any more"
                           : m->state == BuildState::CHANGED
                               ? " is another build than the one that ran"
                               : " was stripped of its names";
        return m->path + what + ": its functions cannot be named";
    }
    return "";
}

// ---- waits
static const char *word_of(wait what) {
    static const char *const words[] = {"time",      "mutex",     "reader-writer lock",
                                        "spin lock", "condition", "semaphore",
                                        "barrier",   "once",      "thread",
                                        "futex"};
    return words[what];
}
string Notes::wait_name(const LastState &s) const {
    if (s.what != FOR_THREAD)
        return places_.lock(s.at);
    if (!s.at)
        return "?";
    string name = writer_.thread_name(s.at - 1);
    return name.empty() ? to_string(s.at - 1) : name;
}
string Notes::waits() const {
    set<u32> needed;
    for (auto &s : survey_.last)
        if (s.what != FOR_TIME)
            needed.insert(s.thread), needed.insert(s.held_by);
    vector<string> all;
    for (auto &s : survey_.last) {
        if (!needed.count(s.thread))
            continue;
        vector<string> holds;
        for (auto &h : s.holds)
            holds.push_back(object({member("name", quoted(places_.lock(h.at))),
                                    member("site", quoted(place(h.code))),
                                    member("shared", h.shared ? "true" : "false")}));
        bool waits = s.what != FOR_TIME;
        all.push_back(
            object({member("thread", to_string(s.thread)),
                    member("thread_name", quoted(writer_.thread_name(s.thread))),
                    member("for", waits ? quoted(word_of(s.what)) : "null"),
                    member("name", waits ? quoted(wait_name(s)) : "null"),
                    member("site", waits ? quoted(place(s.code, s.inside)) : "null"),
                    member("ends", s.ends ? "true" : "false"),
                    member("held_by", waits && s.held_by >= 0 ? to_string(s.held_by) : "null"),
                    member("holds", list_of(holds))}));
    }
    return list_of(all);
}
void Notes::tell() {
    if (!survey_.circles.empty() || trace_.info().stuck)
        printf("deadlock\n");
    auto named = [&](u32 t) {
        string n = writer_.thread_name(t);
        return to_string(t) + (n.empty() ? "" : " " + tidy(n));
    };
    for (auto &s : survey_.last) {
        if (s.what == FOR_TIME || (survey_.circles.empty() && !trace_.info().stuck))
            continue;
        printf("  thread %s waits for the ", named(s.thread).c_str());
        if (s.what == FOR_THREAD)
            printf("end of thread %s", s.at ? named(s.at - 1).c_str() : "?");
        else
            printf("%s %s", word_of(s.what), tidy(places_.lock(s.at)).c_str());
        if (s.what != FOR_THREAD && s.held_by >= 0)
            printf(", held by thread %s", named(s.held_by).c_str());
        string where = place(s.code, s.inside);
        printf("   %s\n", where.substr(0, where.find(' ')).c_str());
    }
    for (auto &s : stale_)
        printf("written from an old value: %s in %s, read at %s, written at %s (%lu times)\n",
               tidy(places_.variable(s.piece, s.at)).c_str(),
               tidy(function_name(s.function)).c_str(), modules_.line(s.read.code).c_str(),
               modules_.line(s.write.code).c_str(), s.times);
}
string Notes::circles() const {
    vector<string> all;
    for (auto &c : survey_.circles) {
        string threads;
        for (u32 t : c)
            threads += (threads.empty() ? "" : ", ") + to_string(t);
        all.push_back("[" + threads + "]");
    }
    return list_of(all);
}

// ---- names
string Notes::loops() const {
    map<string, u64> functions;
    for (u64 f : survey_.functions)
        if (string name = modules_.function(f); survey_.loops.count(name))
            functions.emplace(name, f);
    vector<string> all;
    for (auto &f : functions)
        all.push_back(object({member("function", quoted(f.first)),
                              member("place", quoted(function_place(f.second)))}));
    return list_of(all);
}
string Notes::shorts() const {
    set<string> functions;
    for (u64 f : survey_.functions)
        if (string name = modules_.function(f); !name.empty() && !is_library(name))
            functions.insert(name);
    vector<string> all;
    for (auto &name : short_names({functions.begin(), functions.end()}))
        if (name.first != name.second)
            all.push_back(member(name.first, quoted(name.second)));
    return joined(all, "{", "}");
}

// ---- values that were written from an old one
string Notes::stale(const string &log) const {
    string base = log.substr(log.rfind('/') + 1);
    vector<string> all;
    for (size_t i = 0; i < stale_.size(); i++) {
        const StaleWrite &s = stale_[i];
        all.push_back(
            object({member("log", quoted(base + ".stale." + to_string(i + 1))),
                    member("function", quoted(function_name(s.function))),
                    member("place", quoted(function_place(s.function))),
                    member("variable", quoted(places_.variable(s.piece, s.at))),
                    member("lock", s.lock ? quoted(places_.lock(s.lock)) : "null"),
                    member("thread", to_string(s.read.thread)),
                    member("other", to_string(s.between.thread)),
                    member("read", quoted(place(s.read.code))),
                    member("between", quoted(place(s.between.code))),
                    member("write", quoted(place(s.write.code))),
                    member("times", to_string(s.times)), member("steps", to_string(s.steps))}));
    }
    return list_of(all);
}
void Notes::write(const string &log, const string &trace, const vector<string> &left_out) {
    vector<string> thinned;
    for (auto &what : left_out)
        thinned.push_back(quoted(what));
    string path = log + ".notes";
    ofstream f(path);
    auto count = [](u64 n) { return to_string(n); };
    const head &h = trace_.info();
    vector<string> members = {
        member("schema", "1"),
        member("records", count(shared_.records)),
        member("threads", count(trace_.threads())),
        member("functions", count(writer_.labels())),
        member("stopped", stopped(trace)),
        member("overwritten", count(trace_.overwritten())),
        member("cut", events_.cut ? "true" : "false"),
        member("left_out", list_of(thinned)),
        member("all_variables", all_variables ? "true" : "false"),
        member("atomic", numbers(atomic)),
        member("racing", numbers(racing)),
        member("dropped", count(events_.dropped)),
        member("odd", count(events_.odd)),
        member("late", count(shared_.late)),
        member("lost", count(h.lost)),
        member("hidden", h.values ? count(shared_.hidden) : "null"),
        member("cannot_name", cannot_name().empty() ? "null" : quoted(cannot_name())),
        member("modules", modules()),
        member("waits", waits()),
        member("circles", circles()),
        member("loops", loops()),
        member("stale", stale(log)),
        member("short", shorts())};
    f << "{";
    for (size_t i = 0; i < members.size(); i++)
        f << (i ? ",\n " : "\n ") << members[i];
    f << "\n}\n";
    f.close();
    if (!f)
        throw runtime_error(path + ": " + strerror(errno));
}
