// The small log of a value that was written from an old one: the two holds are the one block of
// its thread, and the variable is its only one.
#include "notes.hpp"
#include <cerrno>
#include <cstring>
#include <fstream>
#include <stdexcept>
#include <unistd.h>

using namespace std;

namespace {
class SmallLog {
public:
    SmallLog(Modules &modules, const StaleWrite &s) : modules_(modules), stale_(s) {
        reader_ = s.read.thread, writer_ = s.between.thread;
        if (max(reader_, writer_) > MAX_THREAD)
            reader_ = 1, writer_ = 2;
        for (u32 t : {reader_, writer_})
            if (t)
                line(0, "fork " + to_string(t), 0);
        begin(reader_, stale_.function, outer_call());
        access(reader_, stale_.read, "rd");
        access(writer_, stale_.between, "wr");
        access(reader_, stale_.write, "wr");
        line(reader_, "end", 0);
    }
    void write(const string &path) const;
    string labels() const;
    u32 reader() const { return reader_; }
    u32 writer() const { return writer_; }

private:
    static const u32 MAX_THREAD = 63;
    static string site(Modules &modules, u64 code, u64 function);
    u64 outer_call() const {
        for (auto &f : stale_.read.inside)
            if (f.opened == stale_.opened)
                return f.from;
        return 0;
    }
    void line(u32 thread, const string &words, u64 code, u64 function = 0) {
        lines_.push_back(to_string(thread) + " " + words);
        sites_.push_back({code, function});
    }
    void begin(u32 thread, u64 function, u64 from) {
        size_t label = find(labels_.begin(), labels_.end(), function) - labels_.begin();
        if (label == labels_.size())
            labels_.push_back(function);
        line(thread, "begin " + to_string(label), from, function);
    }
    // With the functions around it: of the reader those inside the block, of the other thread the
    // innermost.
    void access(u32 thread, const StaleAccess &a, const char *what) {
        size_t first = 0, n = a.inside.size();
        if (thread == writer_)
            first = n ? n - 1 : 0;
        while (thread == reader_ && first < n && a.inside[first].opened <= stale_.opened)
            first++;
        for (size_t i = first; i < n; i++)
            begin(thread, a.inside[i].function, a.inside[i].from);
        line(thread, string(what) + " 0 0", a.code);
        for (size_t i = first; i < n; i++)
            line(thread, "end", 0);
    }
    Modules &modules_;
    const StaleWrite &stale_;
    u32 reader_, writer_;
    vector<string> lines_;
    vector<pair<u64, u64>> sites_; // code, and the function that it calls
    vector<u64> labels_;           // functions
};
void close(ofstream &f, const string &path) {
    f.close();
    if (!f)
        throw runtime_error(path + ": " + strerror(errno));
}
} // namespace

// The call; where it is not the program's, the function itself.
string SmallLog::site(Modules &modules, u64 code, u64 function) {
    string line = code ? modules.line(code) : "?", name = code ? modules.function(code) : "";
    bool unknown = line == "?" || is_library(name);
    const Symbol *s = unknown && function ? modules.symbol(function) : nullptr;
    if (s)
        line = modules.line(modules.of(function)->bias + s->at + 1),
        name = modules.function(function);
    return line == "?" ? "" : line + " " + (name.empty() ? "?" : tidy(name));
}
void SmallLog::write(const string &path) const {
    ofstream log(path), sites(path + ".sites");
    log << "vlog 1 " << max({reader_, writer_, 1u}) + 1 << " 1 0\n";
    for (auto &l : lines_)
        log << l << "\n";
    close(log, path);
    vector<string> table;
    vector<size_t> at;
    for (auto &s : sites_) {
        string text = site(modules_, s.first, s.second);
        size_t i = find(table.begin(), table.end(), text) - table.begin();
        if (!text.empty() && i == table.size())
            table.push_back(text);
        at.push_back(text.empty() ? 0 : i + 1);
    }
    sites << "vsites 1 " << table.size() << " " << at.size() << "\n";
    for (auto &t : table)
        sites << t << "\n";
    for (size_t i : at)
        sites << i << "\n";
    close(sites, path + ".sites");
}
string SmallLog::labels() const {
    string s;
    for (size_t i = 0; i < labels_.size(); i++) {
        string name = labels_[i] ? modules_.function(labels_[i]) : "";
        s += "label " + to_string(i) + " " + tidy(name) + "\n";
    }
    return s;
}
void Notes::stale_log(const string &path, const StaleWrite &s) {
    SmallLog log(modules_, s);
    log.write(path);
    ofstream names(path + ".names");
    names << log.labels();
    names << "variable 0 " << tidy(places_.variable(s.piece, s.at)) << "\n";
    pair<u32, u32> threads[] = {{log.reader(), s.read.thread}, {log.writer(), s.between.thread}};
    for (auto &t : threads)
        if (string name = writer_.thread_name(t.second); !name.empty())
            names << "thread " << t.first << " " << tidy(name) << "\n";
    close(names, path + ".names");
}
void Notes::stale_logs(const string &log) {
    for (size_t i = 0; i < Stale::MOST; i++) { // also those of an earlier log of this name
        string path = log + ".stale." + to_string(i + 1);
        if (i < stale_.size())
            stale_log(path, stale_[i]);
        else
            for (const char *suffix : {"", ".names", ".sites"})
                unlink((path + suffix).c_str());
    }
}
