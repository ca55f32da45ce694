#include "blocks.hpp"
#include <algorithm>
#include <cstring>
#include <fstream>
#include <regex>
#include <stdexcept>

using namespace std;

static bool starts(const string &s, const char *with) {
    return s.compare(0, strlen(with), with) == 0;
}
// The name behind the type that it returns, which instances of templates have before them.
static string behind_type(const string &s) {
    size_t start = 0;
    int depth = 0;
    for (size_t i = 0; i < s.size(); i++) {
        if (!depth && (s[i] == '(' || s.compare(i, 8, "operator") == 0))
            break;
        depth += s[i] == '<', depth -= s[i] == '>';
        if (!depth && s[i] == ' ')
            start = i + 1;
    }
    return s.substr(start);
}
// Of the libraries of C++ and Rust; also what returns one of their types.
bool is_library(const string &s) {
    for (const char *p : {"std::", "__gnu_cxx::", "__gthread_",
                          "core::", "alloc::", "<std::", "<core::", "<alloc::", "__rust",
                          "_GLOBAL__", "decltype", "operator new", "operator delete"})
        if (starts(s, p))
            return true;
    return s.find(" std::__") != string::npos || starts(behind_type(s), "std::") ||
           starts(behind_type(s), "__gnu_cxx::");
}
// What runs the routines that a program gives GLib and OpenMP.
static bool starts_routines(const string &function) {
    for (const char *p : {"native_thread_routine", "g_thread_proxy", "g_thread_pool_thread_proxy",
                          "gomp_thread_start", "__kmp_launch_worker", "__kmp_launch_thread"})
        if (function.find(p) != string::npos)
            return true;
    return false;
}
// A region of OpenMP, which each thread of a team runs.
static bool is_region(const string &function) {
    return function.find("._omp_fn") != string::npos ||
           function.find(".omp_outlined") != string::npos ||
           function.find(".omp_task_entry") != string::npos;
}
struct Blocks::Choice {
    string name; // empty: the pattern
    regex pattern;
};
static ifstream open_list(const string &file) {
    ifstream f(file);
    if (!f)
        throw runtime_error(file + ": " + strerror(errno));
    return f;
}
void Blocks::only(const string &file) {
    ifstream f = open_list(file);
    some_ = true;
    for (string l; getline(f, l);) {
        bool pattern = l.size() > 2 && l[0] == '/' && l.back() == '/';
        if (pattern)
            only_.push_back(make_shared<Choice>(Choice{"", regex(l.substr(1, l.size() - 2))}));
        else if (!l.empty() && l[0] != '#')
            only_.push_back(make_shared<Choice>(Choice{l, regex()}));
    }
}
void Blocks::never(const string &file) {
    ifstream f = open_list(file);
    for (string l; getline(f, l);)
        never_.insert(l);
}
// The name as it is told, or without the parameters of C++.
bool Blocks::chosen(const string &name) const {
    if (!some_)
        return true;
    return any_of(only_.begin(), only_.end(), [&](auto &o) {
        return o->name.empty() ? regex_search(name, o->pattern)
                               : o->name == name || starts(name, (o->name + "(").c_str());
    });
}
Function *Blocks::of(const Event &e) {
    auto i = by_code_.find(e.code);
    if (i != by_code_.end())
        return i->second;
    bool named = e.kind == NAMED;
    string name = named ? modules_.constant(e.code) : modules_.function(e.code);
    if (name.empty())
        return by_code_[e.code] = nullptr;
    auto &f = by_name_[name];
    if (!f)
        f = make_unique<Function>();
    f->name = name, f->code = e.code;
    if (!named)
        f->code = modules_.of(e.code)->bias + modules_.symbol(e.code)->at + 1;
    f->library = !named && is_library(name);
    bool routine = routines_.count(name) || is_region(name);
    f->block = named || (!never_.count(name) && !routine && !f->library && chosen(name));
    return by_code_[e.code] = f.get();
}
Function *Blocks::part(const Function *f, bool after) {
    auto &part = parts_[{f, after}];
    if (part)
        return part.get();
    part = make_unique<Function>();
    part->block = true;
    part->waits = true;
    part->code = f->code;
    part->name = f->name + (after ? ", after its wait" : ", before its wait");
    return part.get();
}
// A routine that does not loop is a block as any function is.
void Blocks::only_loops(const set<string> &loops) {
    for (auto r = routines_.begin(); r != routines_.end();)
        r = is_library(*r) || loops.count(*r) ? next(r) : routines_.erase(r);
}
// A thread's routine that loops is no block. Of a thread that a library starts, it is the first
// function that is not the library's.
void Blocks::find_routines(const Shared &shared) {
    began_as.resize(shared.routine.size());
    for (size_t t = 0; t < began_as.size(); t++) {
        if (!shared.routine[t])
            continue;
        string name = modules_.function(shared.routine[t]);
        if (!name.empty())
            routines_.insert(name);
        if (!name.empty() && !is_library(name) && !starts_routines(name))
            continue;
        auto &b = shared.begins[t];
        auto first = find_if(b.begin(), b.end(), [&](u64 code) {
            string function = modules_.function(code);
            return !is_library(function) && !starts_routines(function);
        });
        if (first != b.end())
            began_as[t] = modules_.function(*first), routines_.insert(began_as[t]);
    }
}
