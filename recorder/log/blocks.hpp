// Which functions are blocks.
#pragma once
#include "modules.hpp"
#include "shared.hpp"
#include <unordered_map>

struct Function {
    u32 label = ~0u;
    bool block = false, library = false, waits = false;
    u64 code = 0, calls = 0;
    std::string name;
};
class Blocks {
public:
    explicit Blocks(Modules &modules) : modules_(modules) {}
    void only(const std::string &file); // throws std::runtime_error
    void never(const std::string &file);
    void find_routines(const Shared &shared);
    bool is_routine(const std::string &function) const { return routines_.count(function) > 0; }
    void only_loops(const std::set<std::string> &loops); // other routines are blocks
    Function *of(const Event &begin);                    // 0 where it has no name
    // What of a function that waits is before its wait, or after it.
    Function *part(const Function *f, bool after);
    std::vector<std::string>
        began_as; // of each thread that a library started: its first function of the program

private:
    bool chosen(const std::string &name) const;
    Modules &modules_;
    std::set<std::string> never_ = {"main"}, routines_;
    struct Choice; // a name or a pattern
    std::vector<std::shared_ptr<Choice>> only_;
    bool some_ = false;
    std::unordered_map<u64, Function *> by_code_;
    std::map<std::string, std::unique_ptr<Function>> by_name_;
    std::map<std::pair<const Function *, bool>, std::unique_ptr<Function>> parts_;
};
bool is_library(const std::string &function);
