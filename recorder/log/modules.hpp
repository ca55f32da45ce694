// Names and source lines of addresses: the program's modules, their symbols, their lines.
#pragma once
#include "builds.hpp"
#include <map>
#include <memory>
#include <set>
#include <string>
#include <vector>
#include <cstdint>

typedef uint64_t u64;

struct Symbol {
    u64 at, size;
    std::string name;
};
class Fields;
struct Module {
    std::string path;
    u64 low, high, bias;
    bool ready = false, judged = false;
    BuildState state = BuildState::SAME; // once it is judged
    std::vector<Symbol> symbols;
    std::shared_ptr<Fields> fields;
};

class Modules {
public:
    explicit Modules(const std::string &maps);
    bool empty() const { return modules_.empty(); }
    std::vector<Module> &all() { return modules_; }
    Module *of(u64 address);
    BuildState state(Module &m);
    bool readable(Module &m); // its file tells of the build that ran
    Fields &fields(Module &m);
    const Symbol *symbol(u64 address);
    std::string function(u64 code);    // demangled; empty where there is none
    std::string place(u64 address);    // of data: symbol and field, or the address
    std::string constant(u64 address); // a string of the program
    bool loops(u64 function);          // by its code
    void find_lines(const std::set<u64> &codes);
    std::string line(u64 code) const; // FILE:LINE of a call, or ?

private:
    struct Piece {
        u64 low, high, offset;
        std::string path;
    };
    void add_module(const std::string &path, u64 low, u64 high, bool runs);
    void read_symbols(Module &m);
    std::string maps_;
    std::map<u64, Build> ran_;
    std::vector<Module> modules_;
    std::vector<Piece> pieces_;
    std::map<u64, std::string> lines_;
};
std::string demangle(const std::string &name);
