#include "loops.hpp"
#include "command.hpp"
#include <cstdio>
#include <map>
#include <set>
#include <vector>

using namespace std;
typedef uint64_t u64;

namespace {
struct Instruction {
    bool goes_on = true, calls = false;
    u64 target = 0; // of a jump; 0 none
};
typedef map<u64, Instruction> Code;
} // namespace

// A line of objdump: `  ADDRESS:\tWORD OPERANDS`.
static void read_instruction(const char *line, Code &code) {
    u64 at;
    int behind = 0;
    char word[32], operand[64] = "";
    if (sscanf(line, " %lx:%n", &at, &behind) != 1 || !behind)
        return;
    if (sscanf(line + behind, " %31s %63s", word, operand) < 1)
        return;
    string w = word;
    if (w == "bnd" || w == "notrack")
        w = operand, sscanf(line + behind, " %*s %*s %63s", operand);
    Instruction i;
    i.goes_on = w != "jmp" && w != "ret" && w != "retq" && w != "hlt" && w != "ud2";
    if (w[0] == 'j' && sscanf(operand, "%lx", &i.target) != 1)
        i.target = 0;
    i.calls = w.compare(0, 4, "call") == 0;
    code[at] = i;
}
// Whether a walk from behind the call comes back to it. A loop without calls does nothing that is
// recorded.
static bool comes_back(const Code &code, Code::const_iterator call) {
    set<u64> seen;
    vector<u64> next = {std::next(call) == code.end() ? 0 : std::next(call)->first};
    while (!next.empty()) {
        auto i = code.find(next.back());
        next.pop_back();
        if (i == code.end() || !seen.insert(i->first).second)
            continue;
        if (i == call)
            return true;
        if (i->second.target)
            next.push_back(i->second.target);
        auto behind = std::next(i);
        if (i->second.goes_on && behind != code.end())
            next.push_back(behind->first);
    }
    return false;
}
static bool has_circle(const Code &code) {
    for (auto i = code.begin(); i != code.end(); ++i)
        if (i->second.calls && comes_back(code, i))
            return true;
    return false;
}
bool has_loop(const string &path, u64 low, u64 high) {
    char range[100];
    snprintf(range, sizeof range, "--start-address=0x%lx --stop-address=0x%lx ", low, high);
    Code code;
    lines_of("objdump -d --no-show-raw-insn " + string(range) + quoted_word(path) + " 2>/dev/null",
             [&](const char *line) { read_instruction(line, code); });
    return has_circle(code);
}
