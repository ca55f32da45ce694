#include "short.hpp"
#include "places.hpp"
#include <cstring>
#include <set>

using namespace std;

static void replace_all(string &s, const string &from, const string &to) {
    for (size_t i = 0; (i = s.find(from, i)) != string::npos; i += to.size())
        s.replace(i, from.size(), to);
}
static size_t end_of_argument(const string &s, size_t from) {
    int depth = 0;
    for (size_t i = from; i < s.size(); i++) {
        if (!depth && (s[i] == ',' || s[i] == '>'))
            return i;
        depth += s[i] == '<' || s[i] == '(';
        depth -= s[i] == '>' || s[i] == ')';
    }
    return s.size();
}
// Arguments that a template of the library has by default, behind its first one.
static void leave_out_defaults(string &s) {
    for (const char *name : {", std::allocator<", ", std::char_traits<", ", std::less<",
                             ", std::hash<", ", std::equal_to<", ", std::default_delete<"})
        for (size_t i = 0; (i = s.find(name, i)) != string::npos;)
            s.erase(i, end_of_argument(s, i + 2) - i);
}
string without_defaults(const string &name) {
    string s = name;
    replace_all(s, "std::__cxx11::", "std::");
    replace_all(s, "[abi:cxx11]", "");
    leave_out_defaults(s);
    replace_all(s, " >", ">");
    replace_all(s, "basic_string<char>", "string");
    replace_all(s, "basic_string_view<char>", "string_view");
    replace_all(s, "(anonymous namespace)::", "");
    replace_all(s, "{lambda()#", "{lambda#");
    replace_all(s, "::operator()() const", "");
    return s;
}
static string bare(const string &name) {
    string s = without_parameters(without_defaults(name));
    return name.find('(') == string::npos || s.empty() || s.back() == '}' ? s : s + "()";
}
map<string, string> short_names(const vector<string> &functions) {
    map<string, set<string>> users;
    map<string, string> names;
    for (auto &f : functions)
        users[bare(f)].insert(f);
    for (auto &f : functions) {
        string s = bare(f);
        names[f] = s.empty() || users[s].size() > 1 ? without_defaults(f) : s;
    }
    return names;
}
