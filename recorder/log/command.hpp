// What a command prints, line by line.
#pragma once
#include <cstdio>
#include <cstdlib>
#include <cstring>
#include <string>

// A word as the shell takes it.
inline std::string quoted_word(const std::string &s) {
    std::string q = "'";
    for (char c : s)
        q += c == '\'' ? std::string("'\\''") : std::string(1, c);
    return q + "'";
}
// Calls use(line) for each; none where the command cannot be run.
template <class F> void lines_of(const std::string &command, F use) {
    FILE *p = popen(command.c_str(), "r");
    if (!p)
        return;
    char *l = nullptr;
    size_t room = 0;
    while (getline(&l, &room, p) >= 0) {
        l[strcspn(l, "\n")] = 0;
        use(l);
    }
    free(l);
    pclose(p);
}
