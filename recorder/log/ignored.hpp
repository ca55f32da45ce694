// What is left out before the log is thinned: what the user names, and the counts of shared
// pointers, which are the library's.
#pragma once
#include "places.hpp"

struct Ignored {
    std::set<std::string> locks, variables; // by the names that LOG.names has
    bool none() const { return locks.empty() && variables.empty(); }
};
void leave_out(Shared &shared, Modules &modules, Places &places, const Ignored &ignored);
