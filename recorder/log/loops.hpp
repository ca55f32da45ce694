// Whether a function's code loops.
#pragma once
#include <cstdint>
#include <string>

// By its instructions in the file at these addresses; false where they cannot be read.
bool has_loop(const std::string &path, uint64_t low, uint64_t high);
