// Short names of C++: `std::string` for its template, no defaults of the library's templates, and
// no parameters where one function alone has the name.
#pragma once
#include <map>
#include <string>
#include <vector>

std::string without_defaults(const std::string &name);
// The short name of each of them. Two that differ stay different.
std::map<std::string, std::string> short_names(const std::vector<std::string> &functions);
