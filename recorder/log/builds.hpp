// Whether a module's file is the build that ran, and which of its objects have no hooks.
#pragma once
#include <cstdint>
#include <map>
#include <string>
#include <vector>

// What the runtime noted of a module, or what its file has now.
struct Build {
    std::string id; // `-`: it has none
    uint64_t size = 0, time = 0;
};
enum class BuildState { SAME, CHANGED, GONE, STRIPPED };

// The builds that ran, by the address of the module.
std::map<uint64_t, Build> builds_that_ran(const std::string &maps);
// The state of the file. `ran` is null where the runtime noted nothing; then a file that is newer
// than the maps is another one.
BuildState state_of(const std::string &path, const Build *ran, const std::string &maps);
const char *name_of(BuildState state);
// The source files of its objects that were compiled without hooks.
std::vector<std::string> unhooked_objects(const std::string &path);
// Whether the module was linked with the recorder, or calls hooks.
bool is_hooked(const std::string &path);
