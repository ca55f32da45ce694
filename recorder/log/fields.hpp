// Names of variables and of their fields, by a module's DWARF.
#pragma once
#include <cstdint>
#include <memory>
#include <string>

class Fields {
public:
    explicit Fields(const std::string &path);
    ~Fields();
    // What lies at the offset in the variable at this address of its module: `.field[2].other+1`;
    // empty where it is not known.
    std::string path(uint64_t variable, uint64_t offset);
    // The object of a function's frame, by an address in its code and the distance from its
    // canonical frame address: `server.clients[2]`; empty where it is not known.
    std::string local(uint64_t code, int64_t distance);
    // What lies at the offset in an object of this class and size; false where there is no such
    // class. The name is the last part of the class's.
    bool member(const std::string &name, uint64_t size, uint64_t offset, std::string &path);

private:
    struct Reader;
    std::unique_ptr<Reader> reader_;
};
