// The log and what goes with it: LOG, LOG.names, LOG.sites, LOG.functions.
#pragma once
#include "events.hpp"
#include "places.hpp"

class Writer {
public:
    Writer(Trace &trace, Shared &shared, Events &events, Modules &modules, Blocks &blocks,
           Places &places)
        : trace_(trace), shared_(shared), events_(events), modules_(modules), blocks_(blocks),
          places_(places) {}
    void log(const std::string &path); // all of these throw std::runtime_error
    void sites(const std::string &path);
    void names(const std::string &path);
    void functions(const std::string &path);
    void tried(const std::string &path);
    void codes(const std::string &path); // for VELODROME_SITES
    // likewise: of all code addresses, the others than those that are loud are left out
    void quiet(const std::string &path, const std::set<u64> &all, const std::set<u64> &loud);
    void add_codes(std::set<u64> &codes) const; // those whose lines it tells
    std::string thread_name(u32 t);
    u32 labels() const { return labels_.size(); }
    u64 written() const { return at_.size(); }
    u32 variables() const;

private:
    std::string variable_name(u32 x);
    std::string lock_name(u32 m);
    Trace &trace_;
    Shared &shared_;
    Events &events_;
    Modules &modules_;
    Blocks &blocks_;
    Places &places_;
    std::vector<Function *> labels_;
    struct Site {
        u64 code;
        Function *called; // by it
    };
    std::vector<Site> sites_;
    std::vector<u32> at_; // the site of each event, 0 unknown
    std::vector<u64> tried_;
    std::set<u64> codes_;
};
// A name as the checker takes it: at most 200 bytes, printable.
std::string tidy(std::string name);
