// LOG.notes, what a log cannot say: one JSON object. And LOG.stale.N, each a small log of a value
// that was written from an old one.
#pragma once
#include "places.hpp"
#include "stale.hpp"
#include "survey.hpp"
#include "write.hpp"

class Notes {
public:
    Notes(Trace &trace, Shared &shared, Events &events, Modules &modules, Survey &survey,
          Places &places, Writer &writer, std::vector<StaleWrite> stale)
        : trace_(trace), shared_(shared), events_(events), modules_(modules), survey_(survey),
          places_(places), writer_(writer), stale_(std::move(stale)) {}
    bool all_variables = false; // whether the log leaves nothing out
    std::vector<u64> atomic;    // the variables in the log that atomic operations alone write
    std::vector<u64> racing;    // those of which nothing orders two accesses
    void add_codes(std::set<u64> &codes) const;
    // `left_out`: what the log was thinned by. Throws std::runtime_error.
    void write(const std::string &log, const std::string &trace,
               const std::vector<std::string> &left_out);
    void stale_logs(const std::string &log); // likewise
    void tell(); // a deadlock, and values that were written from an old one, on standard output
    // Why the functions of the program cannot be named; empty where they can.
    std::string cannot_name() const;

private:
    std::string stopped(const std::string &trace) const;
    std::string modules() const;
    std::string waits() const;
    std::string circles() const;
    std::string loops() const;
    std::string stale(const std::string &log) const;
    std::string shorts() const;
    std::string place(u64 code, u64 inside = 0) const;
    std::string function_place(u64 function) const;
    std::string function_name(u64 function) const;
    std::string wait_name(const LastState &s) const;
    void stale_log(const std::string &log, const StaleWrite &s);
    Trace &trace_;
    Shared &shared_;
    Events &events_;
    Modules &modules_;
    Survey &survey_;
    Places &places_;
    Writer &writer_;
    std::vector<StaleWrite> stale_;
};
