// The events of the log: what stays of the records.
#pragma once
#include "blocks.hpp"
#include "retries.hpp"
#include <set>

struct Options {
    bool data = false;     // leave locks out, keep all shared variables
    bool all = false;      // leave nothing out
    u64 events = 16777216; // at most
};
struct Kept {
    u64 code; // where: of a begin the call
    u32 number;
    u8 thread, kind;
    bool in_log, tried;
    u64 value;
};
class Events {
public:
    Events(Trace &trace, Shared &shared, Blocks &blocks, const Options &options);
    std::vector<Kept> kept;
    std::vector<Function *> begun; // of the begins, in order
    std::vector<const Variable *> variables;
    std::vector<u64> objects; // variables behind those: addresses of semaphores and the like
    std::vector<u64> locks;   // addresses
    u32 numbers_of_threads =
        0; // variables behind those: for starts and ends of threads, where there are more than 64
    u32 threads = 1;
    u64 events = 0, odd = 0, deep = 0, orders_added = 0, ordered = 0, dropped = 0;
    bool cut = false;
    std::set<u64> codes; // of the accesses that matter

private:
    struct Open {
        size_t kept;
        Function *function;
        bool library;
        u64 from;
        bool waited;              // a wait in it is over
        Function *away = nullptr; // its function, where the thread is elsewhere meanwhile
        int left = 0;             // the how manieth leave that was
    };
    struct Last {
        u32 variable = ~0u;
        int kind = 0;
        u64 version = 0;
        size_t kept = 0;
    };
    struct Lock {
        int owner = -1, times = 0;
        u32 number = 0;
        std::map<u32, int> shares;
    };
    enum State { UNBORN, LIVE, ENDED, JOINED };
    struct Thread {
        std::vector<Open> open;
        int depth = 0;
        State state = UNBORN;
        int carrier = -1;
        u64 version = 0;
        Last last;
        Retries retries;
        int cuts_after = 0; // a kind of event, the last one before a wait
        int left = 0;       // how often it has left, and not returned
        bool greets = false;
        std::set<u32> knows; // threads whose ends it knows of
    };
    void number_variables();
    void number_objects(size_t room);
    bool is_numbered(Lock &l, u64 at);
    void keep(u32 thread, int kind, u32 number, u64 code, u64 value = 0);
    bool repeats(u32 thread, int kind, u32 variable, u64 value);
    void access(const Event &e, u32 piece, const Granule &g, int p, int a, int b, u64 at);
    u64 place_of(const Event &e) const;
    void retry(const Event &e, u32 variable, size_t at);
    bool step(const Event &e);
    void begin(const Event &e);
    void begin_part(u32 thread, Open &o, Function *f, u64 code);
    void close(u32 thread);
    void end_part(u32 thread, const Open &o);
    void wait_in_blocks(const Event &e);
    void cut_blocks(u32 thread);
    void leave_blocks(u32 thread);
    void return_to_blocks(u32 thread);
    void drop(const std::vector<size_t> &kept);
    void drop_empty_blocks();
    void forget_values();
    void lock(const Event &e);
    bool locks_again(Lock &l, const Event &e);
    void fork(u32 thread, u32 child, u64 code);
    int carrier_for(u32 thread);
    void begin_foreign(u32 thread);
    void exit(u32 thread);
    void join(u32 thread, u32 other, u64 code);

    Shared &shared_;
    Blocks &blocks_;
    Options options_;
    std::vector<Thread> threads_;
    std::unordered_map<u64, Lock> locks_;
    std::vector<u32> last_by_;                 // of each variable: the thread of its last event
    std::vector<int> holder_;                  // of each number of a thread: who has it
    std::set<u32> rewritten_;                  // variables of which a write was dropped
    u32 room_for_unshared_ = 0;                // numbers for locks that one thread alone takes
    std::unordered_map<u64, u32> variable_at_; // of atomics: numbers by address
    bool many_, begins_late_;
};
