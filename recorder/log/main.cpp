// velodrome-log: makes a log, its names and its sites of what the runtime recorded.
#include "ignored.hpp"
#include "notes.hpp"
#include "plain.hpp"
#include <cstdio>
#include <cstdlib>
#include <stdexcept>

using namespace std;

static const char USAGE[] =
    "velodrome-log TRACE LOG [option]..: makes LOG, LOG.names, LOG.sites, LOG.functions and "
    "LOG.notes\n"
    "  --only FILE         blocks are the functions of these names or /patterns/, one a line (and "
    "VELODROME_ATOMIC)\n"
    "  --not-blocks FILE   these functions are no blocks\n"
    "  --ignore-lock NAME, --ignore-variable NAME\n"
    "                      leave out what is done with it, and what it orders is not left out for "
    "it\n"
    "  --data              leave locks out, and keep all shared variables: conflicts of data "
    "alone\n"
    "  --all-variables     leave nothing out: neither ordered variables nor repeats\n"
    "  --sites-out FILE    write the code addresses that matter, for VELODROME_SITES of the next "
    "run\n"
    "  --quiet-out FILE    likewise with all accesses but those that touch nothing that threads "
    "share\n"
    "  --tried FILE        write the positions of the acquires that came from trylock\n"
    "  --events N          at most so many events (16777216)\n";

static const int CANNOT_NAME = 4;

struct Arguments {
    string trace, log, codes, quiet, tried, only, never;
    Ignored ignored;
    Options options;
};
static Arguments read(int n, char **v) {
    Arguments a;
    if (n < 3)
        throw invalid_argument("");
    a.trace = v[1], a.log = v[2];
    map<string, string *> files = {{"--only", &a.only},
                                   {"--not-blocks", &a.never},
                                   {"--sites-out", &a.codes},
                                   {"--quiet-out", &a.quiet},
                                   {"--tried", &a.tried}};
    map<string, set<string> *> sets = {{"--ignore-lock", &a.ignored.locks},
                                       {"--ignore-variable", &a.ignored.variables}};
    for (int i = 3; i < n; i++) {
        string o = v[i];
        if (o == "--data")
            a.options.data = true;
        else if (o == "--all-variables")
            a.options.all = true;
        else if (i + 1 == n || (!files.count(o) && !sets.count(o) && o != "--events"))
            throw invalid_argument(o);
        else if (sets.count(o))
            sets[o]->insert(v[++i]);
        else if (o == "--events")
            a.options.events = strtoull(v[++i], nullptr, 10);
        else
            *files[o] = v[++i];
    }
    return a;
}
static void tell(Trace &trace, Shared &shared, Events &events, Writer &writer) {
    auto &h = trace.info();
    printf("records %lu%s events %lu%s threads %zu variables %u (ordered %lu, dropped %lu) locks "
           "%zu functions %u",
           shared.records, trace.full() ? " (stopped)" : "", writer.written(),
           events.cut ? " (cut)" : "", trace.threads(), writer.variables(), events.ordered,
           events.dropped, events.locks.size(), writer.labels());
    printf(" blocks-too-deep %lu odd %lu late %lu lost %lu", events.deep, events.odd, shared.late,
           h.lost);
    if (trace.overwritten())
        printf(" overwritten %lu", trace.overwritten());
    printf("%s\n", events.orders_added ? " (orders added)" : "");
}
static void tell_hidden(Shared &shared, Modules &modules) {
    printf("hidden writes %lu\n", shared.hidden);
    vector<pair<u64, u64>> most;
    for (auto &h : shared.hidden_at)
        most.push_back({h.second, h.first});
    sort(most.rbegin(), most.rend());
    for (size_t i = 0; i < most.size() && i < 8; i++)
        printf("  %lu before %s %s\n", most[i].first, modules.line(most[i].second).c_str(),
               modules.function(most[i].second).c_str());
}
// What lies where, and what was written from an old value: by one replay.
static vector<StaleWrite> look_closer(Trace &trace, Shared &shared, Stacks &stacks, Places &places,
                                      Modules &modules, PlainWrites &plain) {
    Stale stale(stacks, shared, trace.info().mode != FREE);
    shared.each(
        [&](const Event &e, u32 piece, const Granule &g, int p, int, int, u64 at) {
            u64 byte = at + g.first_byte(p);
            places.meet(piece, byte), plain.access(e, piece);
            stale.access(e, piece, byte);
        },
        [&](const Event &e) {
            places.step(e), stale.step(e), stacks.step(e);
            return true;
        });
    auto found = stale.found();
    // A container that puts something new where something old was.
    found.erase(remove_if(found.begin(), found.end(),
                          [&](auto &s) { return s.by_library && places.on_heap(s.piece); }),
                found.end());
    find_functions(trace, modules, found);
    return found;
}
// Of each access: whether it touched, once at least, what threads share.
static void write_quiet(Trace &trace, Shared &shared, Writer &writer, const string &path) {
    set<u64> all, loud;
    trace.each([&](const Event &e) {
        if (e.access() && !e.atomic())
            all.insert(e.code);
        return true;
    });
    shared.each(
        [&](const Event &e, u32, const Granule &, int, int, int, u64) { loud.insert(e.code); },
        [](const Event &) { return true; });
    writer.quiet(path, all, loud);
}
// What the log was thinned by.
static vector<string> left_out(const Arguments &a) {
    vector<string> all = {"counts of shared pointers", "failed tries"};
    if (a.options.data)
        all.push_back("locks");
    if (!a.options.all) {
        all.insert(all.end(), {"repeats", "locks of one thread"});
        if (!a.options.data)
            all.push_back("ordered variables");
    }
    for (auto &name : a.ignored.locks)
        all.push_back("lock " + name);
    for (auto &name : a.ignored.variables)
        all.push_back("variable " + name);
    return all;
}
static int run(const Arguments &a) {
    Trace trace(a.trace);
    Modules modules(a.trace + ".maps");
    Blocks blocks(modules);
    if (!a.only.empty())
        blocks.only(a.only);
    if (!a.never.empty())
        blocks.never(a.never);
    Shared shared(trace, trace.info().values);
    blocks.find_routines(shared);
    Survey survey(trace, modules, blocks);
    blocks.only_loops(survey.loops);
    Stacks stacks(trace.threads(), modules);
    Places places(modules, stacks, shared.variables.size());
    PlainWrites plain(shared.variables.size());
    auto stale = look_closer(trace, shared, stacks, places, modules, plain);
    leave_out(shared, modules, places, a.ignored);
    Events events(trace, shared, blocks, a.options);
    Writer writer(trace, shared, events, modules, blocks, places);
    writer.log(a.log);
    Notes notes(trace, shared, events, modules, survey, places, writer, stale);
    notes.all_variables = a.options.all;
    for (size_t i = 0; i < events.variables.size(); i++) {
        const Variable *v = events.variables[i];
        if (v->atomic && !plain.of(v - shared.variables.data()))
            notes.atomic.push_back(i);
        if (v->racy)
            notes.racing.push_back(i);
    }
    set<u64> codes;
    writer.add_codes(codes), notes.add_codes(codes), places.add_codes(codes);
    modules.find_lines(codes);
    writer.sites(a.log + ".sites");
    writer.names(a.log + ".names");
    writer.functions(a.log + ".functions");
    notes.write(a.log, a.trace, left_out(a));
    notes.stale_logs(a.log);
    if (!a.codes.empty())
        writer.codes(a.codes);
    if (!a.quiet.empty())
        write_quiet(trace, shared, writer, a.quiet);
    if (!a.tried.empty())
        writer.tried(a.tried);
    tell(trace, shared, events, writer);
    notes.tell();
    if (trace.info().values)
        tell_hidden(shared, modules);
    string why = notes.cannot_name();
    if (why.empty())
        return 0;
    fprintf(stderr, "velodrome-log: %s\n", why.c_str());
    return CANNOT_NAME;
}
int main(int n, char **v) {
    try {
        return run(read(n, v));
    } catch (const invalid_argument &e) {
        fprintf(stderr, "%s%s%s", e.what(), *e.what() ? ": what?\n" : "", USAGE);
        return 2;
    } catch (const exception &e) {
        fprintf(stderr, "velodrome-log: %s\n", e.what());
        return 5;
    }
}
