"""Programs on which the recorder was wrong or silent: python3 tests/faults.py [gcc] [clang] [-k WORD]. Their lists need VELODROME, the checker's path.

The last line is `N passed, N failed`."""

import sys
import tempfile

import test as base
from test import BIN, CHECKER, HERE, functions, log_of, number, program, run_with, sh, test

INCLUDED = ("-I" + HERE + "/programs",)


def named(room, trace, *options):
    """The functions that are not atomic, and what was said: without a checker, none."""
    return functions(room, trace, *options) if CHECKER else (None, "")


def sandboxes(room, cc):
    """What a program gives up does not end its recording."""
    made = program(room, cc, "sandbox", *INCLUDED)
    for how in ("u", "c", "uc", "f", "x", "e", "k"):
        for mode in ("exact", "free"):

            def body():
                trace = run_with(made, mode, how)
                if made.done.stdout != "ran well\n" or made.done.stderr:
                    return made.done.stdout + made.done.stderr
                said = log_of(room, trace)[2]
                if number(said, "threads") != 3 or "(stopped)" in said:
                    return said
                names, said = named(room, trace)
                return True if not CHECKER or "bump" in names else said

            test(f"{cc} {mode} a program that gives up {how}", body)


def many_locks(room, cc):
    """Locks of one thread do not take the numbers of those that two threads take."""
    made = program(room, cc, "many_locks", *INCLUDED)

    def body():
        trace = made.run("exact")
        said = log_of(room, trace)[2]
        if number(said, "locks") != 1 or number(said, "dropped"):
            return said
        whole = log_of(room, trace, "--all-variables")[2]
        if number(whole, "locks") != 4096 or not number(whole, "dropped"):
            return whole
        names, said = named(room, trace)
        return True if not CHECKER or "bump" in names else said

    test(f"{cc} 5,000 locks of one thread", body)


def ignored(room, cc):
    """What is ignored orders nothing: the log has what it ordered."""
    made = program(room, cc, "one_lock", *INCLUDED)

    def body():
        trace = made.run("exact", VELODROME_NOISE=5)
        for ignores in (("--ignore-lock", "m"), ()):
            log, names, said = log_of(room, trace, *ignores)
            if (" acq " in log) == bool(ignores) or ("count" in names) != bool(ignores):
                return said + names
            listed, said = named(room, trace, *ignores)
            if CHECKER and "bump" not in listed:
                return said
        log, names, said = log_of(room, trace, "--ignore-lock", "m", "--ignore-variable", "count")
        return True if " rd " not in log and " wr " not in log else said

    test(f"{cc} a lock that is ignored orders nothing", body)


def names_of(room, trace, *options):
    """The functions that are not atomic; of a function that waits, its parts."""
    names, said = functions(room, trace, *options)
    return {name.split("(")[0] for name in names}, said


def lists(room, cc, name, wrong, right, flags=(), runs=(("exact", 0), ("exact", 5)), **env):
    """Of a program with mistakes: what must be in the list, and what must not."""
    if not CHECKER:
        return
    made = program(room, cc, name, *INCLUDED, *flags)
    for mode, noise in runs:

        def body():
            seen = set()
            for seed in (1, 2):
                trace = made.run(mode, VELODROME_NOISE=noise, VELODROME_SEED=seed, **env)
                names, said = names_of(room, trace)
                if names & right:
                    return said
                seen |= names
            missed = wrong - seen if noise else set()
            return True if not missed else f"{missed} not in the list: {seen}"

        test(f"{cc} {mode} noise {noise} {name}", body)


def waits(room, cc):
    """A function that waits is two blocks, and each is judged."""
    lists(
        room,
        cc,
        "waits",
        {"order, after its wait", "reserve, before its wait"},
        {
            "take",
            "take, before its wait",
            "take, after its wait",
            "wait_open",
            "meet",
            "meet, before its wait",
        },
    )


def own_locks(room, cc):
    """Locks made of atomics are locks, and what is tried again is done once."""
    lists(
        room,
        cc,
        "own_locks",
        {"twice", "add_badly"},
        {
            "by_flag",
            "by_word",
            "by_trying",
            "by_ticket",
            "by_sleepy",
            "add",
            "add_again",
            "lock_flag",
            "lock_sleepy",
            "unlock_sleepy",
            "change",
        },
    )


def library_counts(room, cc):
    """What the library of C++ counts and makes once is its own."""
    lists(
        room,
        cc,
        "library_counts",
        {"look_twice"},
        {"use_copy", "use_static", "instance", "Registry::Registry"},
    )


def spinning(room, cc):
    """By turns the time of those that sleep passes with the turns of others, and the clocks show it."""
    made = program(room, cc, "spinwait")
    for strategy in ("random", "rr", "pct"):
        for how in ((), ("yields",)):

            def body():
                trace = run_with(made, "serial", *how, VELODROME_STRATEGY=strategy, timeout=30)
                said = log_of(room, trace)[2]
                return True if made.done.stdout == "well\n" else made.done.stdout + said

            test(f"{cc} serial {strategy} spins on one that sleeps {how}", body)


def fibers(room, cc):
    """A fiber is a thread of the log, and a switch is a wait."""
    made = program(room, cc, "fibers", *INCLUDED)

    def threads():
        said = log_of(room, made.run("exact"))[2]
        right = number(said, "threads") == 7 and not number(said, "odd")
        return True if right and made.done.stdout == "420\n" else said + made.done.stdout

    test(f"{cc} fibers are threads", threads)

    def by_turns():
        trace = made.run("serial")
        right = made.done.stderr.count("\n") == 1 and "fibers" in made.done.stderr
        said = log_of(room, trace)[2]
        return True if right and "(stopped)" in said else made.done.stderr + said

    test(f"{cc} fibers by turns are told", by_turns)
    lists(
        room,
        cc,
        "fibers",
        {"lose"},
        {"inner", "inner, before its wait", "inner, after its wait", "leaf"},
    )


def glib(room, cc):
    """GLib's locks are locks, where the system has GLib."""
    lists(
        room,
        cc,
        "glib",
        {"add", "order, after its wait"},
        {"both", "look", "change", "get", "put", "wait_open"},
        ("-l:libglib-2.0.so.0",),
    )


def openmp(room, cc):
    """A team's threads are ordered as OpenMP says. Of clang's OpenMP nothing is known."""
    if cc == "gcc":
        lists(
            room,
            cc,
            "openmp",
            {"lose"},
            {"add", "look", "set", "cell", "fill", "add_up", "team"}
            | {
                f"{f}, {part} its wait" for f in ("fill", "add_up", "team") for part in PARTS_OF_ONE
            },
            ("-fopenmp",),
        )


def refusals(room, cc):
    """What does not go together is refused by the wrapper, in one line."""

    def body():
        for flag in ("-static", "-fsanitize=address"):
            words = (f"{BIN}/velodrome-cc", f"{HERE}/programs/one_lock.c", "-o", "/dev/null", flag)
            done = sh(*words, env={"VELODROME_CC": cc}, ok=(2,))
            if done.stderr.count("\n") != 1 or flag not in done.stderr:
                return done.stderr
        return True

    test(f"{cc} flags that are refused", body)


PARTS_OF_ONE = ("before", "after")
PARTS = (
    sandboxes,
    many_locks,
    ignored,
    waits,
    own_locks,
    library_counts,
    spinning,
    fibers,
    glib,
    openmp,
    refusals,
)


def main(words):
    if "-k" in words:
        base.only = words[words.index("-k") + 1]
        words = words[: words.index("-k")]
    with tempfile.TemporaryDirectory() as room:
        for cc in words or ["gcc", "clang"]:
            for part in PARTS:
                part(room, cc)
    print(f"{base.counts[True]} passed, {base.counts[False]} failed")
    return base.counts[False] > 0 or not base.counts[True]


if __name__ == "__main__":
    sys.exit(main(sys.argv[1:]))
