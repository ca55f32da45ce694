"""Tests of the recorder: python3 tests/test.py [gcc] [clang] [-k WORD]. Each kind of hook against an expected log, in each mode.

With VELODROME the path of a checker, its commands judge the logs too. The last line is `N passed, N failed`."""
import glob
import json
import os
import re
import subprocess
import sys
import tempfile

from cases import CASES, CPP, CPP_LOG, HEAD, LOST, TAIL

HERE = os.path.dirname(os.path.realpath(__file__))
BIN = os.path.join(os.path.dirname(HERE), "out", "bin")
MODES = ("free", "exact", "serial")
CHECKER = os.environ.get("VELODROME")
counts = {True: 0, False: 0}
only = None


def sh(*words, env=None, ok=(0,), timeout=60):
    done = subprocess.run(
        words,
        capture_output=True,
        text=True,
        errors="replace",
        env={**os.environ, **(env or {})},
        timeout=timeout,
    )
    if done.returncode not in ok:
        raise RuntimeError(
            f"{' '.join(words)}: status {done.returncode}\n{done.stdout}{done.stderr}"
        )
    return done


def test(name, body):
    """Runs a test, which returns true, or else what is wrong."""
    if only and only not in name:
        return
    try:
        wrong = body()
    except (RuntimeError, subprocess.TimeoutExpired, OSError, IndexError) as e:
        wrong = str(e)
    counts[wrong is True] += 1
    if wrong is not True:
        print(f"FAILED {name}: {wrong}", flush=True)


class Program:
    """A program that is built once for each compiler."""

    def __init__(self, room, cc, name, source, suffix="c", flags=()):
        self.room, self.path = room, f"{room}/{name}-{cc}"
        with open(f"{self.path}.{suffix}", "w", encoding="utf-8") as f:
            f.write(source)
        driver = "velodrome-c++" if suffix == "cpp" else "velodrome-cc"
        cxx = {"gcc": "g++"}.get(cc, cc + "++")
        sh(
            f"{BIN}/{driver}",
            f"{self.path}.{suffix}",
            "-o",
            self.path,
            *(["-std=c++17"] if suffix == "cpp" else []),
            *flags,
            env={"VELODROME_CC": cc, "VELODROME_CXX": cxx},
            timeout=600,
        )

    def run(self, mode, ok=(0,), timeout=60, out=None, **env):
        """Runs it, and returns its trace and what it said."""
        out = out or f"{self.room}/trace"
        for f in glob.glob(f"{out}.*"):
            os.unlink(f)
        settings = {
            "VELODROME_OUT": out,
            "VELODROME_MODE": mode,
            "VELODROME_MOST": "4000000",
            **{k: str(v) for k, v in env.items()},
        }
        self.done = sh(self.path, env=settings, ok=ok, timeout=timeout)
        found = [
            f
            for f in sorted(glob.glob(f"{out}.*"), key=os.path.getmtime)
            if re.search(r"\.\d+$", f)
        ]
        return found[0] if found else None


def log_of(room, trace, *options):
    said = sh(f"{BIN}/velodrome-log", trace, f"{room}/log", *options).stdout
    with open(f"{room}/log", encoding="ascii") as f, open(
        f"{room}/log.names", encoding="utf-8"
    ) as n:
        return f.read(), n.read(), said


def canonical(lines):
    """Labels, variables and locks numbered by their first use."""
    out, seen = [], {}
    kinds = {"rd": "v", "wr": "v", "begin": "b", "acq": "m", "rel": "m", "acqs": "m", "rels": "m"}
    for line in lines:
        words = line.split(" ")
        if len(words) > 2 and words[1] in kinds:
            kind = kinds[words[1]]
            words[2] = str(seen.setdefault((kind, words[2]), sum(1 for k, _ in seen if k == kind)))
        out.append(" ".join(words))
    return out


def check(room, *more, ok=(0, 3)):
    return sh(CHECKER, "check", f"{room}/log", "--names", f"{room}/log.names", *more, ok=ok).stdout


def hooks(room, cc):
    for i, (name, source, options, want) in enumerate(CASES):
        if only and all(only not in f"{cc} {mode} {name}" for mode in MODES):
            continue
        program = Program(room, cc, f"case{i}", HEAD + source + TAIL)
        for mode in MODES:

            def body():
                log, names, said = log_of(room, program.run(mode), *options)
                lines = log.splitlines()[1:]
                if callable(want):
                    right = want(log, names, said)
                else:
                    right = canonical(lines) == canonical(want)
                if CHECKER and right and mode == "exact":
                    check(room)
                return (
                    True
                    if right
                    else f"\n  {lines}\n  {want if not callable(want) else said + names}"
                )

            test(f"{cc} {mode} {name}", body)
    program = Program(room, cc, "cpp", CPP, "cpp")
    for mode in MODES:

        def body():
            lines = canonical(
                log_of(room, program.run(mode), "--all-variables")[0].splitlines()[1:]
            )
            return True if lines == canonical(CPP_LOG) else f"\n  {lines}\n  {canonical(CPP_LOG)}"

        test(f"{cc} {mode} C++", body)


def trylocks(room, cc):
    """The positions of the acquires that came from a trylock."""
    source = (
        HEAD
        + "static pthread_mutex_t m = PTHREAD_MUTEX_INITIALIZER; void f(void) { pthread_mutex_lock(&m); pthread_mutex_unlock(&m); if (!pthread_mutex_trylock(&m)) pthread_mutex_unlock(&m); } void g(void) { f(); }"
        + TAIL
    )
    made = Program(room, cc, "tried", source)

    def body():
        log = log_of(room, made.run("exact"), "--tried", f"{room}/tried")[0].splitlines()[1:]
        with open(f"{room}/tried", encoding="ascii") as f:
            at = [int(x) for x in f.read().split()]
        acquires = [i for i, line in enumerate(log) if " acq " in line]
        return True if at == [acquires[1], acquires[3]] else f"{at} of {acquires}"

    test(f"{cc} acquires by trylock are told", body)


def noises(room, cc):
    made = program(room, cc, "races")

    def body():
        seen = []
        for seed in (1, 1, 2):
            made.run("exact", VELODROME_NOISE=10, VELODROME_SEED=seed, VELODROME_VERBOSE=1)
            seen.append(int(re.search(r"(\d+) waits by noise", made.done.stderr)[1]))
        return True if all(200 < n < 40000 for n in seen) else seen

    test(f"{cc} noise", body)
    long = program(room, cc, "late", "-I" + HERE + "/programs")

    def bounded():
        long.run("exact", VELODROME_NOISE=2, VELODROME_VERBOSE=1)
        waits = int(re.search(r"(\d+) waits by noise", long.done.stderr)[1])
        return True if 200 < waits < 100000 else waits

    test(f"{cc} noise of a long run", bounded)


def sites(room, cc):
    """With the code addresses that mattered, the next run notes these alone, and has the same variables."""
    made = program(room, cc, "cache")

    def body():
        before = log_of(room, made.run("exact"), "--sites-out", f"{room}/sites")[2]
        after = log_of(room, made.run("exact", VELODROME_SITES=f"{room}/sites"))[2]
        fewer = number(after, "records") < number(before, "records") * 3 // 4
        return (
            True if fewer and number(after, "locks") == number(before, "locks") else before + after
        )

    test(f"{cc} a list of sites", body)

    def quiet():
        path = f"{room}/quiet"
        before = log_of(room, made.run("exact"), "--all-variables", "--quiet-out", path)[2]
        with open(path, encoding="utf-8") as f:
            signs = {line[0] for line in f}
        after = log_of(room, made.run("exact", VELODROME_SITES=path), "--all-variables")[2]
        same = number(after, "locks") == number(before, "locks")
        same = same and number(after, "variables") > number(before, "variables") * 9 // 10
        fewer = number(after, "records") < number(before, "records") * 4 // 5
        return True if same and fewer and signs == {"-", "+"} else f"{signs} {before}{after}"

    test(f"{cc} a list of quiet places", quiet)


def seeds(room, cc):
    program = Program(room, cc, "lost", LOST)

    def body():
        logs = {
            (
                k % 2,
                log_of(
                    room, program.run("serial", ok=(0, 1), VELODROME_SEED=k % 2, VELODROME_VALUES=1)
                )[0],
            )
            for k in range(6)
        }
        return True if len(logs) == 2 else f"{len(logs)} logs of two seeds"

    test(f"{cc} the same seed gives the same log", body)


def program(room, cc, name, *flags):
    suffix = "cpp" if os.path.exists(f"{HERE}/programs/{name}.cpp") else "c"
    with open(f"{HERE}/programs/{name}.{suffix}", encoding="utf-8") as f:
        return Program(room, cc, name, f.read(), suffix, flags)


def number(said, word):
    return int(re.search(word + r" (\d+)", said)[1])


def functions(room, trace, *options):
    """The names of the functions that are not atomic, in the order of the rounds; what was said."""
    said = log_of(room, trace, *options)[2]
    words = ["audit", f"{room}/log", "--names", f"{room}/log.names", "--format", "json"]
    alarms = json.loads(sh(CHECKER, *words, ok=(0, 3)).stdout)["alarms"]
    names = [block["label"]["name"] for alarm in alarms for block in alarm["blocks"]]
    return list(dict.fromkeys(names)), f"{said}not atomic: {names}"


def races(room, cc):
    """What threads race on stands in the log as it happened: each read has what was written last."""
    made = program(room, cc, "races")
    for mode in ("exact", "serial"):
        for noise in (0, 50):

            def body():
                made.run(mode, VELODROME_VALUES=1, VELODROME_NOISE=noise)
                log, _, said = log_of(room, glob.glob(f"{room}/trace.*[0-9]")[0])
                if number(said, "hidden writes") or number(said, "lost"):
                    return said
                if number(said, "late"):
                    print(f"  late: {said.strip()}")
                if CHECKER:
                    check(room)
                    with open(f"{room}/log", "w", encoding="ascii") as f:
                        f.write(one_read_changed(log))
                    if "wrong value" not in sh(CHECKER, "check", f"{room}/log", ok=(4, 2)).stderr:
                        return "a changed value was taken"
                return True

            test(f"{cc} {mode} noise {noise} races have their values", body)


def one_read_changed(log):
    lines = log.split("\n")
    reads = [i for i, line in enumerate(lines) if " rd " in line]
    i = reads[len(reads) // 2]
    words = lines[i].split(" ")
    lines[i] = " ".join([*words[:3], str(int(words[3]) ^ 1)])
    return "\n".join(lines)


def many_threads(room, cc):
    made = program(room, cc, "threads")
    for count, alive in ((200, 2), (200, 20), (64, 63), (640, 8)):
        for mode in ("exact", "serial"):

            def body():
                trace = run_with(made, mode, count, alive)
                log, _, said = log_of(room, trace)
                if (
                    number(said, "threads") != count + 1
                    or number(said, "odd")
                    or number(said, "dropped")
                    or number(said, "lost")
                ):
                    return said
                if CHECKER:
                    check(room)
                return True

            test(f"{cc} {mode} {count} threads, {alive} at a time", body)


def run_with(made, mode, *arguments, ok=(0,), **env):
    """Runs a program with arguments: its trace."""
    path = made.path
    words = f"{path}-run"
    with open(words, "w", encoding="utf-8") as f:
        f.write("#!/bin/sh\nexec " + " ".join([path, *map(str, arguments)]) + "\n")
    os.chmod(words, 0o755)
    made.path = words
    try:
        return made.run(mode, ok=ok, **env)
    finally:
        made.path = path


def check_then_act(room, cc):
    """The planted mistake is found by name, and its repair has none."""
    if not CHECKER:
        return
    made = program(room, cc, "cache")
    for mode in ("exact", "serial"):

        def body():
            noise = 0 if mode == "serial" else 20
            names, said = functions(room, run_with(made, mode, VELODROME_NOISE=noise))
            if "look_up(int)" not in names:
                return said
            names, said = functions(room, run_with(made, mode, "whole"))
            return True if not names else said

        test(f"{cc} {mode} a check-then-act is found by name", body)


def deadlocks(room, cc):
    made = program(room, cc, "deadlock")

    def body():
        told = 0
        for seed in range(5):
            trace = made.run("serial", ok=(0, 97), VELODROME_SEED=seed, VELODROME_PERIOD=5)
            if made.done.returncode == 97:
                said = log_of(room, trace)[2]
                pattern = r"deadlock\n  thread 0 .*the end of thread 1 forward   \S+:\d+\n  thread 1 forward waits for the mutex second, held by thread 2 backward   \S+:9\n  thread 2 backward waits for the mutex first, held by thread 1 forward   \S+:9"
                if (
                    not re.search(pattern, said)
                    or "deadlock. No thread can go on" not in made.done.stderr
                ):
                    return said + made.done.stderr
                told += 1
        return True if told else "no deadlock in 5 seeds"

    test(f"{cc} serial a deadlock is told", body)


def endings(room, cc):
    """Whatever becomes of the program, its status is its own, and its trace can be read up to there."""
    made = program(room, cc, "endings")
    for how, status in (
        ("", 5),
        ("killed", -9),
        ("aborted", -6),
        ("crashed", -11),
        ("_exit", 0),
        ("closes", 5),
        ("stack", 5),
        ("forks", 5),
        ("signals", 5),
    ):
        for mode in ("exact", "serial"):

            def body():
                trace = run_with(made, mode, how, ok=(status,))
                said = log_of(room, trace)[2]
                if number(said, "records") < 2000 or (number(said, "lost") and how != "signals"):
                    return said
                if CHECKER:
                    check(room)
                return True

            test(f"{cc} {mode} ends: {how or 'returns'}", body)

    def children():
        run_with(made, "exact", "forks", ok=(5,), VELODROME_FORKS=1)
        traces = [f for f in glob.glob(f"{room}/trace.*") if re.search(r"\.\d+$", f)]
        said = [log_of(room, t, "--all-variables")[2] for t in traces]
        return (
            True
            if len(traces) == 4
            and all(number(s, "records") > 2000 and number(s, "threads") == 2 for s in said)
            else said
        )

    test(f"{cc} children of fork have traces of their own", children)


def limits(room, cc):
    """What stops the recording is told in one line, and the program goes on."""
    made = program(room, cc, "endings")
    for mode in MODES:

        def full():
            trace = run_with(made, mode, "much", ok=(5,), VELODROME_MOST=20000)
            said = log_of(room, trace, "--all-variables")[2]
            right = (
                made.done.stderr.count("\n") == 1
                and "the trace is full" in made.done.stderr
                and "(stopped)" not in said
                and "overwritten" in said
            )
            return (
                True
                if right and 19000 < number(said, "records") <= 20000
                else made.done.stderr + said
            )

        test(f"{cc} {mode} a full trace", full)

        def tiny():
            trace = run_with(made, mode, "much", ok=(5,), VELODROME_MOST=5000)
            said = log_of(room, trace, "--all-variables")[2]
            right = "the recording stops here" in made.done.stderr and "(stopped)" in said
            return True if right else made.done.stderr + said

        test(f"{cc} {mode} a trace too small for a ring", tiny)

    def file_limit():
        with open(f"{room}/limited", "w", encoding="utf-8") as f:
            f.write(f"#!/bin/sh\nulimit -f 512\nexec {made.path} much\n")
        os.chmod(f"{room}/limited", 0o755)
        path, made.path = made.path, f"{room}/limited"
        try:
            trace = made.run("exact", ok=(5,))
        finally:
            made.path = path
        said = log_of(room, trace, "--all-variables")[2]
        return (
            True
            if "the trace is full" in made.done.stderr and os.path.getsize(trace) <= 1 << 20
            else said + made.done.stderr
        )

    test(f"{cc} a limit on files", file_limit)

    def nowhere():
        made.run("exact", ok=(5,), out="/nowhere/at/all")
        return (
            True
            if re.fullmatch(r"velodrome: nothing is recorded: .*\n", made.done.stderr)
            else made.done.stderr
        )

    test(f"{cc} no place for the trace", nowhere)

    def full_disk():
        disk = f"{room}/disk"
        os.makedirs(disk, exist_ok=True)
        if subprocess.run(
            ["mount", "-t", "tmpfs", "-o", "size=6m", "tmpfs", disk], capture_output=True
        ).returncode:
            print("  left out: no right to mount a small disk")
            return True
        try:
            trace = run_with(made, "exact", "much", ok=(5,), out=f"{disk}/trace")
            said = log_of(room, trace, "--all-variables")[2]
        finally:
            subprocess.run(["umount", disk], check=False)
        return (
            True
            if "no room for the trace" in made.done.stderr and number(said, "records") > 100000
            else said + made.done.stderr
        )

    test(f"{cc} a full disk", full_disk)


def late_mistake(room, cc):
    """A run that is longer than its trace: what its end has is whole, with what was begun before."""
    made = program(room, cc, "late", "-I" + HERE + "/programs")
    for mode, short_threads in (*((mode, 3) for mode in MODES), ("exact", 70)):

        def body():
            trace = run_with(made, mode, short_threads, VELODROME_MOST=100000)
            log, names, said = log_of(room, trace, "--all-variables")
            begins_late = "overwritten" in said and number(said, "overwritten") > 1000000
            if number(said, "odd") or "(stopped)" in said or not begins_late:
                return said
            if made.done.stdout != "202\n" or "from here on" not in made.done.stderr:
                return made.done.stdout + made.done.stderr
            wanted = ["across", "held", *(["filler"] if short_threads < 64 else [])]
            missing = [name for name in wanted if f" {name}\n" not in names]
            if missing or log.count("begin") != log.count("end"):
                return f"{missing}, {log.count('begin')} begins, {log.count('end')} ends"
            listed, said = functions(room, trace, "--all-variables") if CHECKER else (["bump"], "")
            return True if "bump" in listed else said

        test(f"{cc} {mode} a mistake at the end of a long run, {short_threads} threads", body)


def reductions(room, cc):
    """The list is the same with nothing left out, neither in the trace nor in the log."""
    if not CHECKER:
        return
    made = program(room, cc, "reduce")
    for seed in range(8):

        def body():
            lists = []
            for values, options in ((0, []), (1, ["--all-variables"])):
                trace = made.run(
                    "serial", VELODROME_SEED=seed, VELODROME_PERIOD=7, VELODROME_VALUES=values
                )
                lists.append(functions(room, trace, *options)[0])
            return True if lists[0] == lists[1] and lists[0] else lists

        test(f"{cc} reductions of seed {seed}", body)


def main(words):
    global only
    if "-k" in words:
        only = words[words.index("-k") + 1]
        words = words[: words.index("-k")]
    with tempfile.TemporaryDirectory() as room:
        for cc in words or ["gcc", "clang"]:
            for part in (
                hooks,
                trylocks,
                seeds,
                noises,
                sites,
                races,
                many_threads,
                check_then_act,
                deadlocks,
                endings,
                limits,
                late_mistake,
                reductions,
            ):
                part(room, cc)
    print(f"{counts[True]} passed, {counts[False]} failed")
    return counts[False] > 0 or not counts[True]


if __name__ == "__main__":
    sys.exit(main(sys.argv[1:]))
