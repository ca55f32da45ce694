"""What a log says beside its events, and velodrome-record: python3 tests/recording.py [gcc] [clang] [-k WORD].

With VELODROME the path of a checker, it judges the small logs too. The last line is `N passed, N failed`."""

import glob
import json
import os
import re
import shutil
import signal
import subprocess
import sys
import tempfile

import test as base
from test import BIN, CHECKER, Program, log_of, program, run_with, sh, test

HERE = os.path.dirname(os.path.realpath(__file__))
REPORT = """#!/bin/sh
# stands for velodrome-report: says what it was given, and has found something in a run with seed 3
echo "$@" >>"$REPORT_SAYS"
grep -q '"seed": 3,' "$1"/run.json 2>/dev/null && exit 3
exit "${REPORT_STATUS:-0}"
"""


def line_of(name, text):
    """FILE:LINE of the first line of a program that has the text."""
    with open(f"{HERE}/programs/{name}", encoding="utf-8") as f:
        for number, line in enumerate(f, 1):
            if text in line:
                return number
    raise RuntimeError(f"no `{text}` in {name}")


def notes_of(room, trace, ok=(0,)):
    done = sh(f"{BIN}/velodrome-log", trace, f"{room}/log", ok=ok)
    with open(f"{room}/log.notes", encoding="ascii") as f:
        return json.load(f), done


def names_in(room):
    with open(f"{room}/log.names", encoding="utf-8") as f:
        return f.read()


def names(room, cc):
    made = program(room, cc, "names")

    def body():
        log_of(room, made.run("exact"), "--all-variables")
        said = names_in(room)
        source = f"{os.path.basename(room)}/names-{cc}.cpp"
        wanted = [
            "main::cache.mutex_",
            "main::cache.stats.m",
            "main::cache.stats.hits",
            "main::cache.values[2]",
            *(
                f"Session.{field} at {source}:{line_of('names.cpp', text)}"
                for field in ("m", "number")
                for text in ("new Session", "make_shared", "make_unique")
            ),
        ]
        missing = [name for name in wanted if f" {name}\n" not in said]
        if not re.search(r"^lock \d+ libstdc\+\+\.so[.0-9]*\+0x[0-9a-f]+$", said, re.M):
            missing.append("the lock of the library")
        return True if not missing else f"{missing} in\n{said}"

    test(f"{cc} names on stacks and the heap", body)


def containers(room, cc):
    """Links that the library changes, in code without hooks, are written by who calls it."""
    made = program(room, cc, "containers")

    def body():
        log = log_of(room, made.run("exact"), "--all-variables")[0]
        said = names_in(room)
        label = dict(re.findall(r"^label (\d+) (\w+)\(\)$", said, re.M))
        variable = dict(re.findall(r"^variable (\d+) (\S+)", said.replace("[abi:cxx11]", ""), re.M))
        stacks, found = {}, set()
        for thread, word, *rest in (line.split() for line in log.splitlines()[1:]):
            stack = stacks.setdefault(thread, [])
            if word == "begin":
                stack.append(label.get(rest[0], ""))
            elif word == "end":
                stack.pop()
            elif word in ("rd", "wr"):
                found.add((stack[-1] if stack else "", word, variable.get(rest[0])))
        # a tree's root stands at +16, a list's first node in front
        wanted = {("look", "rd", link) for link in ("ids+16", "names+16", "jobs")}
        wanted |= {("put", "wr", "ids+16"), ("move", "wr", "jobs")}
        wanted |= {("drop", "wr", "names+16"), ("drop", "wr", "jobs")}
        return True if wanted <= found else f"{sorted(wanted - found)} in {said}{log}"

    test(f"{cc} links of containers", body)


def old_values(room, cc):
    made = program(room, cc, "holds")

    def found(how, mode):
        trace = run_with(made, mode, how, VELODROME_NOISE=5, VELODROME_PERIOD=7)
        return notes_of(room, trace)[0]["stale"]

    for mode in ("exact", "serial", "free"):

        def told():
            stale = found("count", mode)
            if len(stale) != 1:
                return f"{stale}"
            read, write = line_of("holds.c", "old = counter"), line_of("holds.c", "old + 1")
            one = stale[0]
            right = (
                one["variable"] == "counter"
                and one["function"] == "carry"
                and one["lock"] == "m"
                and one["read"].endswith(f":{read} carry")
                and one["write"].endswith(f":{write} carry")
                and one["between"].endswith(f":{write} carry")
            )
            return True if right else one

        def alarmed():
            found("count", mode)
            log = f"{room}/log.stale.1"
            done = sh(
                CHECKER, "audit", log, "--names", f"{log}.names", "--sites", f"{log}.sites", ok=(3,)
            )
            return (
                True
                if "not atomic 0 carry" in done.stdout and "counter" in done.stdout
                else done.stdout
            )

        test(f"{cc} {mode} a value that is written from an old one", told)
        if CHECKER:
            test(f"{cc} {mode} its small log gives the alarm", alarmed)
        test(f"{cc} {mode} a right program writes no old value", lambda: found("right", mode) == [])


def starts(room, cc):
    """Two threads that do one thing each, and end: noise brings them together."""
    source = (
        "#include <pthread.h>\nint x; void *add(void *a) { x++; return a; }\n"
        "int main(void) { pthread_t s, t; pthread_create(&s, 0, add, 0);"
        " pthread_create(&t, 0, add, 0); pthread_join(s, 0); return pthread_join(t, 0); }\n"
    )
    made = Program(room, cc, "starts", source)

    def body():
        for seed in range(40):
            trace = made.run("exact", VELODROME_NOISE=20, VELODROME_SEED=seed)
            if notes_of(room, trace)[0]["stale"]:
                return True
        return "nothing in 40 runs"

    test(f"{cc} noise at the start of threads", body)


def routines(room, cc):
    made = program(room, cc, "holds")

    def blocks(how):
        notes = notes_of(room, run_with(made, "exact", how))[0]
        loops = [one["function"] for one in notes["loops"]]
        labels = [x.split(" ", 2)[2] for x in names_in(room).splitlines() if x.startswith("label")]
        return loops, labels

    def body():
        loops, labels = blocks("count")
        if loops != ["count"] or "count" in labels:
            return f"{loops} {labels}"
        loops, labels = blocks("once")
        return True if loops == [] and "once" in labels else f"{loops} {labels}"

    test(f"{cc} a routine is a block where it does not loop", body)


def hangs(room, cc):
    made = program(room, cc, "holds")

    def circle():
        trace = run_with(made, "exact", "hang", int(signal.SIGINT), ok=(-signal.SIGINT,))
        notes, done = notes_of(room, trace)
        if notes["circles"] != [[1, 2]]:
            return f"{notes['circles']}"
        lines = [line_of("holds.c", "lock(&from->m)"), line_of("holds.c", "lock(&to->m)")]
        for thread, has, wants in ((1, "first.m", "second.m"), (2, "second.m", "first.m")):
            one = [wait for wait in notes["waits"] if wait["thread"] == thread][0]
            right = (
                (one["for"], one["name"], one["held_by"]) == ("mutex", wants, 3 - thread)
                and one["site"].endswith(f":{lines[1]} transfer")
                and [held["name"] for held in one["holds"]] == [has]
                and one["holds"][0]["site"].endswith(f":{lines[0]} transfer")
            )
            if not right:
                return f"{one}"
        return True if "\ndeadlock\n" in done.stdout else done.stdout

    def condition():
        # both sleep, or one sleeps and the other waits at the barrier's lock: no circle of locks
        trace = run_with(made, "exact", "waits", int(signal.SIGINT), ok=(-signal.SIGINT,))
        notes, _ = notes_of(room, trace)
        kinds = {wait["for"] for wait in notes["waits"]}
        return True if not notes["circles"] and kinds & {"condition", "barrier"} else f"{notes}"

    def ended():
        notes, _ = notes_of(room, run_with(made, "exact", "right"))
        return True if not notes["waits"] and not notes["circles"] else f"{notes}"

    test(f"{cc} a deadlock that happened is told", circle)
    test(f"{cc} a wait that had not ended is told", condition)
    test(f"{cc} a run that ended waits for nothing", ended)


def builds(room, cc):
    """A log has no names of another program than the one that ran."""
    made = program(room, cc, "holds")
    trace = made.run("exact")
    kept = f"{room}/kept"
    shutil.copy2(made.path, kept)

    def state():
        notes, done = notes_of(room, trace, ok=(0, 4))
        mine = [m for m in notes["modules"] if m["path"] == made.path]
        said = "label" in names_in(room)
        return done.returncode, mine[0]["state"], said, bool(notes["cannot_name"])

    def changed(how, change, want, named):
        def body():
            change()
            try:
                got = state()
            finally:
                shutil.copy2(kept, made.path)
            return True if got == (4, want, named, True) else f"{got}"

        test(f"{cc} a program that was {how}", body)

    def rebuild():
        with open(f"{made.path}.c", "a", encoding="utf-8") as f:
            f.write("int more(int a) { return a * 3; }\n")
        sh(f"{BIN}/velodrome-cc", f"{made.path}.c", "-o", made.path, env={"VELODROME_CC": cc})

    test(f"{cc} the program that ran", lambda: state() == (0, "same", True, False) or f"{state()}")
    changed("rebuilt", rebuild, "changed", False)
    changed("stripped", lambda: sh("strip", made.path), "stripped", False)
    changed("moved", lambda: os.rename(made.path, f"{made.path}.away"), "gone", False)

    def no_maps():
        os.rename(f"{trace}.maps", f"{trace}.away")
        try:
            notes, done = notes_of(room, trace, ok=(4,))
        finally:
            os.rename(f"{trace}.away", f"{trace}.maps")
        return True if ".maps" in notes["cannot_name"] and ".maps" in done.stderr else done.stderr

    test(f"{cc} a trace without its maps", no_maps)

    def cut():
        shutil.copy(trace, f"{room}/cut")
        shutil.copy(f"{trace}.maps", f"{room}/cut.maps")
        os.truncate(f"{room}/cut", 5000)
        return True if notes_of(room, f"{room}/cut")[0]["stopped"] == "cut off" else "not told"

    test(f"{cc} a trace that was cut off", cut)

    def half_linked():
        with open(f"{room}/plain.c", "w", encoding="utf-8") as f:
            f.write("int plain_data = 1; int plain(int a) { return a + plain_data; }\n")
        with open(f"{room}/hooked.c", "w", encoding="utf-8") as f:
            f.write("int plain(int); int all = 2; int main(void) { return plain(all) - 3; }\n")
        sh(cc, "-c", f"{room}/plain.c", "-o", f"{room}/plain.o")
        half = Program(
            room,
            cc,
            "half",
            open(f"{room}/hooked.c", encoding="utf-8").read(),
            flags=[f"{room}/plain.o"],
        )
        mine = [
            m for m in notes_of(room, half.run("exact"))[0]["modules"] if m["path"] == half.path
        ]
        return (
            True
            if mine[0]["state"] == "unhooked" and mine[0]["objects"] == ["plain.c"]
            else f"{mine}"
        )

    test(f"{cc} an object without hooks", half_linked)


# ---- velodrome-record
class Recorder:
    """velodrome-record with a report that says what it was given, in a folder of its own."""

    def __init__(self, room):
        self.bin, self.room = f"{room}/bin", f"{room}/work"
        shutil.rmtree(self.room, ignore_errors=True)
        os.makedirs(self.room)
        os.makedirs(self.bin, exist_ok=True)
        for tool in ("velodrome-record", "velodrome-log"):
            shutil.copy2(f"{BIN}/{tool}", self.bin)
        with open(f"{self.bin}/velodrome-report", "w", encoding="utf-8") as f:
            f.write(REPORT)
        os.chmod(f"{self.bin}/velodrome-report", 0o755)
        self.says = f"{self.room}/says"

    def __call__(self, *words, **env):
        return subprocess.run(
            [f"{self.bin}/velodrome-record", *map(str, words)],
            cwd=self.room,
            capture_output=True,
            text=True,
            timeout=100,
            env={**os.environ, "REPORT_SAYS": self.says, "REPORT_STATUS": "0", **env},
        )

    def runs(self, recording="0001"):
        found = []
        for path in sorted(glob.glob(f"{self.room}/velodrome.runs/{recording}/*/run.json")):
            with open(path, encoding="utf-8") as f:
                found.append((os.path.dirname(path), json.load(f)))
        return found

    def reported(self):
        try:
            with open(self.says, encoding="utf-8") as f:
                return f.read().splitlines()
        except FileNotFoundError:
            return []


def number_of_records(trace):
    with open(f"{trace}.log.notes", encoding="utf-8") as f:
        return json.load(f)["records"]


def recordings(room, cc):
    holds = program(room, cc, "holds").path

    def runs():
        record = Recorder(room)
        done = record(
            "-n",
            2,
            "--seed",
            5,
            "--mode",
            "free",
            "--noise",
            "9",
            "--",
            holds,
            "fails",
            REPORT_STATUS="3",
        )
        kept = record.runs()
        told = [(r["seed"], r["mode"], r["noise"], r["exit"], r["signal"]) for _, r in kept]
        if done.returncode != 3 or told != [(5, "free", 9, 7, None), (6, "free", 9, 7, None)]:
            return f"{done} {told}"
        for folder, run in kept:
            trace = f"{folder}/{run['traces'][0]}"
            if not all(
                os.path.exists(trace + end)
                for end in ("", ".maps", ".log", ".log.names", ".log.notes")
            ):
                return f"{os.listdir(folder)}"
            if (
                run["command"] != [holds, "fails"]
                or run["folder"] != record.room
                or len(run["modules"][0]["build"]) != 40
            ):
                return f"{run}"
        if record.reported() != [f"{record.room}/velodrome.runs/0001"] or done.stdout:
            return f"{record.reported()} {done.stdout}"
        before = sorted(os.listdir(kept[0][0]))
        record(holds, "right")
        return (
            True
            if len(record.runs("0002")) == 1 and sorted(os.listdir(kept[0][0])) == before
            else "overwritten"
        )

    def until():
        record = Recorder(room)
        record("-n", 6, "--seed", 2, "--until-found", holds, "right")
        return True if [r["seed"] for _, r in record.runs()] == [2, 3] else f"{record.runs()}"

    def quiet():
        cache = program(room, cc, "cache").path

        def sizes(*options):
            record = Recorder(room)
            record("-n", 3, "--noise", 0, *options, cache)
            kept = [
                (number_of_records(f"{folder}/{run['traces'][0]}"), run["environment"])
                for folder, run in record.runs()
            ]
            return [n for n, _ in kept], ["VELODROME_SITES" in env for _, env in kept]

        less, listed = sizes()
        whole, unlisted = sizes("--whole")
        right = listed == [False, True, True] and max(less[1:]) < less[0] * 4 // 5
        right = right and not any(unlisted) and min(whole) > less[0] * 4 // 5
        return True if right else f"{less} {listed} {whole} {unlisted}"

    def own_streams():
        record = Recorder(room)
        with open(f"{room}/echoes.c", "w", encoding="utf-8") as f:
            f.write(
                "#include <stdio.h>\nint main(void) { char a[9]; return puts(fgets(a, 9, stdin)) < 0; }\n"
            )
        sh(
            f"{BIN}/velodrome-cc",
            f"{room}/echoes.c",
            "-o",
            f"{room}/echoes",
            env={"VELODROME_CC": cc},
        )
        done = subprocess.run(
            [f"{record.bin}/velodrome-record", f"{room}/echoes"],
            cwd=record.room,
            input="words",
            capture_output=True,
            text=True,
            timeout=60,
            env={**os.environ, "REPORT_SAYS": record.says},
        )
        return True if done.stdout == "words\n" and done.returncode == 0 else f"{done}"

    def ended_by(number, to_group):
        """A signal at the whole group, as a terminal sends it, or at velodrome-record alone."""

        def body():
            record = Recorder(room)
            with subprocess.Popen(
                [f"{record.bin}/velodrome-record", "-n", "3", holds, "hang"],
                cwd=record.room,
                stderr=subprocess.PIPE,
                text=True,
                start_new_session=True,
                env={**os.environ, "REPORT_SAYS": record.says, "REPORT_STATUS": "3"},
            ) as process:
                waits_for_deadlock(record)
                (os.killpg if to_group else os.kill)(process.pid, number)
                process.communicate(timeout=60)
            kept = [(r["exit"], r["signal"], r["interrupted"]) for _, r in record.runs()]
            if kept != [(None, number, True)] or process.returncode != 3:
                return f"{kept} {process.returncode}"
            folder, run = record.runs()[0]
            with open(f"{folder}/{run['traces'][0]}.log.notes", encoding="ascii") as f:
                return True if json.load(f)["circles"] == [[1, 2]] else "no circle"

        return body

    test(f"{cc} velodrome-record keeps runs", runs)
    test(f"{cc} velodrome-record --until-found", until)
    test(f"{cc} velodrome-record leaves out what was quiet", quiet)
    test(f"{cc} velodrome-record leaves the program its streams", own_streams)
    test(f"{cc} velodrome-record interrupted", ended_by(signal.SIGINT, True))
    test(f"{cc} velodrome-record ended", ended_by(signal.SIGTERM, False))


def waits_for_deadlock(record):
    """Until the program runs, and a moment more."""
    import time

    for _ in range(200):
        if glob.glob(f"{record.room}/velodrome.runs/0001/01/trace.*.maps"):
            break
        time.sleep(0.1)
    time.sleep(2)


def wrong_uses(room, cc):
    record = Recorder(room)
    with open(f"{record.room}/script.sh", "w", encoding="utf-8") as f:
        f.write("#!/bin/sh\nexit 0\n")
    with open(f"{record.room}/text", "w", encoding="utf-8") as f:
        f.write("words\n")
    os.chmod(f"{record.room}/script.sh", 0o755)
    with open(f"{record.room}/plain.c", "w", encoding="utf-8") as f:
        f.write("int main(void) { return 0; }\n")
    sh(cc, f"{record.room}/plain.c", "-o", f"{record.room}/plain")
    for words, status, said in (
        ((), 2, "which program?"),
        (("-n", "0", "./plain"), 2, "-n takes a number from 1"),
        (("-n",), 2, "-n takes a value"),
        (("-n", "x", "./plain"), 2, "not `x`"),
        (("--mode", "fast", "./plain"), 2, "exact, free, serial"),
        (("--nosie", "5", "./plain"), 2, "no option `--nosie`"),
        (("./nothere",), 5, "no such program"),
        (("plain",), 5, "is it ./plain?"),
        (("./text",), 5, "no right to be executed"),
        ((".",), 5, "is a folder"),
        (("./script.sh",), 4, "is a script"),
        (("./script.sh", "-javaagent:a/velodrome.jar"), 4, "recorded: what it said above"),
        (("./script.sh", "-javaagent:a/other.jar"), 4, "is a script"),
        (("./plain",), 4, "CXX=velodrome-c++"),
    ):

        def body():
            done = record(*words)
            right = done.returncode == status and said in done.stderr
            clean = "Traceback" not in done.stderr and not done.stdout
            return True if right and clean else f"{done.returncode} {done.stderr}{done.stdout}"

        test(f"{cc} velodrome-record {' '.join(words)}", body)


def main(words):
    if "-k" in words:
        base.only = words[words.index("-k") + 1]
        words = words[: words.index("-k")]
    with tempfile.TemporaryDirectory() as room:
        for cc in words or ["gcc", "clang"]:
            for part in (
                names,
                containers,
                old_values,
                starts,
                routines,
                hangs,
                builds,
                recordings,
                wrong_uses,
            ):
                part(room, cc)
    print(f"{base.counts[True]} passed, {base.counts[False]} failed")
    return base.counts[False] > 0 or not base.counts[True]


if __name__ == "__main__":
    sys.exit(main(sys.argv[1:]))
