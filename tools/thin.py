#!/usr/bin/env python3
"""A thinned log is judged as the log is: by `check`, position by position, and by `audit`, round by round.

    tools/thin.py PROGRAM [LOG ..]            every small log, random logs, and each LOG (.log or .log.xz)
    tools/thin.py PROGRAM --times LOG ..      only figures: events and variables before and after, and seconds

With THIN=OTHER in the environment `OTHER LOG OUT MAP` thins a log in place of `PROGRAM thin LOG --log OUT --map MAP`.

A log is thinned into a folder of its own. `check` has the same verdict and blame of both, and the position of an alarm is the one
that the map says; `audit --no-witness` prints the same.
"""
import lzma
import os
import random
import subprocess
import sys
import tempfile
import time

THIN = os.environ.get("THIN")


def run(*words):
    done = subprocess.run(words, capture_output=True, text=True)
    return done.returncode, done.stdout, done.stderr


def thin(program, log, out, places):
    if THIN:
        return run(THIN, log, out, places)
    return run(program, "thin", log, "--log", out, "--map", places)


def report_of(text):
    """The verdict, the position of the alarm, and the blocks to blame, each by its position and its label."""
    lines = [line.split() for line in text.splitlines()]
    verdict = next(words for words in lines if words[0] == "verdict")
    blame = [
        (int(words[1]), words[2:]) for words in lines if words[0] == "blame" and words[1] != "none"
    ]
    return verdict[1], [int(word) for word in verdict[2:]], blame


def compare(program, log, folder, name):
    out, places = os.path.join(folder, "out.log"), os.path.join(folder, "out.map")
    status, said, fault = thin(program, log, out, places)
    if status != 0:
        sys.exit(f"{name}: thin ends with {status}: {fault}")
    before, after = ([line for line in open(path).read().splitlines()] for path in (log, out))
    position = [int(line) for line in open(places)]
    if before[0].replace("vlog 1", "vlog 2") != after[0]:
        sys.exit(f"{name}: another header")
    if [before[1 + p] for p in position] != after[1:]:
        sys.exit(f"{name}: the map is not that of the events")
    limits = ("--events", "16777216", "--nodes", "4096")
    (one, first, _), (two, second, _) = (
        run(program, "check", path, *limits) for path in (log, out)
    )
    (verdict, at, blame), (verdict_left, at_left, blame_left) = report_of(first), report_of(second)
    left = (
        verdict_left,
        [position[p] for p in at_left],
        [(position[p], label) for p, label in blame_left],
    )
    if (one, (verdict, at, blame)) != (two, left):
        sys.exit(f"{name}: {verdict} {at} {blame} becomes {left}")
    audits = [run(program, "audit", path, "--no-witness") for path in (log, out)]
    if audits[0] != audits[1]:
        sys.exit(f"{name}: another audit")
    return said.split("\n")


def actions(state):
    """What may come next: two threads, two variables, a lock and a label."""
    for t in (0, 1):
        if t == 1 and not state["forked"]:
            continue
        for x in (0, 1):
            yield t, f"rd {x} {state['value'][x]}"
            yield t, f"wr {x} {1 - state['value'][x]}"
            yield t, f"wr {x} {state['value'][x]}"
        if state["holder"] is None:
            yield t, "acq 0"
        if state["holder"] == t:
            yield t, "rel 0"
        if state["depth"][t] < 2:
            yield t, f"begin {t}"
        if state["depth"][t] > 0:
            yield t, "end"
    if not state["forked"]:
        yield 0, "fork 1"


def after(state, t, action):
    words = action.split()
    state = {
        "forked": state["forked"],
        "value": list(state["value"]),
        "holder": state["holder"],
        "depth": list(state["depth"]),
    }
    if words[0] == "wr":
        state["value"][int(words[1])] = int(words[2])
    elif words[0] == "acq":
        state["holder"] = t
    elif words[0] == "rel":
        state["holder"] = None
    elif words[0] == "begin":
        state["depth"][t] += 1
    elif words[0] == "end":
        state["depth"][t] -= 1
    elif words[0] == "fork":
        state["forked"] = True
    return state


START = {"forked": False, "value": [0, 0], "holder": None, "depth": [0, 0]}


def small(most):
    def grow(state, events):
        yield events
        if len(events) < most:
            for t, action in actions(state):
                yield from grow(after(state, t, action), [*events, f"{t} {action}"])

    yield from grow(after(START, 0, "fork 1"), ["0 fork 1"])


def drawn(seed, count):
    draw = random.Random(seed)
    for _ in range(count):
        state, events = after(START, 0, "fork 1"), ["0 fork 1"]
        for _ in range(draw.randrange(4, 25)):
            t, action = draw.choice(list(actions(state)))
            state = after(state, t, action)
            events.append(f"{t} {action}")
        yield events


def text_of(log):
    return lzma.open(log, "rt").read() if log.endswith(".xz") else open(log).read()


def times(program, logs, folder):
    for log in logs:
        path = os.path.join(folder, "in.log")
        open(path, "w").write(text_of(log))
        best = {}
        for _ in range(3):
            for name, call in (
                (
                    "check",
                    lambda: run(program, "check", path, "--events", "16777216", "--nodes", "4096"),
                ),
                (
                    "thin",
                    lambda: thin(
                        program,
                        path,
                        os.path.join(folder, "out.log"),
                        os.path.join(folder, "out.map"),
                    ),
                ),
            ):
                start = time.perf_counter()
                said = call()
                best[name] = min(best.get(name, 1e9), time.perf_counter() - start)
        print(
            os.path.basename(log),
            " ".join(said[1].split()),
            f"check {best['check']:.3f} s, thin {best['thin']:.3f} s",
            flush=True,
        )


def main():
    program, logs = sys.argv[1], sys.argv[2:]
    with tempfile.TemporaryDirectory() as folder:
        if logs[:1] == ["--times"]:
            times(program, logs[1:], folder)
            return
        path = os.path.join(folder, "in.log")
        count = 0
        for events in [*small(3), *drawn(1, 2000)]:
            open(path, "w").write("\n".join(["vlog 2 2 2 1", *events]) + "\n")
            compare(program, path, folder, " / ".join(events))
            count += 1
        print(f"{count} small logs: judged the same")
        for log in logs:
            open(path, "w").write(text_of(log))
            print(os.path.basename(log), *compare(program, path, folder, log), flush=True)


main()
