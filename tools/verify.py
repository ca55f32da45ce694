#!/usr/bin/env python3
"""Reports of random logs, as `check --certificate` prints them and spoiled, against a slow reader and checker.

    tools/verify.py PROGRAM [LOGS]      so many random logs, 300 without a number

Each report of `check` has to be verified. Of each spoiled one `verify` has to say what the definitions say: the slow checker compares
all pairs of events, and searches the graph of all transactions.
"""
import os
import random
import subprocess
import sys
import tempfile

MOST = 16777216
FIRST, THREADS, TRANSACTION, BLAMES, ORDER, END = range(6)


# ---- the definitions


def conflict(a, b):
    (t, k, x), (u, l, y) = a, b
    if t == u:
        return True
    if {k, l} <= {"rd", "wr"}:
        return x[0] == y[0] and "wr" in (k, l)
    if {k, l} <= {"acq", "rel", "acqs", "rels"}:
        return x == y and not {k, l} <= {"acqs", "rels"}
    return k in ("fork", "join") and x == [u] or l in ("fork", "join") and y == [t]


def owners_of(events):
    """The first position of each event's transaction."""
    depth, begun, owners = {}, {}, []
    for i, (t, kind, _) in enumerate(events):
        if kind == "begin":
            if depth.get(t, 0) == 0:
                begun[t] = i
            depth[t] = depth.get(t, 0) + 1
        owners.append(begun[t] if depth.get(t, 0) else i)
        if kind == "end":
            depth[t] -= 1
    return owners


def edges_of(events, owners):
    pairs = ((i, j) for j in range(len(events)) for i in range(j) if conflict(events[i], events[j]))
    return {(owners[i], owners[j]) for i, j in pairs if owners[i] != owners[j]}


def is_order(events, order):
    """Whether the list is a serial reordering."""
    if sorted(order) != list(range(len(events))):
        return False
    place = {i: n for n, i in enumerate(order)}
    if any(
        place[i] > place[j]
        for j in range(len(events))
        for i in range(j)
        if conflict(events[i], events[j])
    ):
        return False
    owners = owners_of(events)
    changes = sum(owners[order[k]] != owners[order[k - 1]] for k in range(1, len(order)))
    return not order or changes + 1 == len(set(owners))


def is_shortest_cycle(events, position, cycle):
    """Whether it is a shortest cycle of the events up to the position that begins with the transaction there."""
    if position >= len(events):
        return False
    events = events[: position + 1]
    owners = owners_of(events)
    edges, start = edges_of(events, owners), owners[position]
    if (
        len(cycle) < 2
        or cycle[0] != start
        or any(pair not in edges for pair in zip(cycle, cycle[1:] + cycle[:1]))
    ):
        return False
    length, reached = 1, {b for a, b in edges if a == start}
    while start not in reached:
        length, reached = length + 1, {b for a, b in edges if a in reached}
    return len(cycle) == length


# ---- the report


def number(word):
    """The number that a word is, if it is one."""
    digits = word.isascii() and word.isdigit() and (word == "0" or word[0] != "0")
    return int(word) if digits and int(word) <= MOST else None


def after(word, line):
    return number(line[len(word) :]) if line.startswith(word) else None


def numbers_after(word, line):
    if not line.startswith(word):
        return None
    numbers = [number(part) for part in line[len(word) :].split(" ")]
    return None if None in numbers else numbers


def step(part, claim, line):
    """What comes after a line; none where it is not what comes at its place."""
    if part == FIRST:
        claim["events"] = after("events ", line)
        return None if claim["events"] is None else THREADS
    if part == THREADS:
        claim["position"] = after("verdict alarm ", line)
        if line.startswith("thread "):
            return THREADS
        return (
            TRANSACTION
            if claim["position"] is not None
            else ORDER
            if line == "verdict clean"
            else None
        )
    if part == TRANSACTION:
        claim["transaction"] = after("transaction ", line)
        return None if claim["transaction"] is None else BLAMES
    if part == END:
        return None
    if part == BLAMES and line.startswith("blame "):
        return BLAMES
    numbers = numbers_after("cycle " if part == BLAMES else "serial ", line)
    claim["list"] += numbers or []
    return None if numbers is None else END if part == BLAMES else ORDER


def expected(events, report):
    """The status of `verify`, and what it prints on both outputs."""
    claim, part, lines = {"list": []}, FIRST, report.split("\n")
    lines = lines if lines[-1] else lines[:-1]
    for n, line in enumerate(lines, 1):
        part = step(part, claim, line)
        if part is None:
            return 2, f"report fault 1 line {n}\n"
    if part not in (BLAMES, ORDER, END) or not report.endswith("\n"):
        return 2, f"report fault 2 line {len(lines)}\n"
    if claim["events"] != len(events):
        return 3, "not verified: another number of events\n"
    listed, position = claim["list"], claim["position"]
    if position is None:
        right, said, wrong = is_order(events, listed), "verified clean\n", "wrong order"
    else:
        right, said, wrong = (
            is_shortest_cycle(events, position, listed),
            f"verified alarm {position}\n",
            "wrong cycle",
        )
    if not right:
        return 3, f"not verified: {wrong if listed else 'no certificate'}\n"
    if position is not None and claim["transaction"] != listed[0]:
        return 3, "not verified: wrong transaction\n"
    return 0, said


# ---- random logs, and spoiled reports


def actions(state):
    for t in state["live"]:
        for x in (0, 1):
            yield t, f"rd {x} {state['value'][x]}"
            yield t, f"wr {x} {1 - state['value'][x]}"
        if not state["holders"]:
            yield t, "acq 0"
        if state["holders"] == [t]:
            yield t, "rel 0"
        if state["depth"][t] < 2:
            yield t, f"begin {t}"
        if state["depth"][t] > 0:
            yield t, "end"
        for u in range(len(state["live"]), 3):
            yield t, f"fork {u}"
            break


def do(state, t, action):
    words = action.split()
    if words[0] == "wr":
        state["value"][int(words[1])] = int(words[2])
    elif words[0] in ("acq", "rel"):
        state["holders"] = [t] if words[0] == "acq" else []
    elif words[0] in ("begin", "end"):
        state["depth"][t] += 1 if words[0] == "begin" else -1
    elif words[0] == "fork":
        state["live"].append(int(words[1]))


def drawn(draw):
    state, events = {"live": [0], "value": [0, 0], "holders": [], "depth": [0, 0, 0]}, []
    for _ in range(draw.randrange(1, 25)):
        t, action = draw.choice(list(actions(state)))
        do(state, t, action)
        events.append(f"{t} {action}")
    return events


def spoiled(draw, report, other):
    """A report with one or two things changed."""
    for _ in range(draw.randrange(1, 3)):
        lines = report.split("\n")
        at = draw.randrange(len(lines))
        words = lines[at].split(" ")
        which = draw.randrange(len(words))
        kind = draw.randrange(9)
        if kind == 0:
            words[which] = str(draw.choice([0, 1, 2, 3, 4, 5, MOST, MOST + 1, "00", "x", ""]))
        elif kind == 1:
            words.insert(which, str(draw.randrange(8)))
        elif kind == 2:
            del words[which]
        elif kind == 3:
            draw.shuffle(words)
        lines[at] = " ".join(words)
        if kind == 4:
            del lines[at]
        elif kind == 5:
            lines.insert(at, draw.choice(lines + other.split("\n")))
        elif kind == 6:
            with_it = draw.randrange(len(lines))
            lines[at], lines[with_it] = lines[with_it], lines[at]
        report = "\n".join(lines)
        if kind == 7:
            report = report[: draw.randrange(len(report) + 1)]
        elif kind == 8 and at:
            report = "\n".join(lines[:at] + other.split("\n")[at:])
    return report


def words_of(event):
    thread, kind, *rest = event.split()
    return int(thread), kind, [int(word) for word in rest]


def run(*words, text=None):
    done = subprocess.run(words, input=text, capture_output=True, text=True, check=False)
    return done.returncode, done.stdout + done.stderr


def main():
    program, count = sys.argv[1], int(sys.argv[2]) if len(sys.argv) > 2 else 300
    draw, seen, other = random.Random(1), {}, "events 0\n"
    with tempfile.TemporaryDirectory() as folder:
        path = os.path.join(folder, "in.log")
        for _ in range(count):
            events = drawn(draw)
            open(path, "w").write("\n".join(["vlog 2 3 2 1", *events]) + "\n")
            parsed = [words_of(event) for event in events]
            status, report = run(program, "check", path, "--certificate")
            if status not in (0, 3) or expected(parsed, report)[0] != 0:
                sys.exit(f"{events}: its own report is refused: {report}")
            for text in [report] + [spoiled(draw, report, other) for _ in range(20)]:
                said, wanted = run(program, "verify", path, "-", text=text), expected(parsed, text)
                if said != wanted:
                    sys.exit(f"{events}\n{text}\nverify ends with {said}, not {wanted}")
                kind = " ".join(word for word in wanted[1].split() if not word.isdigit())
                seen[kind] = seen.get(kind, 0) + 1
            other = report
    print(*(f"{kind}: {n}" for kind, n in sorted(seen.items())), sep="\n")


main()
