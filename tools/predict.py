#!/usr/bin/env python3
"""What `velodrome predict` tells of one log is so of its program: compared with all runs of small programs.

    python3 tools/predict.py PROGRAM [COUNT [SEED]]

PROGRAM is the built `velodrome`. COUNT programs (1,000 at first) are made by chance from SEED (1 at first): two or three threads
beside the main one, variables, locks, blocks, and branches by what a thread reads. Each is run once, by chance; as many logs are
made by chance alone. `predict` is asked with and without `--values`, again and again, what it told left out, until it tells nothing.

Of what it tells of a program: each label has a block in some run that is not self-serializable, and a deadlock comes in some run.
Of each witness: the log foretells it, by a judge that stands here; `check` has the alarm that was told, at its line, and blames the
labels that were told. The last line is `N passed, N failed`; the status is 0 where none failed.
"""
import os
import random
import subprocess
import sys
import tempfile

MAX_STATES = 30_000
MAX_EVENTS = 70

# ---- programs: a thread is a list of steps, of which those in capitals are events

READ, WRITE, ACQUIRE, RELEASE, BEGIN, END, FORK, JOIN, EXIT = (
    "rd",
    "wr",
    "acq",
    "rel",
    "begin",
    "end",
    "fork",
    "join",
    "exit",
)


def statements(draw, room, shape, held, depth, in_block):
    """Some steps. A branch goes over its steps where the register does not pass its test. Locks nest in one order, or in any."""
    steps = []
    for _ in range(room):
        x, register, pick = (
            draw.randrange(shape["variables"]),
            draw.randrange(3),
            draw.randrange(10),
        )
        if pick < 2:
            steps.append((READ, x, register))
        elif pick == 2:
            steps += [("set", register, draw.randrange(3)), (WRITE, x, register)]
        elif pick == 3:
            steps += [("add", register, 1), (WRITE, x, register)]
        elif pick < 7 and depth < 3:
            free = [
                m
                for m in range(shape["locks"])
                if m not in held and (shape["any_order"] or all(m > other for other in held))
            ]
            if free:
                m = draw.choice(free)
                inside = statements(
                    draw, draw.randrange(1, 3), shape, held | {m}, depth + 1, in_block
                )
                steps += [(ACQUIRE, m), *inside, (RELEASE, m)]
        elif pick < 9 and depth < 3:
            inside = statements(draw, draw.randrange(1, 3), shape, held, depth + 1, in_block)
            steps += [
                (READ, x, register),
                ("unless", register, draw.randrange(2), draw.random() < 0.5, len(inside)),
                *inside,
            ]
        elif not in_block and depth == 0:
            inside = statements(draw, draw.randrange(1, 4), shape, held, depth, True)
            steps += [(BEGIN, draw.randrange(3)), *inside, (END,)]
        else:
            steps.append((READ, x, register))
    return steps


def program(draw):
    shape = {
        "variables": draw.randrange(1, 3),
        "locks": draw.randrange(1, 3),
        "any_order": draw.random() < 0.3,
    }
    threads = [
        statements(draw, draw.randrange(1, 4), shape, frozenset(), 0, False)
        for _ in range(draw.choice([2, 2, 3]))
    ]
    numbers = range(1, len(threads) + 1)
    main = [(FORK, u) for u in numbers] + [(JOIN, u) for u in numbers]
    return {"shape": shape, "threads": [steps + [(EXIT,)] for steps in [main, *threads]]}


def quiet(steps, place, registers):
    """Where the thread's next event is, after the steps that are none."""
    while place < len(steps):
        step = steps[place]
        if step[0] == "set":
            registers = registers[: step[1]] + (step[2],) + registers[step[1] + 1 :]
        elif step[0] == "add":
            registers = (
                registers[: step[1]] + (registers[step[1]] + step[2],) + registers[step[1] + 1 :]
            )
        elif step[0] == "unless":
            if (registers[step[1]] == step[2]) != step[3]:
                place += step[4]
        else:
            break
        place += 1
    return place, registers


class State:
    """A run so far: where each thread is, and the heap."""

    def __init__(self, program):
        self.program = program
        self.threads = [quiet(steps, 0, (0, 0, 0)) for steps in program["threads"]]
        self.values = (0,) * program["shape"]["variables"]
        self.holders = (None,) * program["shape"]["locks"]
        self.status = ("live",) + ("new",) * (len(self.threads) - 1)

    def key(self):
        return tuple(self.threads), self.values, self.holders, self.status

    def next(self, t):
        """The thread's next event, if it lives."""
        if self.status[t] != "live":
            return None
        place, registers = self.threads[t]
        step = self.program["threads"][t][place]
        if step[0] == READ:
            return READ, step[1], self.values[step[1]]
        if step[0] == WRITE:
            return WRITE, step[1], registers[step[2]]
        return step

    def can(self, event):
        if event[0] == ACQUIRE:
            return self.holders[event[1]] is None
        return event[0] != JOIN or self.status[event[1]] == "ended"

    def after(self, t, event):
        state = State.__new__(State)
        state.program, state.values, state.holders, state.status = (
            self.program,
            self.values,
            self.holders,
            self.status,
        )
        place, registers = self.threads[t]
        put = lambda items, at, item: items[:at] + (item,) + items[at + 1 :]
        if event[0] == READ:
            registers = put(registers, self.program["threads"][t][place][2], event[2])
        elif event[0] == WRITE:
            state.values = put(self.values, event[1], event[2])
        elif event[0] == ACQUIRE:
            state.holders = put(self.holders, event[1], t)
        elif event[0] == RELEASE:
            state.holders = put(self.holders, event[1], None)
        elif event[0] == FORK:
            state.status = put(self.status, event[1], "live")
        elif event[0] == JOIN:
            state.status = put(self.status, event[1], "joined")
        elif event[0] == EXIT:
            state.status = put(self.status, t, "ended")
        state.threads = list(self.threads)
        state.threads[t] = quiet(self.program["threads"][t], place + 1, registers)
        return state

    def able(self):
        nexts = ((t, self.next(t)) for t in range(len(self.threads)))
        return [(t, event) for t, event in nexts if event and self.can(event)]


def recorded(draw, program):
    """The events of a run, in which each turn is mostly that of the same thread."""
    state, events, last = State(program), [], 0
    while able := state.able():
        t, event = next(
            (it for it in able if it[0] == last and draw.random() < 0.9), None
        ) or draw.choice(able)
        state, last = state.after(t, event), t
        events.append((t, event))
    return events


# ---- what all runs show: blocks that are not self-serializable, threads that wait in a circle


def touched(t, event):
    """The groups that the event is of: those of a thread, a lock, the writes of a variable, or its reads."""
    groups = {("thread", t)}
    if event[0] in (ACQUIRE, RELEASE):
        groups.add(("lock", event[1]))
    elif event[0] in (READ, WRITE):
        groups.add(("variable" if event[0] == WRITE else "read", event[1]))
    elif event[0] in (FORK, JOIN):
        groups.add(("thread", event[1]))
    return groups


def meets(groups, t, event):
    """Whether an event of these groups conflicts with this one."""
    mine = {("variable", it[1]) if it[0] == "read" else it for it in touched(t, event)}
    return not groups.isdisjoint(mine) or event[0] == WRITE and ("read", event[1]) in groups


def follow(blocks, t, event):
    """The blocks that are open after the event, each with the groups that it touched and those of others' events behind it; and the
    labels of the blocks that the event parts: it is in the block, and behind an event of another thread that is behind the block.
    """
    rest, parted = [], set()
    for owner, label, own, others in blocks:
        if owner == t:
            if meets(others - {("thread", t)}, t, event):
                parted.add(label)
            own = own | touched(t, event)
        elif meets(own | others, t, event):
            others = others | touched(t, event)
        rest.append((owner, label, own, others))
    if event[0] == BEGIN:
        rest.append((t, event[1], frozenset(touched(t, event)), frozenset()))
    if event[0] == END:
        del rest[max(i for i, block in enumerate(rest) if block[0] == t)]
    return rest, parted


def in_circle(state):
    """Whether some threads wait for one another."""
    waits = {}
    for t in range(len(state.threads)):
        event = state.next(t)
        if event and event[0] == ACQUIRE and state.holders[event[1]] is not None:
            waits[t] = state.holders[event[1]]
        elif event and event[0] == JOIN and state.status[event[1]] == "live":
            waits[t] = event[1]
    for start in waits:
        t, steps = start, 0
        while t in waits and steps <= len(waits):
            t, steps = waits[t], steps + 1
            if t == start:
                return True
    return False


def shown(program):
    """The labels that are to blame in some run, and whether one comes to a circle; None if there are too many runs."""
    labels, circle = set(), False
    start = State(program)
    seen, front = {(start.key(), ())}, [(start, ())]
    while front:
        state, blocks = front.pop()
        circle = circle or in_circle(state)
        for t, event in state.able():
            after, parted = follow(blocks, t, event)
            labels |= parted
            after = tuple(
                (owner, label, frozenset(own), frozenset(others))
                for owner, label, own, others in after
            )
            behind = state.after(t, event)
            key = behind.key(), after
            if key not in seen:
                seen.add(key)
                front.append((behind, after))
        if len(seen) > MAX_STATES:
            return None
    return labels, circle


# ---- logs made by chance alone


def drawn(draw):
    """A log in which each thread does whatever it can, and writes one of two values."""
    shape = {"variables": 2, "locks": 2, "any_order": True}
    count = draw.choice([2, 3])
    values, holders, depth, events = (
        [0, 0],
        [None, None],
        [0] * count,
        [(0, (FORK, u)) for u in range(1, count)],
    )
    last = 0
    for _ in range(draw.randrange(6, 30)):
        t = last if draw.random() < 0.7 else draw.randrange(count)
        x, m = draw.randrange(2), draw.randrange(2)
        can = [(READ, x, values[x]), (WRITE, x, draw.randrange(2))]
        can += (
            [(ACQUIRE, m)] if holders[m] is None else [(RELEASE, m)] * 3 if holders[m] == t else []
        )
        can += [(BEGIN, draw.randrange(3))] * 2 if depth[t] < 2 else []
        can += [(END,)] if depth[t] else []
        event, last = draw.choice(can), t
        if event[0] == WRITE:
            values[x] = event[2]
        elif event[0] in (ACQUIRE, RELEASE):
            holders[m] = t if event[0] == ACQUIRE else None
        depth[t] += (event[0] == BEGIN) - (event[0] == END)
        events.append((t, event))
    return shape, events


# ---- a judge: whether a log foretells a trace


def renewed(events):
    """A write writes the number of its line, and a read has the latest value."""
    values, anew = {}, []
    for position, (t, event) in enumerate(events):
        if event[0] == WRITE:
            values[event[1]] = position + 2
        if event[0] in (READ, WRITE):
            event = event[0], event[1], values.get(event[1], 0)
        anew.append((t, event))
    return anew


def without(events, labels):
    """The events, but for the begins and ends of the blocks with these labels."""
    rest, stacks = [], {}
    for t, event in events:
        stack = stacks.setdefault(t, [])
        if event[0] == BEGIN:
            stack.append(event[1] in labels)
        out = stack.pop() if event[0] == END else event[0] == BEGIN and stack[-1]
        if not out:
            rest.append((t, event))
    return rest


class Wrong(Exception):
    """Why something that was told is wrong."""


class Judge:
    """How the threads of a trace stand that a log foretells so far."""

    def __init__(self, events):
        self.scripts, self.done, self.values, self.holders = {}, {}, {}, {}
        for t, event in events:
            self.scripts.setdefault(t, []).append(event)
        self.turned, self.unsure, self.loose, self.differ = set(), set(), False, 0

    def next(self, t):
        """The thread's next event in the log, if what it does is known."""
        script, place = self.scripts.get(t, []), self.done.get(t, 0)
        return script[place] if t not in self.unsure and place < len(script) else None

    def take(self, t, event):
        if event[0] == READ and self.values.get(event[1], 0) != event[2]:
            raise Wrong(f"{t} {event} reads what was not written")
        if event[0] in (ACQUIRE, RELEASE):
            if self.holders.get(event[1]) != (None if event[0] == ACQUIRE else t):
                raise Wrong(f"{t} {event} cannot happen")
            self.holders[event[1]] = t if event[0] == ACQUIRE else None
        if event[0] == WRITE:
            self.values[event[1]] = event[2]
        if t in self.unsure:
            if event[0] != RELEASE:
                raise Wrong(f"{t} {event}: its thread goes on")
            self.loose = self.loose or t in self.turned
            return
        theirs = self.next(t)
        if theirs != event and (theirs is None or event[0] != READ or theirs[:2] != event[:2]):
            raise Wrong(f"{t} {event} is not the next of its thread")
        self.done[t] = self.done.get(t, 0) + 1
        if theirs != event:
            self.differ += 1
            self.turned.add(t)
        if theirs != event or self.loose and event[0] == READ:
            self.unsure.add(t)

    def wait(self, t, event, other):
        """The thread waits to do the event for the other one."""
        if self.next(t) != event:
            raise Wrong(f"thread {t} does not wait at {event}")
        if other != (self.holders.get(event[1]) if event[0] == ACQUIRE else event[1]):
            raise Wrong(f"thread {t} does not wait for {other}")


# ---- the program under test


def text_of(shape, events):
    threads = 1 + max(
        [0] + [t for t, _ in events] + [event[1] for _, event in events if event[0] in (FORK, JOIN)]
    )
    lines = [f"vlog 2 {threads} {shape['variables']} {shape['locks']}"]
    return "\n".join(lines + [" ".join(map(str, (t, *event))) for t, event in events]) + "\n"


def ran(*words):
    done = subprocess.run(words, capture_output=True, text=True, timeout=60)
    return done.returncode, done.stdout, done.stderr


def event_of(text):
    words = text.split()
    return int(words[0]), (words[1], *map(int, words[2:]))


def told_by(text):
    """The labels of the log itself, those of rounds without a block to blame, and the lines of each prediction."""
    own, idle, predictions, before = [], [], [], ""
    for line in text.splitlines():
        if (
            line.startswith("deadlock? ")
            or line.startswith("not atomic? ")
            and not before.startswith("not atomic? ")
        ):
            predictions.append([line])
        elif predictions and not line.startswith("nothing "):
            predictions[-1].append(line)
        elif line.startswith("not atomic "):
            own.append(int(line.split()[2]))
        elif line == "  no block alone is to blame":
            idle.append(own.pop())
        before = line
    return own, idle, predictions


def labels_of(prediction):
    return [int(line.split()[2]) for line in prediction if line.startswith("not atomic? ")]


def see_witness(exe, log, prediction, out):
    """Sees that the log at the path is a witness of what was told."""
    trace = [event_of(line) for line in open(out, encoding="utf-8").read().splitlines()[1:]]
    judge = Judge(log)
    for t, event in trace:
        judge.take(t, event)
    reads = [line for line in prediction if line.startswith("  line ") and " in the log" in line]
    if judge.differ != len(reads) or f"  witness {len(trace)} events" not in prediction:
        raise Wrong("other reads or events are told")
    status, text, fault = ran(exe, "check", out)
    report = [line.split() for line in text.splitlines()]
    if labels_of(prediction):
        closing = next(
            int(line.split()[1]) - 2 for line in prediction if line.startswith("  Line ")
        )
        blamed = [int(words[2]) for words in report if words[0] == "blame" and words[1] != "none"]
        if (
            status != 3
            or ["verdict", "alarm", str(closing)] not in report
            or blamed != labels_of(prediction)
        ):
            raise Wrong(f"check says otherwise: {text}{fault}")
        return
    circle = [event_of(line.split("`")[1]) for line in prediction if " waits at `" in line]
    for place, (t, event) in enumerate(circle):
        judge.wait(t, event, circle[(place + 1) % len(circle)][0])
    if status not in (0, 3) or len(circle) != int(prediction[0].split()[1]):
        raise Wrong(f"check does not take the witness: {text}{fault}")


def tell_all(exe, shape, events, values, folder):
    """The labels that are told of a log, whether a deadlock is, and how many witnesses were seen."""
    log, out, known = (os.path.join(folder, name) for name in ("a.log", "b.log", "known"))
    open(log, "w", encoding="utf-8").write(text_of(shape, events))
    left, told, circle, witnesses = [], set(), False, 0
    while True:
        open(known, "w", encoding="utf-8").write("".join(f"{label}\n" for label in left))
        if os.path.exists(out):
            os.remove(out)
        status, text, fault = ran(
            exe,
            "predict",
            log,
            "--log",
            out,
            "--not-atomic",
            known,
            *(["--values"] if values else []),
        )
        own, idle, predictions = told_by(text)
        if status != (3 if own or idle or predictions else 0) or os.path.exists(out) != bool(
            predictions
        ):
            raise Wrong(f"status {status}: {text}{fault}")
        if not text.endswith(" tries\n"):
            raise Wrong(f"no end: {text}")
        circle = circle or any(it[0].startswith("deadlock? ") for it in predictions)
        told |= set(own)
        if predictions:
            witnesses += 1
            try:
                see_witness(
                    exe,
                    without(events if values else renewed(events), left + own + idle),
                    predictions[0],
                    out,
                )
            except Wrong as wrong:
                raise Wrong(f"{wrong}\n{text}") from None
        if not predictions or not labels_of(predictions[0]):
            return told, circle, witnesses
        blamed = [label for prediction in predictions for label in labels_of(prediction)]
        told |= set(blamed)
        first = labels_of(predictions[0])
        left += [label for label in own + idle + first if label not in left]


def main(words):
    if not words or words[0].startswith("-"):
        print(__doc__)
        return 2
    exe, count = os.path.abspath(words[0]), int(words[1]) if len(words) > 1 else 1000
    draw = random.Random(words[2] if len(words) > 2 else "1")
    failed = programs = logs = witnesses = 0
    counts = 0, 0, 0, 0
    with tempfile.TemporaryDirectory() as folder:
        while programs < count or logs < count:
            truth = None
            if programs < count:
                made = program(draw)
                shape, events = made["shape"], recorded(draw, made)
                truth = shown(made) if len(events) <= MAX_EVENTS else None
                if truth is None:
                    continue
                programs += 1
            else:
                shape, events = drawn(draw)
                logs += 1
            for values in (False, True):
                try:
                    told, circle, some = tell_all(exe, shape, events, values, folder)
                    witnesses += some
                    if truth and (told - truth[0] or circle and not truth[1]):
                        raise Wrong(
                            f"told {sorted(told)} {circle}, but runs show {sorted(truth[0])} {truth[1]}"
                        )
                except Wrong as wrong:
                    failed += 1
                    print(
                        text_of(shape, events) + str(wrong),
                        "with --values" if values else "",
                        flush=True,
                    )
                    continue
                if truth and not values:
                    counts = (
                        counts[0] + len(truth[0]),
                        counts[1] + len(told),
                        counts[2] + truth[1],
                        counts[3] + circle,
                    )
    print(
        "%d labels are to blame, %d were told from one log each; %d programs come to a circle, %d were told"
        % counts
    )
    print(f"{programs} programs, {logs} logs by chance, {witnesses} witnesses")
    print(f"{2 * (programs + logs) - failed} passed, {failed} failed")
    return 1 if failed else 0


if __name__ == "__main__":
    sys.exit(main(sys.argv[1:]))
