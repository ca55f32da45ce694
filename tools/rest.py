#!/usr/bin/env python3
"""What `watch` says where something is left out is what `check` says of a log without it, at the positions of the whole log.

    tools/rest.py PROGRAM [COUNT]             COUNT random logs, 5,000 if it is not given

A random log is watched with random labels, locks and variables left out, each by an option or by a line of an --ignore list. The
same events are taken out of the log here, and what is left is checked without options. The two reports have to be the same, but
for the positions, which are turned into those of the whole log, and for the line of the alarm before the one of `watch`, which has
the same position and blocks. With a file of sites `watch` says the same, and after it the places of the alarm. The last line is
`N compared, N alarms`.
"""
import os
import random
import subprocess
import sys
import tempfile

LABELS = (1, 2, 3)


class Run:
    """A run of some threads, as a list of (thread, words, what they are about): a kind and a number, or nothing."""

    def __init__(self, draw):
        self.draw = draw
        self.threads, self.variables, self.locks = (
            draw.randint(2, 4),
            draw.randint(1, 3),
            draw.randint(1, 3),
        )
        self.values = [0] * self.variables
        self.holders = {}
        self.open = [[] for _ in range(self.threads)]
        self.events = [(0, f"fork {thread}", None) for thread in range(1, self.threads)]
        for _ in range(draw.randint(5, 40)):
            draw.choice(
                [self.access, self.access, self.acquire, self.release, self.begin, self.end]
            )(draw.randrange(self.threads))

    def access(self, thread):
        variable = self.draw.randrange(self.variables)
        word = self.draw.choice(["rd", "wr"])
        if word == "wr":
            self.values[variable] = self.draw.randint(0, 5)
        self.events.append(
            (thread, f"{word} {variable} {self.values[variable]}", ("variable", variable))
        )

    def acquire(self, thread):
        lock = self.draw.randrange(self.locks)
        if lock not in self.holders:
            self.holders[lock] = thread
            self.events.append((thread, f"acq {lock}", ("lock", lock)))

    def release(self, thread):
        held = [lock for lock, holder in self.holders.items() if holder == thread]
        if held:
            lock = self.draw.choice(held)
            del self.holders[lock]
            self.events.append((thread, f"rel {lock}", ("lock", lock)))

    def begin(self, thread):
        label = self.draw.choice(LABELS)
        self.open[thread].append(label)
        self.events.append((thread, f"begin {label}", ("label", label)))

    def end(self, thread):
        if self.open[thread]:
            self.events.append((thread, "end", ("label", self.open[thread].pop())))

    def text(self, places):
        """The text of a log of the events at these places."""
        lines = [f"vlog 2 {self.threads} {self.variables} {self.locks}"]
        lines += [
            f"{thread} {words}" for thread, words, _ in (self.events[place] for place in places)
        ]
        return "".join(f"{line}\n" for line in lines)


def drawn(draw, run):
    """What is left out, as pairs of a kind and a number, or of a kind and `all`."""
    kinds = {"lock": range(run.locks), "variable": range(run.variables), "label": LABELS}
    some = {
        (kind, number)
        for kind, numbers in kinds.items()
        for number in numbers
        if draw.random() < 0.3
    }
    return some | ({("lock", "all")} if draw.random() < 0.3 else set())


def options_of(draw, omitted, path):
    """The options that leave this out; some of it stands in a list at the path."""
    lines, options = [], []
    for kind, number in sorted(omitted, key=str):
        if draw.random() < 0.5:
            lines.append(
                "all locks"
                if number == "all"
                else str(number)
                if kind == "label"
                else f"{kind} {number}"
            )
        else:
            options += ["--ignore-locks"] if number == "all" else [f"--ignore-{kind}", str(number)]
    if lines:
        with open(path, "w", encoding="utf-8") as it:
            it.write("".join(f"{line}\n" for line in lines))
        options += ["--ignore", path]
    return options


def judge(program, command, options, text):
    done = subprocess.run(
        [program, command, "-", *options], input=text, capture_output=True, text=True, check=False
    )
    return done.returncode, done.stdout


def alarm_of(report):
    """The line that `watch` prints of the alarm of a report, if it has one."""
    lines = [line.split(" ") for line in report.splitlines()]
    if ["verdict", "clean"] in lines:
        return ""
    position = next(words[2] for words in lines if words[0] == "verdict")
    blamed = [" ".join(words) for words in lines if words[0] == "blame"]
    return f"alarm {position} {' '.join(blamed)}\n"


def placed(report, places):
    """The report, with these places for its positions."""

    def at(words):
        which = {"verdict alarm": 2, "transaction": 1, "blame": 1}
        place = which.get(" ".join(words[:2]), which.get(words[0]))
        if place and words[place].isdigit():
            words[place] = str(places[int(words[place])])
        return " ".join(words)

    return "".join(f"{at(line.split(' '))}\n" for line in report.splitlines())


def sited(draw, events, path):
    """The place of each event that has one, by its position; they stand in a file of sites at the path."""
    known = ("bank.c:12 deposit", "src/a b.c:7 audit")
    sites = [draw.randint(0, len(known)) for _ in events]
    with open(path, "w", encoding="utf-8") as it:
        it.write(
            "".join(f"{line}\n" for line in (f"vsites 1 {len(known)} {len(sites)}", *known, *sites))
        )
    return {position: known[site - 1] for position, site in enumerate(sites) if site}


def told(report, sites):
    """The lines of the places of the alarm of a report, if it has one."""
    lines = [line.split(" ") for line in report.splitlines()]
    closing = [words[2] for words in lines if words[:2] == ["verdict", "alarm"]]
    begins = [words[1] for words in lines if words[0] == "blame" and words[1] != "none"]
    transaction = [words[1] for words in lines if words[0] == "transaction"]
    positions = [int(position) for position in closing + (begins or transaction)]
    return "".join(
        f"place {position} {sites[position]}\n" for position in positions if position in sites
    )


def main():
    program, count = sys.argv[1], int(sys.argv[2]) if len(sys.argv) > 2 else 5000
    alarms = 0
    with tempfile.TemporaryDirectory() as room:
        for seed in range(count):
            draw = random.Random(seed)
            run = Run(draw)
            omitted = drawn(draw, run) or {("lock", "all")}
            stays = lambda about: about not in omitted and not (
                about and about[0] == "lock" and ("lock", "all") in omitted
            )
            places = [place for place, event in enumerate(run.events) if stays(event[2])]
            status, report = judge(program, "check", [], run.text(places))
            wanted = placed(report, places)
            options = options_of(draw, omitted, os.path.join(room, "list"))
            path = os.path.join(room, "sites")
            watched = alarm_of(wanted) + wanted
            places_told = told(wanted, sited(draw, run.events, path))
            for command, more, said in (
                ("watch", [], watched),
                ("watch", ["--sites", path], watched + places_told),
            ):
                found = judge(program, command, options + more, run.text(range(len(run.events))))
                if found != (status, said):
                    sys.exit(
                        f"{command} of log {seed} with {' '.join(options + more)}: {found} in place of {status, said}"
                    )
            alarms += status == 3
    print(f"{count} compared, {alarms} alarms")


if __name__ == "__main__":
    main()
