"""The page docs/EVALUATION.md, and the sums in README.md: of what was seen, and nothing else."""

from __future__ import annotations

import json
import os
import platform
import re
import subprocess
from itertools import zip_longest
from statistics import median
from typing import Callable, Dict, List, NamedTuple, Sequence, Tuple

import case
import check
import java
import tools
from check import Program
from results import Results
from tools import Asked, Seen

ROOT = os.path.dirname(check.HERE)
PAGE = os.path.join(ROOT, "docs", "EVALUATION.md")
README = os.path.join(ROOT, "README.md")
SHORTFALLS = os.path.join(check.HERE, "shortfalls.json")
# README has the sums between these two lines
BEGIN, END = "<!-- made by make -C evaluation -->", "<!-- end -->"
VELODROME = (tools.ONE_RUN, tools.NOISE_RUNS, tools.PREDICT, tools.SERIAL)
OTHERS = (tools.SANITIZER, tools.HELGRIND, tools.DRD)
# so many make a whole page
REPETITIONS = 10
# the two ways of the goal
GOAL = (tools.NOISE_RUNS, tools.PREDICT)
IN_README = (tools.NOISE_RUNS, tools.PREDICT, *OTHERS)

INTRODUCTION = """\
Known mistakes, their repairs, and right programs that look wrong, side by side with other tools. \
`make -C evaluation` makes this page. The [programs](../evaluation/programs) were written anew from \
published descriptions, each with its source; nothing in them waits to widen a window. Each wrong \
program's own test was seen to fail (`make -C evaluation check`).

*Found* by Velodrome: the function that is wrong, or the deadlock that it is in, is first in the \
list; of one run, with noise and in serial mode only what happened counts. *Found* by another \
tool: its words name the function. *Said* of a right program: a finding that is not folded away \
or put under *by design*; of another tool any warning. `plain` is the program alone: its own test \
fails. `one run` and `predict of one run` are of one recording, which is always searched for \
other runs, too. A cell tells in how many of so many repetitions; `-`: the tool could not be run, \
or nothing was looked at. What is not atomic without a data race the other three tools are not \
made to find; a data race that is no atomicity mistake Velodrome is not made to find. The order of \
Velodrome's list was bettered by what these programs showed: of others the sums say less."""


class Cell(NamedTuple):
    """Of how many repetitions something can be said, and in how many it is so."""

    times: int
    of: int

    def mostly(self) -> bool:
        """Whether it is so in more than half of the repetitions."""
        return 2 * self.times > self.of

    def text(self) -> str:
        """As the table has it."""
        return f"{self.times} of {self.of}" if self.of else "-"


def cell(kept: Results, of: Program, version: str, columns: Sequence[str], which: str) -> Cell:
    """In how many repetitions it is so in at least one of the columns."""
    together = zip_longest(*(kept.of(of.name, version, column) for column in columns))
    good = [[one for one in each if one and not one.failed] for each in together]
    good = [each for each in good if each]
    return Cell(sum(any(getattr(one, which) for one in each) for each in good), len(good))


# ---- tables


def row(*cells: object) -> str:
    """A line of a table."""
    return "| " + " | ".join(str(one) for one in cells) + " |"


def head(*cells: str) -> List[str]:
    """The first two lines of a table."""
    return [row(*cells), "|---" * len(cells) + "|"]


def table(chosen: List[Program], kept: Results, version: str, which: str) -> List[str]:
    """A line for each program, and the sum of those of which it is mostly so."""
    lines = head("Program", *tools.COLUMNS)
    for of in chosen:
        cells = (cell(kept, of, version, (column,), which) for column in tools.COLUMNS)
        lines.append(row(of.name, *(one.text() for one in cells)))
    sums = (str(mostly(chosen, kept, version, (column,), which)) for column in tools.COLUMNS)
    lines.append(row(f"**in most repetitions, of {len(chosen)}**", *sums))
    sums = (str(once(chosen, kept, version, (column,), which)) for column in tools.COLUMNS)
    lines.append(row(f"**at least once, of {len(chosen)}**", *sums))
    return lines


def mostly(
    chosen: List[Program], kept: Results, version: str, columns: Sequence[str], which: str
) -> int:
    """Of how many programs it is so in most repetitions."""
    return sum(cell(kept, of, version, columns, which).mostly() for of in chosen)


def once(
    chosen: List[Program], kept: Results, version: str, columns: Sequence[str], which: str
) -> int:
    """Of how many programs it is so in at least one repetition."""
    return sum(cell(kept, of, version, columns, which).times > 0 for of in chosen)


def of_kind(chosen: List[Program], *kinds: str) -> List[Program]:
    """The programs of these kinds."""
    return [of for of in chosen if of.kind in kinds]


def seconds(each: Sequence[Seen]) -> float:
    """The mean of the processor time of some repetitions."""
    return sum(one.seconds for one in each) / len(each)


def times_plain(chosen: List[Program], kept: Results, column: str) -> Tuple[float, float]:
    """Of what was run by a tool: its mean processor time, and by how many times it is plain's."""
    spent, base, many = 0.0, 0.0, 0
    for of in chosen:
        for version in check.versions(of):
            own = kept.good(of.name, version, column)
            plain = kept.good(of.name, version, tools.PLAIN)
            if own and plain:
                spent, base, many = spent + seconds(own), base + seconds(plain), many + 1
    return (spent / many, spent / base) if base else (0.0, 0.0)


def cost(chosen: List[Program], kept: Results) -> List[str]:
    """Processor time of each tool, as seconds a program and as multiple of the plain programs."""
    lines = head("Tool", "seconds for one program", "multiple")
    for column in tools.COLUMNS:
        mean, times = times_plain(chosen, kept, column)
        lines.append(row(column, f"{mean:.3f}", f"{times:.0f}"))
    return lines


def sums(chosen: List[Program], kept: Results, columns: Sequence[str]) -> List[str]:
    """The sums of all tables: what is so in most repetitions."""
    wrong, hung = of_kind(chosen, "atomicity"), of_kind(chosen, "deadlock")
    lines = head(
        in_most(chosen, kept),
        f"of {len(wrong)} atomicity mistakes",
        f"of {len(hung)} deadlocks",
        f"of {len(chosen)} right programs, something said",
        "processor time, times the program's alone",
    )
    for column in columns:
        lines.append(
            row(
                column,
                total(wrong, kept, "wrong", (column,), "named"),
                total(hung, kept, "wrong", (column,), "named"),
                total(chosen, kept, "repaired", (column,), "said"),
                f"{times_plain(chosen, kept, column)[1]:.0f}",
            )
        )
    return lines


def were_run(
    chosen: List[Program], kept: Results, version: str, columns: Sequence[str]
) -> List[Program]:
    """The programs of which something can be said."""
    return [of for of in chosen if cell(kept, of, version, columns, "said").of]


def total(
    chosen: List[Program], kept: Results, version: str, columns: Sequence[str], which: str
) -> str:
    """Of how many programs it is so in most repetitions, and of how many where not all were run."""
    run = were_run(chosen, kept, version, columns)
    many = mostly(run, kept, version, columns, which)
    if not run:
        return "-"
    return str(many) if len(run) == len(chosen) else f"{many} of {len(run)} run"


# ---- what falls short, and where another tool did better


def goals(chosen: List[Program], kept: Results) -> List[str]:
    """The goals, and what was reached."""
    wrong, hung = of_kind(chosen, "atomicity"), of_kind(chosen, "deadlock")
    wrong = were_run(wrong, kept, "wrong", GOAL)
    hung = were_run(hung, kept, "wrong", GOAL)
    right = were_run(chosen, kept, "repaired", GOAL)
    found = mostly(wrong, kept, "wrong", GOAL, "named")
    deadlocks = mostly(hung, kept, "wrong", GOAL, "named")
    said = mostly(right, kept, "repaired", GOAL, "said")
    lines = head("Goal, of ten runs with noise or one run with predictions", "reached")
    lines.append(row("of the atomicity mistakes 90 % first in the list", share(found, wrong)))
    lines.append(row("of the deadlocks all, none by hanging", share(deadlocks, hung)))
    lines.append(row("of the right programs at most 10 % with a finding", share(said, right)))
    return lines


def share(part: int, whole: List[Program]) -> str:
    """As `3 of 4, 75 %`."""
    return f"{part} of {len(whole)}, {100 * part // max(1, len(whole))} %"


def short_of_goals(chosen: List[Program], kept: Results) -> List[str]:
    """Each program that falls short: what was said of it, and why, where that is known."""
    with open(SHORTFALLS, encoding="utf-8") as file:
        reasons: Dict[str, str] = json.load(file)
    lines: List[str] = []
    for of in of_kind(chosen, "atomicity", "deadlock"):
        found = cell(kept, of, "wrong", GOAL, "named")
        if found.of and not found.mostly():
            lines.append(shortfall(of, kept, "wrong", f"found in {found.text()}", reasons))
    for of in chosen:
        said = cell(kept, of, "repaired", GOAL, "said")
        if said.mostly():
            lines.append(shortfall(of, kept, "repaired", f"said in {said.text()}", reasons))
    return lines or ["Nothing falls short."]


def shortfall(of: Program, kept: Results, version: str, what: str, reasons: Dict[str, str]) -> str:
    """A line of the list."""
    told = [one.told for column in GOAL for one in kept.good(of.name, version, column) if one.told]
    first = f"; said: {max(told, key=told.count)}" if told else "; nothing was said"
    reason = reasons.get(f"{of.name}.{version}", "the reason is not known")
    return f"- `{of.name}`, {version}: {what}{first}. {reason[0].upper()}{reason[1:]}."


def others_better(chosen: List[Program], kept: Results) -> List[str]:
    """Where another tool found a mistake more often, or was silent where Velodrome was not."""
    lines: List[str] = []
    for of in of_kind(chosen, "atomicity", "deadlock"):
        best = max(cell(kept, of, "wrong", (one,), "named").times for one in VELODROME)
        for other in OTHERS:
            found = cell(kept, of, "wrong", (other,), "named")
            if found.times > best:
                lines.append(
                    f"- `{of.name}`: {other} found it in {found.text()}, Velodrome in {best}."
                )
    for of in chosen:
        said = cell(kept, of, "repaired", GOAL, "said")
        cells = {other: cell(kept, of, "repaired", (other,), "said") for other in OTHERS}
        silent = [other for other, one in cells.items() if one.of and not one.times]
        if said.mostly() and silent:
            lines.append(f"- `{of.name}`, right: {', '.join(silent)} said nothing.")
    return lines or ["Nowhere in these programs."]


# ---- the machine


def first_line(words: List[str]) -> str:
    """The first line that a command prints."""
    return subprocess.run(words, stdout=subprocess.PIPE, text=True).stdout.split("\n")[0]


def processor() -> str:
    """The processor's name."""
    with open("/proc/cpuinfo", encoding="utf-8") as file:
        found = re.search(r"model name\s*: (.*)", file.read())
    return found[1] if found else platform.machine()


def machine(asked: Asked, kept: Results) -> str:
    """Where and under which load it was made."""
    loads = kept.loads or [0.0]
    versions = [
        first_line(words)
        for words in (["gcc", "--version"], ["valgrind", "--version"], [asked.checker, "--version"])
    ]
    return (
        f"Made on {os.cpu_count()} cores of {processor()}, {platform.system()}"
        f" {platform.release().split('-')[0]}, with {', '.join(versions)}. Load while it was made:"
        f" median {median(loads):.0f}, from {min(loads):.0f} to {max(loads):.0f}; other work ran"
        " beside it, so times are processor time, never wall time, and only their ratios mean"
        " anything. That of Velodrome is of the run, its log, the judging and the report together."
    )


# ---- the page


def seen_times(chosen: List[Program], kept: Results, column: str) -> List[int]:
    """How often each cell of a column was seen, rarest first."""
    each = ((of, version) for of in chosen for version in check.versions(of))
    return sorted(len(kept.of(of.name, version, column)) for of, version in each)


def in_most(chosen: List[Program], kept: Results) -> str:
    """The head of the sums."""
    most = max(seen_times(chosen, kept, column)[-1] for column in tools.COLUMNS)
    return f"In most of {most} repetitions" if most > 1 else "In one repetition"


def repetitions(chosen: List[Program], kept: Results) -> str:
    """How often the cells were seen, and how many of each column were not seen at all."""
    times = {column: seen_times(chosen, kept, column) for column in tools.COLUMNS}
    seen = sorted(many for each in times.values() for many in each if many)
    told = f"Repetitions: {seen[0]}" + (f" to {seen[-1]}" if seen[0] < seen[-1] else "")
    if seen[0] < REPETITIONS:
        told += f"; that it is not {REPETITIONS} is for want of time, and one says little"
    lacking = [f"{column} {each.count(0)}" for column, each in times.items() if not each[0]]
    if lacking:
        cells = len(times[tools.PLAIN])
        told += f". Not run for want of time, of {cells} programs each: {', '.join(lacking)}"
    return told


def page(asked: Asked, chosen: List[Program], kept: Results) -> str:
    """The whole page."""
    wrong, hung = of_kind(chosen, "atomicity"), of_kind(chosen, "deadlock")
    right = of_kind(chosen, "right")
    parts: Tuple[Tuple[str, Callable[[], List[str]]], ...] = (
        ("Sums", lambda: sums(chosen, kept, tools.COLUMNS[1:])),
        ("Goals", lambda: goals(chosen, kept)),
        ("What falls short", lambda: short_of_goals(chosen, kept)),
        ("Where another tool did better", lambda: others_better(chosen, kept)),
        ("Atomicity mistakes: found", lambda: table(wrong, kept, "wrong", "named")),
        ("Deadlocks: found", lambda: table(hung, kept, "wrong", "named")),
        ("Repaired programs: said", lambda: table(wrong + hung, kept, "repaired", "said")),
        ("Right programs: said", lambda: table(right, kept, "repaired", "said")),
        ("Processor time", lambda: cost(chosen, kept)),
        ("Java programs", lambda: java.told(asked)),
        ("What each tool said of one program", lambda: case.told(asked)),
    )
    lines = ["# Evaluation", "", INTRODUCTION, ""]
    lines += [f"{repetitions(chosen, kept)}. {machine(asked, kept)}"]
    for note in kept.notes:
        lines += ["", note]
    for title, body in parts:
        lines += ["", f"## {title}", "", *body()]
    return "\n".join(lines) + "\n"


def with_sums(text: str, lines: List[str]) -> str:
    """README with these sums in the place of what stands there."""
    before, begin, rest = text.partition(BEGIN)
    _, end, after = rest.partition(END)
    if not end:
        raise check.Bad(f"README.md has no {BEGIN} and {END}")
    return "\n".join([before + begin, *lines, end + after])


def write(asked: Asked, chosen: List[Program], kept: Results) -> None:
    """Writes the page, and the sums. Raises check.Bad."""
    # programs may run for it: a call that is broken off leaves the page as it was
    whole = page(asked, chosen, kept)
    with open(PAGE, "w", encoding="utf-8") as file:
        file.write(whole)
    with open(README, encoding="utf-8") as file:
        text = file.read()
    with open(README, "w", encoding="utf-8") as file:
        file.write(with_sums(text, sums(chosen, kept, IN_README)))
