"""The sentences that the forms share, so that a finding is told in the same words everywhere."""

from __future__ import annotations

from typing import Dict, List, Optional, Sequence, Tuple

from ..model import Event, Finding, Frame, Kind, Place, Report, Run, Section
from .characters import columns_of, shortened, shortened_at_end, visible

# columns of a name in a sentence, of a place and of a line of source
NAME_ROOM = 100
PLACE_ROOM = 60
SOURCE_ROOM = 100
UNSAID = "nothing can be said"

KIND_IN_WORDS = {
    Kind.NOT_ATOMIC: "not atomic",
    Kind.STALE_WRITE: "written from an old value",
    Kind.DEADLOCK: "deadlock",
    Kind.DEADLOCK_POSSIBLE: "deadlock possible",
}
SECTION_IN_WORDS = {
    Section.LIKELY: "Likely mistakes",
    Section.BY_DESIGN: "Waits, reference counts and statistics",
    Section.FOLDED: "Not atomic by what they call",
}


def plural(many: int, word: str) -> str:
    """Returns the number with the word, as `1 run` or `2 runs`."""
    return f"{many:,} {word}{'' if many == 1 else 's'}"


def listed(words: List[str]) -> str:
    """Returns the words as a list in a sentence, as `a, b and c`."""
    return " and ".join([", ".join(words[:-1]), words[-1]] if len(words) > 1 else words)


def name(text: str, room: int = NAME_ROOM) -> str:
    """Returns a name as it is shown: its start and its end, where the method is."""
    return shortened(visible(text), room)


def _threads(finding: Finding) -> str:
    return listed([str(thread) for thread in finding.witness.threads()])


def _written(finding: Finding) -> str:
    """Returns the name of what a stale write writes."""
    gap = finding.traits.gap
    if gap is not None and gap.target:
        return gap.target
    own = [event for event in finding.witness.events if not event.interrupts]
    return str(own[-1].target) if own else "a variable"


def claim(finding: Finding, room: int = NAME_ROOM) -> str:
    """Returns what is said of the function or the threads, without where and how often."""
    function = name(finding.function.short, room)
    if finding.kind is Kind.NOT_ATOMIC:
        return f"{function} is not atomic"
    if finding.kind is Kind.STALE_WRITE:
        function = name(finding.function.short, room // 2)
        can = "is" if finding.seen else "can be"
        return f"{function}: {name(_written(finding), room // 2)} {can} written from an old value"
    if finding.kind is Kind.DEADLOCK:
        return f"deadlock: {_threads(finding)} wait for each other"
    return f"deadlock possible: {_threads(finding)} can wait for each other"


def how_often(finding: Finding, report: Report) -> str:
    """Returns in how many runs it was seen and is possible."""
    runs = report.counted()
    return (
        f"seen in {len(finding.seen)} of {plural(runs, 'run')}, possible in {len(finding.possible)}"
    )


def sentence(finding: Finding, report: Report) -> str:
    """Returns the whole sentence of a finding."""
    return f"{claim(finding)}: {how_often(finding, report)}"


def counted(finding: Finding) -> str:
    """Returns how many calls were to blame, or nothing where calls were not counted."""
    if not finding.counts.calls:
        return ""
    return f"{finding.counts.to_blame:,} of {plural(finding.counts.calls, 'call')} to blame"


def repeated(finding: Finding) -> str:
    """Returns how to repeat the finding, or nothing."""
    return f"to repeat: {visible(finding.repeat)}" if finding.repeat else ""


def place(where: Optional[Place]) -> str:
    """Returns the place as FILE:LINE, or nothing where it is not known."""
    return shortened(visible(str(where)), PLACE_ROOM) if where else ""


def source(line: Optional[str]) -> str:
    """Returns a line of source as it is shown, or nothing where it is not known."""
    return shortened_at_end(visible(line), SOURCE_ROOM) if line else ""


def cells(event: Event) -> List[str]:
    """Returns what a row says of an event: its thread, its place, its line of source, what it does."""
    does = name(event.does())
    return [str(event.thread), place(event.place), source(event.source), does]


def rows(events: Sequence[Event]) -> List[str]:
    """Returns a line for each event, in columns; `>` marks what comes between."""
    table = [cells(event) for event in events]
    widths = [max(map(columns_of, column)) for column in zip(*table)][:-1]
    marks = [">" if event.interrupts else " " for event in events]
    return [f"{mark} {_joined(line, widths)}" for mark, line in zip(marks, table)]


def _joined(line: List[str], widths: List[int]) -> str:
    padded = [cell + " " * (width - columns_of(cell)) for cell, width in zip(line, widths) if width]
    return "  ".join([*padded, line[-1]])


def frames(event: Event, report: Report) -> List[Frame]:
    """Returns the blocks that were open around an event, innermost first, without those left out."""
    return [frame for frame in reversed(event.stack) if frame.function not in report.known]


def looked_at(report: Report) -> str:
    """Returns what was looked at."""
    runs = plural(len(report.looked_at()), "run")
    if not report.functions():
        return f"no function in {runs}"
    return f"{plural(report.calls(), 'call')} of {plural(report.functions(), 'function')} in {runs}"


def outcome(report: Report) -> str:
    """Returns what was looked at, and how much was found in it."""
    looked = looked_at(report) if report.looked_at() else "nothing was looked at"
    if report.findings:
        return f"{looked}: {plural(len(report.findings), 'finding')}"
    return f"{looked}: no mistake found" if report.looked_at() else looked


def of_runs(report: Report) -> str:
    """Returns of how many runs nothing was seen in, and how they ended; nothing where the list says it all."""
    if len(report.runs) < 2 and all(run.ended in (None, "exit 0") for run in report.runs):
        return ""
    many = f"{report.atomic():,} of {plural(len(report.runs), 'run')} atomic"
    endings = [run.ended for run in report.runs if run.ended is not None]
    if not endings:
        return many
    times = [(endings.count(one), one) for one in dict.fromkeys(endings)]
    told = [f"{one} ({count:,})" if len(times) > 1 else one for count, one in times]
    return f"{many}; ended with {listed(told)}"


# so many functions are named of a run
MOST_NAMED = 3


def verdict(run: Run, report: Report) -> str:
    """Returns what was seen in a run, or why nothing can be said of it."""
    seen = report.seen_in(run)
    told = [KIND_IN_WORDS[kind] for kind in dict.fromkeys(one.kind for one in seen)]
    if Kind.NOT_ATOMIC in [one.kind for one in seen]:
        names = [name(one.function.short) for one in seen if one.kind is Kind.NOT_ATOMIC]
        more = len(names) - MOST_NAMED
        shown = names[:MOST_NAMED] + ([f"{more:,} more"] if more > 0 else [])
        place = told.index(KIND_IN_WORDS[Kind.NOT_ATOMIC])
        told[place] = f"{told[place]}: {listed(shown)}"
    if not run.looked_at:
        told.append(f"not looked at: {visible('; '.join(run.reasons) or UNSAID)}")
    return "; ".join(told) or "atomic"


def runs(report: Report) -> List[List[str]]:
    """Returns of each run its name, its seed, how it ended, and what was seen in it."""
    return [
        [
            name(run.name),
            "" if run.seed is None else f"seed {run.seed}",
            visible(run.ended or ""),
            verdict(run, report),
        ]
        for run in report.runs
    ]


def unsaid(report: Report) -> List[str]:
    """Returns each reason for which something cannot be said, once, with the runs that have it."""
    runs = [(run, "; ".join(run.reasons) or UNSAID) for run in report.runs if not run.looked_at]
    return [*report.reasons, *_once(runs)]


def warned(report: Report) -> List[str]:
    """Returns each warning once, with the runs that have it."""
    runs = [(run, warning) for run in report.runs for warning in run.warnings]
    return [*report.warnings, *_once(runs)]


def _once(told: List[Tuple[Run, str]]) -> List[str]:
    runs_of: Dict[str, List[str]] = {}
    for run, text in told:
        runs_of.setdefault(text, []).append(name(run.name))
    return [
        f"{runs[0]}: {text}" + (f" (and {len(runs) - 1:,} more)" if len(runs) > 1 else "")
        for text, runs in runs_of.items()
    ]
