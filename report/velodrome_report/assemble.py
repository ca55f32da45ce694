"""Makes the report: one list over all runs, in its order, with short names and lines of source."""

from __future__ import annotations

import os
import shlex
from dataclasses import replace
from typing import Dict, Iterable, List, Optional, Sequence

from . import apart, finding, folding, judge, names, ranking, touched
from .judge import Looked
from .model import Counts, Event, Finding, Kind, Report, Run, Witness
from .source import Sources


def report(every: Sequence[Looked], reasons: Iterable[str] = ()) -> Report:
    """The report on these runs, in the order in which they were given."""
    gathering = finding.Gathering()
    for looked in every:
        gathering.take(looked)
    findings = touched.added(gathering.findings(), every)
    made = _arranged([looked.run for looked in every], findings, reasons)
    made.known = tuple(dict.fromkeys(name for looked in every for name in judge.left_out(looked)))
    return made


def merged(reports: Sequence[Report]) -> Report:
    """One report of several, as if all their runs had been looked at by one call."""
    found: Dict[str, Finding] = {}
    reports = apart.named_apart(reports)
    for part in reports:
        for one in part.findings:
            known = found.get(one.id)
            found[one.id] = one if known is None else finding.joined(known, one)
    runs = [run for part in reports for run in part.runs]
    reasons = dict.fromkeys(reason for part in reports for reason in part.reasons)
    made = _arranged(runs, list(found.values()), reasons)
    made.known = tuple(dict.fromkeys(name for part in reports for name in part.known))
    return made


def _arranged(runs: List[Run], findings: List[Finding], reasons: Iterable[str]) -> Report:
    """The findings in their sections and their order, with all that is told of them."""
    every = [name for run in runs for name in run.calls]
    every += [name for one in findings if one.kind is Kind.NOT_ATOMIC for name in _mentioned(one)]
    short = names.short_names(every)
    by_name = {run.name: run for run in runs}
    findings = _without_doubles(findings)
    listed = [_counted(_renamed(one, short), runs) for one in findings]
    listed = ranking.ranked(folding.folded(listed))
    return Report(
        runs=runs,
        findings=[replace(one, repeat=repeat(one, by_name)) for one in listed],
        reasons=tuple(reasons),
    )


def _without_doubles(findings: List[Finding]) -> List[Finding]:
    """The findings without a stale write that a function's own finding tells, too."""
    functions = {one.function.name: one for one in findings if one.kind is Kind.NOT_ATOMIC}
    kept: List[Finding] = []
    for one in findings:
        other = functions.get(one.function.name)
        if one.kind is Kind.STALE_WRITE and other is not None and _tells(other, one):
            functions[one.function.name] = replace(
                other,
                seen=tuple(dict.fromkeys(other.seen + one.seen)),
                possible=tuple(dict.fromkeys(other.possible + one.possible)),
            )
        elif one.kind is not Kind.NOT_ATOMIC:
            kept.append(one)
    return [*functions.values(), *kept]


def _tells(one: Finding, stale: Finding) -> bool:
    """Whether a function's finding is about the variable that it writes from an old value."""
    gap, other = one.traits.gap, stale.traits.gap
    if gap is None or other is None or gap.inside_callee:
        return False
    return other.target in (gap.target, *(str(target) for target in one.witness.targets()))


def _mentioned(one: Finding) -> List[str]:
    """The names of the functions that a finding speaks of."""
    events = one.witness.events
    calls = [event.call for event in events if event.call]
    return [one.function.name, *calls, *(frame.function for e in events for frame in e.stack)]


def _counted(one: Finding, runs: Sequence[Run]) -> Finding:
    """The finding with all calls of its function."""
    if one.kind is not Kind.NOT_ATOMIC:
        return one
    calls = sum(run.calls.get(one.function.name, 0) for run in runs)
    return replace(one, counts=Counts(calls, one.counts.to_blame))


def _renamed(one: Finding, short: Dict[str, str]) -> Finding:
    """The finding with a short name for its function. A deadlock is of several functions."""
    name = one.function.name
    if one.kind in (Kind.DEADLOCK, Kind.DEADLOCK_POSSIBLE):
        short_name = " and ".join(names.without_parameters(part) for part in name.split(" and "))
    else:
        short_name = short.get(name) or names.without_parameters(name)
    return replace(one, function=replace(one.function, short=short_name))


# ---- how to repeat it


def repeat(one: Finding, runs: Dict[str, Run]) -> Optional[str]:
    """The command that repeats a run in which it was seen; None where none is described."""
    seen = [one.witness.run] if not one.witness.predicted else list(one.seen)
    described = [runs[name] for name in seen if name in runs and runs[name].command]
    if not described:
        return None
    run = described[0]
    words = [f"{name}={shlex.quote(value)}" for name, value in sorted(run.settings.items())]
    words.append("velodrome-record")
    if run.mode not in (None, "exact"):
        words += ["--mode", shlex.quote(str(run.mode))]
    if run.noise:
        words += ["--noise", str(run.noise)]
    if run.seed is not None:
        words += ["--seed", str(run.seed)]
    words += ["--", *(shlex.quote(word) for word in run.command)]
    if run.folder and os.path.realpath(run.folder) != os.path.realpath("."):
        words[:0] = ["cd", shlex.quote(run.folder), "&&"]
    return " ".join(words)


# ---- lines of source


def with_sources(made: Report, sources: Sources) -> Report:
    """The report with the line of source of each event, and what changed since the runs."""
    findings = [replace(one, witness=_sourced(one.witness, sources)) for one in made.findings]
    told = [_changed(file, *since) for file, since in sources.changed.items()]
    return replace(made, findings=findings, warnings=(*made.warnings, *told))


def _changed(file: str, run: str, known: bool) -> str:
    lines = "its lines are shown as they were" if known else "its lines are not shown"
    return f"{file} was changed since {run}: {lines}"


def _sourced(witness: Witness, sources: Sources) -> Witness:
    def line(event: Event) -> Event:
        return replace(
            event,
            source=event.source or sources.line(event.place, witness.run),
            at_source=event.at_source or sources.line(event.at, witness.run),
        )

    return replace(
        witness,
        events=tuple(map(line, witness.events)),
        touched=tuple(
            replace(one, before=line(one.before), after=line(one.after)) for one in witness.touched
        ),
    )
