"""Runs of several reports: two machines may have given one name to two runs, which are counted apart."""

from __future__ import annotations

from dataclasses import replace
from typing import Dict, List, Sequence, Set, Tuple

from .model import Finding, Report


def named_apart(reports: Sequence[Report]) -> List[Report]:
    """The reports; a run whose name an earlier one has gets a number behind its name."""
    taken: Set[str] = set()
    apart: List[Report] = []
    for report in reports:
        names = {run.name: _free(run.name, taken) for run in report.runs}
        taken.update(names.values())
        apart.append(_renamed(report, names))
    return apart


def _free(name: str, taken: Set[str]) -> str:
    free, number = name, 1
    while free in taken:
        number += 1
        free = f"{name} ({number})"
    return free


def _renamed(report: Report, names: Dict[str, str]) -> Report:
    if all(name == free for name, free in names.items()):
        return report
    return replace(
        report,
        runs=[replace(run, name=names[run.name]) for run in report.runs],
        findings=[_finding(one, names) for one in report.findings],
    )


def _finding(one: Finding, names: Dict[str, str]) -> Finding:
    run = one.witness.run
    return replace(
        one,
        seen=_named(one.seen, names),
        possible=_named(one.possible, names),
        witness=replace(one.witness, run=names.get(run, run)),
    )


def _named(runs: Tuple[str, ...], names: Dict[str, str]) -> Tuple[str, ...]:
    return tuple(names.get(run, run) for run in runs)
