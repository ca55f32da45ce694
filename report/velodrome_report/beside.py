"""What stands beside a log: names, functions and notes of the recorder.

Each file may be missing: then nothing is known of what it says. A file that is no such file is
told as a warning, and taken as missing.
"""

from __future__ import annotations

import json
import os
from dataclasses import dataclass, field
from typing import Any, Dict, FrozenSet, List, Optional, Tuple

from .answers import site
from .model import Place


@dataclass(frozen=True)
class Described:
    """A line of `.functions`: what a label is, and whether it waits inside."""

    name: str
    place: Optional[Place]
    calls: int
    waits: bool


@dataclass(frozen=True)
class Held:
    """A lock that a thread holds, and where it took it."""

    name: str
    at: Optional[Place]
    function: Optional[str]


@dataclass(frozen=True)
class Wait:
    """A wait that had not ended when the run did."""

    thread: int
    what: str
    name: str
    at: Optional[Place]
    function: Optional[str]
    held_by: Optional[int]
    holds: Tuple[Held, ...] = ()
    # by itself, after a time
    ends: bool = False


@dataclass(frozen=True)
class Stale:
    """A value that was written from an old one: a small log has the two holds as its block."""

    log: str
    function: Optional[str]
    place: Optional[Place]
    variable: Optional[str]


@dataclass
class Notes:
    """What the recorder says of a log beside its events."""

    stopped: Optional[str] = None
    # records at the start of the trace that made way for newer ones
    overwritten: int = 0
    cut: bool = False
    # why the functions of the program cannot be named; None if they can
    cannot_name: Optional[str] = None
    # whether the log was made with all variables
    all_variables: bool = False
    counts: Dict[str, int] = field(default_factory=dict)
    # the path and the state of each module that is not as it was, and what of it is not
    modules: Tuple[Tuple[str, str, Tuple[str, ...]], ...] = ()
    waits: Tuple[Wait, ...] = ()
    # threads that wait for each other
    circles: Tuple[Tuple[int, ...], ...] = ()
    loops: Tuple[Tuple[str, Optional[Place]], ...] = ()
    stale: Tuple[Stale, ...] = ()
    # None where it is not known which variables atomic operations alone write
    atomic: Optional[Tuple[int, ...]] = None
    # the variables of which nothing orders two accesses, as far as they are known
    racing: Tuple[int, ...] = ()


COUNTS = ("dropped", "odd", "late", "lost", "hidden")


@dataclass
class Beside:
    """All of it, of one log."""

    names: Optional[str] = None
    sites: Optional[str] = None
    functions: Dict[int, Described] = field(default_factory=dict)
    labels: Dict[int, str] = field(default_factory=dict)
    variables: Dict[int, str] = field(default_factory=dict)
    locks: Dict[int, str] = field(default_factory=dict)
    threads: Dict[int, str] = field(default_factory=dict)
    notes: Notes = field(default_factory=Notes)
    # the positions of the acquires that came from a trylock
    tried: FrozenSet[int] = frozenset()
    warnings: List[str] = field(default_factory=list)


def read(log: str) -> Beside:
    """What stands beside this log."""
    found = Beside()
    stem = log[: -len(".log")] if log.endswith(".log") else log
    found.names = _first(log + ".names", stem + ".names")
    found.sites = _first(log + ".sites", stem + ".sites")
    if found.names:
        _read_names(found.names, found)
    functions = _first(log + ".functions", stem + ".functions")
    if functions:
        _read_functions(functions, found)
    tried = _first(log + ".tried", stem + ".tried")
    if tried:
        found.tried = _read_positions(tried, found)
    notes = _first(log + ".notes", stem + ".notes")
    if notes:
        try:
            with open(notes, encoding="utf-8", errors="replace") as opened:
                found.notes = _notes(json.load(opened), os.path.dirname(notes))
        except (OSError, ValueError, KeyError, TypeError, AttributeError):
            found.warnings.append(f"{notes}: no notes of the recorder, left aside")
    return found


def _first(*paths: str) -> Optional[str]:
    return next((path for path in paths if os.path.isfile(path)), None)


def _read_positions(path: str, found: Beside) -> FrozenSet[int]:
    try:
        with open(path, encoding="ascii", errors="replace") as opened:
            return frozenset(int(line) for line in opened)
    except (OSError, ValueError):
        found.warnings.append(f"{path}: no list of positions, left aside")
        return frozenset()


def _read_names(path: str, found: Beside) -> None:
    kinds = {
        "label": found.labels,
        "variable": found.variables,
        "lock": found.locks,
        "thread": found.threads,
    }
    try:
        with open(path, encoding="utf-8", errors="replace") as opened:
            for line in opened:
                words = line.rstrip("\n").split(" ", 2)
                if len(words) == 3 and words[0] in kinds and words[1].isdigit():
                    kinds[words[0]][int(words[1])] = words[2]
    except OSError as reason:
        found.warnings.append(f"{path}: {reason.strerror}")


def _read_functions(path: str, found: Beside) -> None:
    try:
        with open(path, encoding="utf-8", errors="replace") as opened:
            for line in opened:
                words = line.rstrip("\n").split(" ", 4)
                if len(words) < 5 or not words[0].isdigit() or not words[2].isdigit():
                    continue
                label, waits, calls, where, name = words
                found.functions[int(label)] = Described(
                    name, site(where)[0], int(calls), waits == "waits"
                )
    except OSError as reason:
        found.warnings.append(f"{path}: {reason.strerror}")


def _notes(value: Any, folder: str) -> Notes:
    return Notes(
        stopped=value.get("stopped") or None,
        overwritten=int(value.get("overwritten") or 0),
        cut=bool(value.get("cut")),
        counts={name: int(value[name]) for name in COUNTS if value.get(name)},
        cannot_name=value.get("cannot_name") or None,
        all_variables=bool(value.get("all_variables")),
        modules=tuple(
            (module["path"], module["state"], tuple(module.get("objects") or ()))
            for module in value.get("modules") or ()
            if _matters(module)
        ),
        waits=tuple(_wait(wait) for wait in value.get("waits") or () if wait.get("for")),
        circles=tuple(tuple(circle) for circle in value.get("circles") or ()),
        loops=tuple(
            (loop["function"], site(loop.get("place"))[0]) for loop in value.get("loops") or ()
        ),
        stale=tuple(
            Stale(
                os.path.join(folder, one["log"]),
                one.get("function"),
                site(one.get("place"))[0],
                one.get("variable"),
            )
            for one in value.get("stale") or ()
        ),
        atomic=None if value.get("atomic") is None else tuple(int(x) for x in value["atomic"]),
        racing=tuple(int(x) for x in value.get("racing") or ()),
    )


def _matters(module: Any) -> bool:
    """Whether a module is not what it was when its code ran, or has none that is recorded."""
    state = module.get("state")
    return state == "unhooked" or (state not in (None, "same") and module.get("ran", True))


def _wait(value: Any) -> Wait:
    at, function = site(value.get("site"))
    return Wait(
        thread=int(value["thread"]),
        what=value["for"],
        name=value.get("name") or "?",
        at=at,
        function=function,
        held_by=value.get("held_by"),
        ends=bool(value.get("ends")),
        holds=tuple(
            Held(held.get("name") or "?", *site(held.get("site")))
            for held in value.get("holds") or ()
        ),
    )
