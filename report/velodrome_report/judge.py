"""Looks at one run: makes its log, has the checker audit and predict, reads its gaps."""

from __future__ import annotations

import os
import tempfile
from dataclasses import dataclass, field
from typing import Any, Dict, List, Optional, Sequence, Set, Tuple

from . import answers, beside, checker, closer, deadlocks, gaps, making, racing, together
from .answers import Alarm, Audit, NotAnAnswer, Predictions
from .beside import Beside, Stale, Wait
from .gap import Scanned, Tier
from .known import Known
from .model import Place, Run
from .names import without_parameters
from .runs import Source, SourceKind
from .sites import Sites

STATES = {
    "changed": "was built again since the run",
    "gone": "is not there any more: was it moved?",
    "stripped": "has no names: it was stripped",
    "unhooked": "has code that was not compiled by velodrome-cc",
}
MOST_OBJECTS = 4
SETTINGS = (
    *("STRATEGY", "PERIOD", "DEPTH", "STEPS", "SEIZE_MS"),
    *("SITES", "VALUES", "MOST", "FORKS"),
)
LEAVES_OUT = (
    "accesses were recorded at some places in the code alone, by VELODROME_SITES"
    " (velodrome-record --whole: at all)"
)
WEAKENS = {
    "dropped": "variables or locks were too many to be looked at",
    "odd": "events do not fit together, and were left out",
    "late": "accesses are perhaps not in their order",
    "lost": "events came from signal handlers, and are missing",
    "hidden": "values were written by code that was not compiled by velodrome-cc",
}


@dataclass
class Asked:
    """What the call asks of each run."""

    programs: checker.Programs
    known: Optional[Known] = None
    # options of velodrome-log and of velodrome predict
    for_log: Sequence[str] = ()
    for_predict: Sequence[str] = ()


@dataclass
class Looked:
    """All that is known of one run."""

    run: Run
    source: Source
    log: Optional[str] = None
    beside: Beside = field(default_factory=Beside)
    audit: Optional[Audit] = None
    data_alarms: Tuple[Alarm, ...] = ()
    # alarms of what is left of the log around one lock or variable
    closer: List[Alarm] = field(default_factory=list)
    predictions: Optional[Predictions] = None
    scanned: Scanned = field(default_factory=Scanned)
    # the labels that do in pieces what belongs together, of those that only locks tell of
    together: Set[int] = field(default_factory=set)
    sites: Sites = field(default_factory=lambda: Sites(None, 0))
    waits: Tuple[Wait, ...] = ()
    stale: List[Tuple[Stale, Audit]] = field(default_factory=list)
    # values that can be written from an old one, with the alarm of a run in which they are
    racing: List[Tuple[racing.Gap, Alarm]] = field(default_factory=list)
    # the options of the checker that leave known things out
    leaving: Tuple[str, ...] = ()
    all_variables: bool = True
    # files to delete at the end
    folder: Optional[tempfile.TemporaryDirectory[str]] = None


def look(source: Source, asked: Asked) -> Looked:
    """Looks at a run. What goes wrong is a reason of the run, never an exception."""
    looked = Looked(_described(source), source)
    if source.reason:
        looked.run.reasons = (source.reason,)
        return looked
    try:
        if source.kind is SourceKind.ANSWER:
            _read_answer(looked)
        else:
            _look_at_log(looked, asked)
    except OSError as reason:
        words = f"{reason.filename or source.path}: {reason.strerror}"
        looked.run.reasons += (words,)
    except NotAnAnswer as unread:
        looked.run.reasons += (f"the checker's answer was not understood: {unread}",)
    looked.run.looked_at = not looked.run.reasons
    return looked


def _described(source: Source) -> Run:
    """The run as its description has it."""
    description = source.description
    command = description.get("command")
    return Run(
        name=source.name,
        trace=source.path if source.kind is SourceKind.TRACE else None,
        log=source.path if source.kind is SourceKind.LOG else None,
        folder=source.folder,
        command=tuple(str(word) for word in command) if isinstance(command, list) else (),
        seed=_number(description.get("seed")),
        mode=description.get("mode") if isinstance(description.get("mode"), str) else None,
        noise=_number(description.get("noise")),
        settings=_settings(description.get("environment")),
        ended=_ended(description),
    )


def _number(value: Any) -> Optional[int]:
    return value if isinstance(value, int) and not isinstance(value, bool) else None


def _settings(environment: Any) -> Dict[str, str]:
    """The settings of the recorder that no option of velodrome-record has."""
    given = environment if isinstance(environment, dict) else {}
    names = [f"VELODROME_{name}" for name in SETTINGS]
    return {name: str(given[name]) for name in names if given.get(name)}


def _ended(description: Dict[str, Any]) -> Optional[str]:
    for word in ("signal", "exit"):
        number = _number(description.get(word))
        if number is not None:
            return f"{word} {number}"
    return None


# ---- an answer of the checker


def _read_answer(looked: Looked) -> None:
    """An operand that is an answer of `audit` or `predict`."""
    with open(looked.source.path, encoding="utf-8", errors="replace") as opened:
        text = opened.read()
    try:
        kind = answers.kind(text)
    except NotAnAnswer as reason:
        looked.run.reasons = (f"it is {reason}",)
        return
    if kind == "audit":
        looked.audit = answers.audit(text)
    elif kind == "predictions":
        looked.predictions = answers.predictions(text)
        own = looked.predictions
        looked.audit = Audit(own.log, own.own_alarms, {}, 0)
    elif kind == "report":
        looked.run.reasons = ("it is an answer of velodrome-report: merge it by --merge",)
        return
    else:
        looked.run.reasons = (f"it is {kind}, and no answer of audit or predict",)
        return
    path = os.path.join(os.path.dirname(looked.source.path), looked.audit.log)
    log = next((one for one in (looked.audit.log, path) if os.path.isfile(one)), None)
    looked.beside = beside.read(log or looked.audit.log)
    if log is not None:
        looked.log = log
        _scan(looked, set())
    _count_calls(looked)


# ---- a trace or a log


def _look_at_log(looked: Looked, asked: Asked) -> None:
    if asked.programs.checker is None:
        looked.run.reasons = ("the checker was not found: put velodrome on the path",)
        return
    if looked.source.kind is SourceKind.TRACE:
        if not _make_log(looked, asked):
            return
    else:
        looked.log = looked.source.path
    assert looked.log is not None
    looked.run.log = looked.log
    looked.beside = beside.read(looked.log)
    if looked.source.kind is SourceKind.LOG:
        looked.all_variables = looked.beside.notes.all_variables
    looked.run.warnings += tuple(looked.beside.warnings)
    looked.waits = looked.beside.notes.waits or looked.waits
    if not deadlocks.circles(looked.waits, looked.beside.notes.circles):
        looked.run.warnings += tuple(deadlocks.unended(looked.waits))
    _judge_notes(looked)
    _ask(looked, asked)
    _count_calls(looked)
    _judge_what_was_seen(looked)


def _make_log(looked: Looked, asked: Asked) -> bool:
    """Makes the log of a trace; false if there is none."""
    made = making.make(asked.programs.log, looked.source.path, asked.for_log)
    run = looked.run
    run.reasons += made.reasons
    run.events, run.threads = made.events, made.threads
    run.warnings += _weakened(dict(made.counts))
    looked.log, looked.folder, looked.waits = made.log, made.folder, made.waits
    looked.all_variables = made.all_variables
    return made.log is not None


def _weakened(counts: Dict[str, int]) -> Tuple[str, ...]:
    return tuple(f"{counts[name]:,} {words}" for name, words in WEAKENS.items() if counts.get(name))


def _judge_notes(looked: Looked) -> None:
    """What the recorder notes of the run."""
    run, notes = looked.run, looked.beside.notes
    if notes.stopped:
        run.reasons = tuple(reason for reason in run.reasons if reason != making.STOPPED)
        run.reasons += (f"{making.STOPPED}: {notes.stopped}",)
    if notes.overwritten:
        run.reasons += (f"its trace was full: the first {notes.overwritten:,} records are missing",)
    if notes.cut and making.CUT not in run.reasons:
        run.reasons += (making.CUT,)
    for path, state, objects in notes.modules:
        some = f" ({', '.join(objects[:MOST_OBJECTS])})" if objects else ""
        run.reasons += (f"{path} {STATES.get(state, state)}{some}",)
    run.warnings += tuple(words for words in _weakened(notes.counts) if words not in run.warnings)
    if "VELODROME_SITES" in run.settings:
        run.warnings += (LEAVES_OUT,)
    if notes.loops:
        run.warnings += (_loops(notes.loops),)


def _loops(loops: Sequence[Tuple[str, Optional[Place]]]) -> str:
    """The routines of threads that were no block, and how to make them one."""
    told = [
        without_parameters(function) + (f" ({place})" if place else "") for function, place in loops
    ]
    if len(told) == 1:
        what = f"{told[0]}, the routine of a thread, loops, and so was no block"
    else:
        what = f"{', '.join(told)}, routines of threads, loop, and so were no blocks"
    return f"{what}: put what must not be interrupted into a function of its own"


def _ask(looked: Looked, asked: Asked) -> None:
    """Has the checker audit the log, without locks too, and look for other runs."""
    assert looked.log is not None and asked.programs.checker is not None
    names, sites = looked.beside.names, looked.beside.sites
    program, log = asked.programs.checker, looked.log
    if asked.known is not None:
        looked.leaving = ("--ignore", asked.known.for_log(looked.beside.labels))
    leaving = looked.leaving
    done = checker.asked(program, "audit", log, names, sites, leaving)
    if done.why is not None:
        looked.run.reasons += (f"the checker refused the log: {done.why}",)
        _scan(looked, set())
        return
    looked.audit = answers.audit(done.out)
    if looked.audit.alarms:
        done = checker.asked(program, "audit", log, names, sites, ("--ignore-locks", *leaving))
        if done.why is None:
            looked.data_alarms = answers.audit(done.out).alarms
    done = checker.asked(program, "predict", log, names, sites, (*asked.for_predict, *leaving))
    if done.why is not None:
        looked.run.warnings += (f"other schedules were not looked at: {done.why}",)
    else:
        looked.predictions = answers.predictions(done.out)
    _scan(looked, _found_labels(looked))
    closer.look(looked.closer, looked.scanned, program, log, names, looked.sites, _left_out(looked))
    by_locks = _told_by_locks(looked)
    if by_locks:
        looked.together = together.scan(log, looked.sites, by_locks, looked.scanned.counters)
    for one in looked.beside.notes.stale:
        _ask_about_stale(looked, program, one)
    for gap in racing.scan(log, looked.beside.notes.racing, looked.sites):
        alarm = racing.alarm(gap, program, log, names, looked.sites, _left_out(looked))
        if alarm is not None:
            looked.racing.append((gap, alarm))


def _ask_about_stale(looked: Looked, program: str, one: Stale) -> None:
    """The small log of a stale write: the checker says whether its two holds are one piece."""
    small = beside.read(one.log)
    done = checker.asked(program, "audit", one.log, small.names, small.sites)
    if done.why is not None:
        looked.run.warnings += (f"{one.log}: {done.why}",)
        return
    audit = answers.audit(done.out)
    if audit.alarms:
        looked.stale.append((one, audit))


def _found_labels(looked: Looked) -> Set[int]:
    """The labels of the log that are not atomic, in it or in another run."""
    found: Set[int] = set()
    alarms = list(looked.audit.alarms) if looked.audit else []
    alarms += looked.predictions.alarms if looked.predictions else ()
    for alarm in alarms:
        found.update(block.label.number for block in alarm.blocks)
    return found


def _told_by_locks(looked: Looked) -> Set[int]:
    """The labels that are not atomic and have no gap that is more telling than that of a lock."""
    return {
        label
        for label, gaps_of in looked.scanned.gaps.items()
        if all(
            gap.tier is Tier.LOCK for gap in (*gaps_of.seen.values(), *gaps_of.possible.values())
        )
    }


def _scan(looked: Looked, wanted: Set[int]) -> None:
    """Reads the log itself: calls, threads, gaps."""
    assert looked.log is not None
    wanted = wanted or _found_labels(looked)
    looked.sites = Sites(looked.beside.sites, gaps.MOST_EVENTS)
    left_out = _left_out(looked)
    notes = looked.beside.notes
    looked.scanned = gaps.scan(looked.log, looked.sites, wanted, left_out, notes.atomic)
    run = looked.run
    run.events = run.events or looked.scanned.events
    run.threads = run.threads or looked.scanned.threads


def _left_out(looked: Looked) -> Set[int]:
    """The labels whose blocks are left out, as the checker read the list of what is known."""
    return set() if looked.audit is None else set(looked.audit.left_out)


def left_out(looked: Looked) -> List[str]:
    """The names of the functions of a run that are known and were left out."""
    described, labels = looked.beside.functions, looked.beside.labels
    names = {**labels, **{label: one.name for label, one in described.items()}}
    return [names[label] for label in sorted(_left_out(looked)) if label in names]


def _count_calls(looked: Looked) -> None:
    """How often each function was called, as far as it was looked at."""
    left_out = _left_out(looked)
    labels = looked.beside.labels
    described = looked.beside.functions
    calls: Dict[str, int] = {}
    if described and looked.source.kind is SourceKind.TRACE:
        counted = {label: one.calls for label, one in described.items()}
    else:
        counted = looked.scanned.calls
    if not counted and looked.audit is not None:
        counted = {label: blocks for label, (blocks, _) in looked.audit.counts.items()}
    for label, times in counted.items():
        if label in left_out:
            continue
        name = described[label].name if label in described else labels.get(label)
        name = name if name is not None else f"block {label}"
        calls[name] = calls.get(name, 0) + times
    looked.run.calls = calls


def _judge_what_was_seen(looked: Looked) -> None:
    """Why nothing can be said although the checker judged the log."""
    run, labels = looked.run, looked.beside.labels
    if run.reasons:
        return
    scanned = looked.scanned
    unnamed = [label for label in scanned.calls if label not in labels]
    if labels and unnamed:
        run.reasons += (f"{looked.beside.names} is of another log: it lacks a name",)
    elif not run.calls and not looked.stale and not looked.racing:
        run.reasons += (_no_function(looked),)
    elif run.threads == 1 and not looked.stale:
        run.reasons += ("only one thread ran, so nothing could be interrupted",)


def _no_function(looked: Looked) -> str:
    """Why no function of a run is known."""
    routines = sorted({name for name in looked.beside.threads.values()})
    if looked.beside.notes.loops:
        return "no function was called but routines of threads, which loop"
    if routines:
        return (
            f"no function was called but the routine of a thread, {routines[0]}, which is no block:"
            " put what must not be interrupted into a function of its own"
        )
    return "no function of it is known: was the program moved, stripped or built again?"
