"""What both sides of an edge by a lock touch under this lock, read off the log of the run.

Two transactions that collide at a lock mostly collide at what it guards, too: the variables say
what the lock is about. Of each variable that one of them writes two accesses are told, one on
each side, of which the first one comes before the second one in the log.
"""

from __future__ import annotations

from dataclasses import dataclass, field, replace
from typing import Dict, Iterable, List, Optional, Sequence, Set, Tuple

from .gaps import MOST_EVENTS
from .judge import Looked
from .model import Action, Event, Finding, Kind, Target, TargetKind, Thread, Touched, Witness

# of one edge so many variables are told
MOST_TOLD = 8
TAKES, GIVES = ("acq", "acqs"), ("rel", "rels")

# a thread and a lock that it takes, by their numbers
Holder = Tuple[int, int]


@dataclass(frozen=True)
class _Side:
    """One side of an edge: who does it, and from where to where its transaction goes."""

    thread: Thread
    lock: int
    first: int
    last: int
    # the event of the edge
    at: int

    @property
    def holder(self) -> Holder:
        return self.thread.number, self.lock


@dataclass
class _Access:
    """An access under a hold of a lock, which began at the position `since`."""

    position: int
    variable: int
    writes: bool
    since: int


@dataclass
class _Held:
    """The holds of a lock by a thread: where each began, and the accesses under them."""

    begins: List[int] = field(default_factory=list)
    accesses: List[_Access] = field(default_factory=list)
    # where the hold began that is open, -1 if there is none
    since: int = -1


def added(findings: Sequence[Finding], every: Iterable[Looked]) -> List[Finding]:
    """The findings, their witnesses with what is touched. A log that cannot be read adds none."""
    logs = {looked.run.name: looked for looked in every if looked.log is not None}
    wanted: Dict[str, List[_Side]] = {}
    for one in findings:
        if one.kind is Kind.NOT_ATOMIC and one.witness.run in logs:
            sides = [side for _, *pair in _edges(one.witness) for side in pair]
            wanted.setdefault(one.witness.run, []).extend(sides)
    held = {run: _read(logs[run], sides) for run, sides in wanted.items() if sides}
    return [
        replace(one, witness=_with(one.witness, logs[one.witness.run], held[one.witness.run]))
        if one.kind is Kind.NOT_ATOMIC and one.witness.run in held
        else one
        for one in findings
    ]


def _edges(witness: Witness) -> List[Tuple[int, _Side, _Side]]:
    """The edges by locks of a witness that is one of its log, each with its two sides."""
    many = len(witness.transactions)
    if witness.predicted or many != len(witness.edges):
        return []
    found: List[Tuple[int, _Side, _Side]] = []
    for edge, (start, end) in enumerate(witness.edges):
        before, after = witness.events[start], witness.events[end]
        lock = before.target.number
        if before.target.kind is TargetKind.LOCK and lock is not None:
            spans = (witness.transactions[edge], witness.transactions[(edge + 1) % many])
            one, other = (
                _Side(event.thread, lock, span.first, span.last, event.position)
                for event, span in zip((before, after), spans)
            )
            found.append((edge, one, other))
    return found


def _read(looked: Looked, sides: Sequence[_Side]) -> Dict[Holder, _Held]:
    """One pass over the log, up to the end of the last hold that is wanted."""
    held = {side.holder: _Held() for side in sides}
    threads: Set[str] = {str(side.thread.number) for side in sides}
    first = min(side.first for side in sides)
    last = min(max(max(side.last, side.at) for side in sides), MOST_EVENTS)
    assert looked.log is not None
    try:
        with open(looked.log, encoding="ascii", errors="replace") as opened:
            opened.readline()
            for position, line in enumerate(opened):
                if position > last and all(one.since < 0 for one in held.values()):
                    break
                words = line.split()
                if words and words[0] in threads:
                    _event(held, position, words, position >= first)
    except (OSError, ValueError, IndexError):
        return {}
    return held


def _event(held: Dict[Holder, _Held], position: int, words: List[str], noted: bool) -> None:
    thread, word = int(words[0]), words[1]
    if word in ("rd", "wr"):
        if noted:
            for (number, _), one in held.items():
                if number == thread and one.since >= 0:
                    access = _Access(position, int(words[2]), word == "wr", one.since)
                    one.accesses.append(access)
    elif word in TAKES or word in GIVES:
        mine = held.get((thread, int(words[2])))
        if mine is not None:
            mine.since = position if word in TAKES else -1
            mine.begins += [position] if word in TAKES else []


def _with(witness: Witness, looked: Looked, held: Dict[Holder, _Held]) -> Witness:
    told: List[Touched] = []
    for edge, before, after in _edges(witness):
        if before.holder in held and after.holder in held:
            pairs = _pairs(_of(before, held[before.holder]), _of(after, held[after.holder]))
            told += [
                Touched(edge, _told(before, one, looked), _told(after, other, looked))
                for one, other in pairs[:MOST_TOLD]
            ]
    return replace(witness, touched=tuple(told))


def _of(side: _Side, held: _Held) -> List[_Access]:
    """The accesses of a side: those of its transaction, and of the whole hold of its event."""
    hold = max((begin for begin in held.begins if begin <= side.at), default=-1)
    return [
        access
        for access in held.accesses
        if access.since == hold or side.first <= access.position <= side.last
    ]


def _pairs(before: List[_Access], after: List[_Access]) -> List[Tuple[_Access, _Access]]:
    """For each variable the first access that collides with an earlier one of the other side."""
    found: Dict[int, Tuple[_Access, _Access]] = {}
    for other in after:
        if other.variable not in found:
            one = _latest(before, other)
            if one is not None:
                found[other.variable] = (one, other)
    return list(found.values())


def _latest(before: List[_Access], other: _Access) -> Optional[_Access]:
    for one in reversed(before):
        same = one.variable == other.variable and one.position < other.position
        if same and (one.writes or other.writes):
            return one
    return None


def _told(side: _Side, access: _Access, looked: Looked) -> Event:
    name = looked.beside.variables.get(access.variable)
    target = Target(TargetKind.VARIABLE, access.variable, name)
    action = Action.WRITES if access.writes else Action.READS
    at, _ = looked.sites.at(access.position)
    return Event(side.thread, action, target, access.position, at, at=at)
