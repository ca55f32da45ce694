"""Deadlocks: those that happened, by the notes of the recorder, and those that can happen."""

from __future__ import annotations

import hashlib
import re
from dataclasses import dataclass, replace
from typing import Dict, FrozenSet, List, Optional, Sequence, Tuple

from .answers import Waiting, site
from .beside import Held, Wait
from .model import Action, Event, Place, Target, TargetKind, Thread, Witness
from .sites import Sites

# what velodrome-log prints of a run that ended in a deadlock, a line for each thread
WAITS = re.compile(
    r"  thread (\d+)(?: (.*?))? waits for (?:the end of thread (\d+)|the ([a-z -]+?) (\S.*?))"
    r"(?:, held by thread (\d+).*?)?   (\S+)$"
)


# what a thread waits for that waits for the end of another one
THREAD = "thread"
# what threads hold, and so can wait for each other for
HELD = ("mutex", "reader-writer lock", "spin lock")


@dataclass(frozen=True)
class Circle:
    """Threads that wait for one another: each with what it holds and what it waits for."""

    waits: Tuple[Wait, ...]


def printed(text: str) -> Tuple[Wait, ...]:
    """The waits that `velodrome-log` prints after the line `deadlock`; none without it."""
    lines = text.splitlines()
    if "deadlock" not in lines:
        return ()
    found: List[Wait] = []
    for line in lines[lines.index("deadlock") + 1 :]:
        words = WAITS.match(line)
        if words is None:
            break
        at, function = site(words[7])
        held_by = words[6] or words[3]
        found.append(
            Wait(
                thread=int(words[1]),
                what=words[4] or THREAD,
                name=words[5] or f"thread {words[3]}",
                at=at,
                function=function,
                held_by=None if held_by is None else int(held_by),
            )
        )
    return tuple(found)


def circles(waits: Sequence[Wait], known: Sequence[Sequence[int]]) -> List[Circle]:
    """The threads that wait for one another: those that are known to, or else one circle.

    What a thread of a circle holds is also known of who waits for it.
    """
    by_thread = {wait.thread: wait for wait in waits}
    found = list(known) or [_followed(by_thread)]
    made = [[by_thread[number] for number in one if number in by_thread] for one in found]
    return [
        Circle(tuple(_with_hold(wait, members) for wait in members))
        for members in made
        if len(members) > 1
    ]


def _followed(by_thread: Dict[int, Wait]) -> List[int]:
    """The threads of a circle, by who holds what is waited for; none if there is no circle."""
    for start in sorted(by_thread):
        path: List[int] = []
        thread: Optional[int] = start
        while thread is not None and thread in by_thread and thread not in path:
            path.append(thread)
            thread = by_thread[thread].held_by
        if thread is not None and thread in path:
            return path[path.index(thread) :]
    return []


def unended(waits: Sequence[Wait]) -> List[str]:
    """The waits for locks that had not ended, in words, where nobody waits in a circle."""
    told = []
    for wait in waits:
        if wait.what in HELD and not wait.ends:
            holder = "" if wait.held_by is None else f", held by thread {wait.held_by}"
            where = f" at {wait.at}" if wait.at else ""
            told.append(f"at its end thread {wait.thread} waited{where} for {wait.name}{holder}")
    return told


def _with_hold(wait: Wait, members: Sequence[Wait]) -> Wait:
    """The wait with the lock of it that another one of the circle waits for, if it is not there."""
    names = {held.name for held in wait.holds}
    wanted = [other for other in members if other.held_by == wait.thread]
    missing = tuple(
        Held(other.name, None, None)
        for other in wanted
        if other.name not in names and other.what != THREAD
    )
    holds = tuple(held for held in wait.holds if held.name in {other.name for other in wanted})
    return replace(wait, holds=holds + missing)


def predicted(
    log: str, sites: Sites, waiting: Tuple[Waiting, ...], tried: FrozenSet[int]
) -> Optional[Circle]:
    """A predicted circle: each waits for the next one, and the last for the first.

    Where a thread took what it holds is looked up in the log: there it asked for the lock that it
    waits for while it held the other one. None if it only tried to take it, by one of the acquires
    at the positions `tried`: then it would not have waited.
    """
    count = len(waiting)
    waits: List[Wait] = []
    for index, one in enumerate(waiting):
        held = waiting[index - 1].target
        found = _taken(log, one, held) if held.kind is TargetKind.LOCK else None
        if found is not None and found[1] in tried:
            return None
        at, function = (None, None) if found is None else sites.at(found[0])
        holds = (Held(str(held), at, function),) if held.kind is TargetKind.LOCK else ()
        waits.append(
            Wait(
                thread=one.thread.number,
                what=one.target.kind.value,
                name=str(one.target),
                at=one.at,
                function=one.function,
                held_by=waiting[(index + 1) % count].thread.number,
                holds=holds,
            )
        )
    return Circle(tuple(waits))


def _taken(log: str, one: Waiting, held: Target) -> Optional[Tuple[int, int]]:
    """The positions where the thread took what it holds, and asked for what it waits for."""
    thread = str(one.thread.number)
    taken: Optional[int] = None
    try:
        with open(log, encoding="ascii", errors="replace") as opened:
            opened.readline()
            for position, line in enumerate(opened):
                words = line.split()
                if len(words) < 3 or words[0] != thread:
                    continue
                if words[2] == str(held.number):
                    if words[1] in ("acq", "acqs"):
                        taken = position
                    elif words[1] in ("rel", "rels"):
                        taken = None
                if words[2] == str(one.target.number) and taken is not None:
                    if words[1] in ("acq", "acqs", "join") and words[2] != str(held.number):
                        return taken, position
    except OSError:
        pass
    return None


def identity(found: Circle) -> str:
    """What is the same of this deadlock in each recording of the program."""
    parts = sorted(_said(wait) for wait in found.waits)
    return hashlib.sha1("\n".join(["deadlock", *parts]).encode()).hexdigest()[:12]


def _said(wait: Wait) -> str:
    """What a thread waits for: by its function, and by the lock's name if it has one."""
    file = wait.at.file if wait.at else "?"
    name = re.sub(r"0x[0-9a-f]+|[+\[]\d+\]?", "", wait.name)
    return f"{wait.function or file} {wait.what} {name}"


def witness(run: str, found: Circle, names: Dict[int, str], happened: bool) -> Witness:
    """The circle as events: of each thread what it holds, then what it waits for."""
    events: List[Event] = []
    waits: Dict[int, int] = {}
    holds: Dict[Tuple[int, str], int] = {}
    for wait in found.waits:
        thread = Thread(wait.thread, names.get(wait.thread))
        for held in wait.holds:
            holds[(wait.thread, held.name)] = len(events)
            target = Target(TargetKind.LOCK, None, held.name)
            events.append(_event(thread, Action.HOLDS, target, len(events), held.at))
        waits[wait.thread] = len(events)
        kind = TargetKind.THREAD if wait.what == THREAD else TargetKind.LOCK
        target = Target(kind, None, wait.name)
        events.append(_event(thread, Action.WAITS, target, len(events), wait.at))
    edges = [
        (waits[wait.thread], holds[(wait.held_by, wait.name)])
        for wait in found.waits
        if wait.held_by is not None and (wait.held_by, wait.name) in holds
    ]
    return Witness(run, not happened, tuple(events), tuple(edges))


def _event(
    thread: Thread, action: Action, target: Target, position: int, at: Optional[Place]
) -> Event:
    return Event(thread, action, target, position, place=at, at=at)
