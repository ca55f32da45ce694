"""Variables that belong together: what a function does to them in pieces another thread sees whole.

A function that takes a lock twice is no mistake by that alone, nor are two counts that are each
changed at once. It is one where a thread that holds the lock once, between both holds, would
meet the one variable changed and the other one not. That is read off the holds of a log, whether
or not they came in between in this run. To hold some lock, whichever it is, counts as a lock, too:
so two variables may have a lock each, and who takes both as a whole takes both locks.
"""

from __future__ import annotations

from typing import Dict, FrozenSet, Iterable, List, NamedTuple, Set, Tuple

from .gaps import MOST_EVENTS
from .sites import Sites

# of one lock so many holds that differ are kept, and of one function and lock so many pairs
MOST_HOLDS = 256
MOST_PAIRS = 256
# a hold that touches more is about more than one thing
MOST_TOUCHED = 64
TAKES, GIVES = ("acq", "acqs"), ("rel", "rels")
# it is held while any lock is
SOME_LOCK = -1

# where a hold is in a block; equal in two passes of a loop
Line = Tuple[str, int]


class Hold(NamedTuple):
    """What is read and what is written while a lock is held."""

    reads: FrozenSet[int]
    writes: FrozenSet[int]

    def all(self) -> FrozenSet[int]:
        """What is touched."""
        return self.reads | self.writes

    def collides(self, other: Hold) -> FrozenSet[int]:
        """What both touch and one of them writes."""
        return (self.writes & other.all()) | (other.writes & self.reads)


class _Open:
    """A hold from its acquire on: where that is, and where the lock was last given back."""

    __slots__ = ("since", "site", "given_at", "reads", "writes")

    def __init__(self, since: int, site: int) -> None:
        self.since = since
        self.site = site
        self.given_at = 0
        self.reads: Set[int] = set()
        self.writes: Set[int] = set()

    def touched(self) -> int:
        """How many variables are read, and how many are written."""
        return len(self.reads) + len(self.writes)


class _Block:
    """An open block: where it began, and of each lock its holds up to now, with their lines."""

    __slots__ = ("label", "begin", "site", "holds")

    def __init__(self, label: int, begin: int, site: int) -> None:
        self.label = label
        self.begin = begin
        self.site = site
        self.holds: Dict[int, Dict[Tuple[Line, Hold], None]] = {}


class _Thread:
    """What a thread has open and holds."""

    __slots__ = ("number", "blocks", "holds", "given")

    def __init__(self, number: int) -> None:
        self.number = number
        self.blocks: List[_Block] = []
        self.holds: Dict[int, _Open] = {}
        # of each lock the hold that was given back last
        self.given: Dict[int, _Open] = {}


class _Scan:
    """Reads a log once, event by event."""

    def __init__(self, wanted: Set[int]) -> None:
        self._wanted = wanted
        self._threads: Dict[int, _Thread] = {}
        # of each lock its holds, each with the threads that had it
        self._holds: Dict[int, Dict[Hold, Set[int]]] = {}
        # of each function and lock two holds of one call, and its thread
        self._pairs: Dict[Tuple[int, int], Set[Tuple[int, Hold, Hold]]] = {}

    def event(self, position: int, words: List[str], site: int) -> None:
        """The next event, by the words of its line."""
        number = int(words[0])
        thread = self._threads.get(number)
        if thread is None:
            thread = self._threads[number] = _Thread(number)
        word = words[1]
        if word == "rd":
            for hold in thread.holds.values():
                hold.reads.add(int(words[2]))
        elif word == "wr":
            for hold in thread.holds.values():
                hold.writes.add(int(words[2]))
        elif word == "begin":
            thread.blocks.append(_Block(int(words[2]), position, site))
        elif word == "end" and thread.blocks:
            thread.blocks.pop()
        elif word in TAKES:
            if not thread.holds:
                _take(thread, SOME_LOCK, position, site)
            _take(thread, int(words[2]), position, site)
        elif word in GIVES:
            self._give(thread, int(words[2]), site)
            if thread.holds.keys() == {SOME_LOCK}:
                self._give(thread, SOME_LOCK, site)

    def _give(self, thread: _Thread, lock: int, site: int) -> None:
        taken = thread.holds.pop(lock, None)
        if taken is None or taken.touched() > MOST_TOUCHED:
            return
        taken.given_at = site
        thread.given[lock] = taken
        hold = Hold(frozenset(taken.reads), frozenset(taken.writes))
        known = self._holds.setdefault(lock, {})
        if hold in known or len(known) < MOST_HOLDS:
            known.setdefault(hold, set()).add(thread.number)
        for place, block in enumerate(thread.blocks):
            if block.label in self._wanted and block.begin < taken.since:
                self._pair(thread, block, lock, _line(thread, place, taken), hold)

    def _pair(self, thread: _Thread, block: _Block, lock: int, line: Line, hold: Hold) -> None:
        """Notes a hold of a block with those of other lines before it."""
        earlier = block.holds.setdefault(lock, {})
        pairs = self._pairs.setdefault((block.label, lock), set())
        for other_line, other in earlier:
            if other_line != line and len(pairs) < MOST_PAIRS:
                pairs.add((thread.number, other, hold))
        if len(earlier) < MOST_HOLDS:
            earlier[line, hold] = None

    def found(self, counters: FrozenSet[int]) -> Set[int]:
        """The functions that take in pieces what another thread takes as a whole."""
        return {
            label
            for (label, lock), pairs in self._pairs.items()
            if any(self._comes_between(lock, counters, *pair) for pair in pairs)
        }

    def _comes_between(
        self, lock: int, counters: FrozenSet[int], number: int, first: Hold, second: Hold
    ) -> bool:
        return any(
            threads != {number} and belong(first, hold, second, counters)
            for hold, threads in self._holds[lock].items()
        )


def _take(thread: _Thread, lock: int, position: int, site: int) -> None:
    """A hold begins, or goes on behind a wait: the call that gave the lock back took it again."""
    before = thread.given.get(lock)
    waited = before is not None and site and before.given_at == site
    thread.holds[lock] = before if before is not None and waited else _Open(position, site)


def _line(thread: _Thread, place: int, taken: _Open) -> Line:
    """Where a hold is in a block: the line of the call that has it, or its own."""
    inner = [block for block in thread.blocks[place + 1 :] if block.begin < taken.since]
    if not inner:
        return ("line", taken.site or -taken.since)
    return ("call", inner[0].site) if inner[0].site else ("callee", inner[0].label)


def belong(first: Hold, between: Hold, second: Hold, counters: FrozenSet[int]) -> bool:
    """Whether a hold collides with both of two others at what belongs together.

    That is at two variables of which each of both holds touches only one, or at one that is more
    than a count.
    """
    before, after = first.collides(between), between.collides(second)
    if (before & after) - counters:
        return True
    return bool(before - second.all()) and bool(after - first.all())


def scan(log: str, sites: Sites, wanted: Iterable[int], counters: FrozenSet[int]) -> Set[int]:
    """Of the wanted labels those that do in pieces what belongs together.

    `counters` are the variables that are only changed at once. Raises `OSError` where the log
    cannot be read.
    """
    state, numbers = _Scan(set(wanted)), sites.numbers
    known = len(numbers)
    with open(log, encoding="ascii", errors="replace") as opened:
        opened.readline()
        for position, line in zip(range(MOST_EVENTS), opened):
            try:
                site = numbers[position] if position < known else 0
                state.event(position, line.split(), site)
            except (ValueError, IndexError):
                continue
    return state.found(counters)
