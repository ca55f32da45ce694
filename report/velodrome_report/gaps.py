"""Where the blocks of a log give way: for each function that is not atomic, its gaps.

A gap of a block is two events of its own on one variable or one lock with an event of another
thread in between that conflicts with both: three events that by themselves make the block not
atomic. They are read off the log for the order of the list, and to know what to ask the checker
about: what is told of a finding is the checker's own witness.

A possible gap is one into which nobody came in this run: a variable that is used under one hold
of a lock and again under a later hold of it.
"""

from __future__ import annotations

from bisect import bisect_left, bisect_right
from dataclasses import replace
from typing import Dict, List, Optional, Sequence, Set, Tuple

from .gap import BEST, Gap, Gaps, Scanned, Tier
from .sites import Sites

# A longer log is not read for the order of the list.
MOST_EVENTS = 4_000_000
# of a thread's events on one variable so many are kept, the first and the latest ones
MOST_KEPT = 128
# so often a possible gap of one function and one variable is looked at
MOST_POSSIBLE = 32


# the gaps of one function, by whether the target is a lock and its number
_Found = Dict[Tuple[bool, int], Gap]


class _Block:
    """An open block."""

    __slots__ = ("label", "begin", "site", "parent", "wanted")

    def __init__(
        self, label: int, begin: int, site: int, parent: Optional[_Block], wanted: bool
    ) -> None:
        self.label = label
        self.begin = begin
        self.site = site
        self.parent = parent
        self.wanted = wanted


class _Own:
    """An event of a thread inside its blocks: in which block, under which holds."""

    __slots__ = ("position", "is_write", "site", "block", "holds", "whole", "polled")

    def __init__(
        self, position: int, is_write: bool, site: int, block: _Block, holds: Dict[int, int]
    ) -> None:
        self.position = position
        self.is_write = is_write
        self.site = site
        self.block = block
        # of each lock that is held the position of its acquire
        self.holds = holds
        # whether it is part of a change at once: a read that is written back, or that write
        self.whole = False
        # whether it is a read that repeats the one before it: something is waited for
        self.polled = False

    def only_reads(self) -> bool:
        """Whether what it reads is not written back."""
        return not (self.is_write or self.whole)


class _Owns:
    """A thread's events on one target, in their order, since it had no block open."""

    __slots__ = ("positions", "events")

    def __init__(self) -> None:
        self.positions: List[int] = []
        self.events: List[_Own] = []

    def add(self, own: _Own) -> None:
        if len(self.events) == MOST_KEPT:
            middle = MOST_KEPT // 2
            del self.events[middle], self.positions[middle]
        self.events.append(own)
        self.positions.append(own.position)

    def between(self, low: int, high: int) -> List[_Own]:
        """The first and the latest event behind `low` and before `high`."""
        first = bisect_right(self.positions, low)
        end = bisect_left(self.positions, high)
        if first >= end:
            return []
        if end - first == 1:
            return [self.events[first]]
        return [self.events[end - 1], self.events[first]]

    def changed(self, since: int) -> None:
        """What was read from the position `since` on is changed now."""
        for own in reversed(self.events):
            if own.position < since:
                break
            own.whole = own.whole or not own.is_write

    def last_is_read_at(self, site: int) -> bool:
        """Whether the latest event is a read at this site."""
        return bool(self.events) and not self.events[-1].is_write and self.events[-1].site == site

    def last_read(self) -> int:
        """The position of the latest read, -1 if there is none."""
        for own in reversed(self.events):
            if not own.is_write:
                return own.position
        return -1


class _Others:
    """The latest event of each target, and the latest of another thread than that one's."""

    __slots__ = ("latest", "other")

    def __init__(self) -> None:
        self.latest: Dict[int, Tuple[int, int]] = {}
        self.other: Dict[int, int] = {}

    def put(self, target: int, position: int, thread: int) -> None:
        latest = self.latest.get(target)
        if latest is not None and latest[1] != thread:
            self.other[target] = latest[0]
        self.latest[target] = (position, thread)

    def of(self, target: int, thread: int) -> int:
        """The latest event of another thread than this one, -1 if there is none."""
        latest = self.latest.get(target)
        if latest is None:
            return -1
        return latest[0] if latest[1] != thread else self.other.get(target, -1)


class _Thread:
    """What a thread has open and holds."""

    __slots__ = (
        "number",
        "stack",
        "top",
        "wanted",
        "holds",
        "released",
        "waits",
        "owns",
        "last",
        "first",
        "reads",
        "undecided",
    )

    def __init__(self, number: int) -> None:
        self.number = number
        # None for a block that is left out
        self.stack: List[Optional[_Block]] = []
        self.top: Optional[_Block] = None
        # how many open blocks are wanted
        self.wanted = 0
        self.holds: Dict[int, int] = {}
        # of each lock the position and the site of its latest release
        self.released: Dict[int, Tuple[int, int]] = {}
        # from a release to the acquire by the same call: a wait
        self.waits: List[Tuple[int, int]] = []
        # of each target, by whether it is a lock and its number
        self.owns: Dict[Tuple[bool, int], _Owns] = {}
        # the latest event if it is a read: its variable, its site and its position
        self.last: Tuple[int, int, int] = (-1, -1, -1)
        # the position of the first one of its row of reads of this variable
        self.first = -1
        # of each variable the position of the latest read
        self.reads: Dict[int, int] = {}
        # gaps that end at a read of which it is not known yet whether it is changed at once
        self.undecided: List[_Undecided] = []

    def add(self, target: Tuple[bool, int], own: _Own) -> None:
        owns = self.owns.get(target)
        if owns is None:
            owns = self.owns[target] = _Owns()
        owns.add(own)


class _Undecided:
    """A gap that ends at a read: what it is depends on what the thread does next."""

    __slots__ = ("gaps", "gap", "kept", "own")

    def __init__(self, gaps: "_Found", gap: Gap, kept: _Own, own: _Own) -> None:
        self.gaps = gaps
        self.gap = gap
        self.kept = kept
        self.own = own


class Scan:
    """Reads a log once, event by event."""

    def __init__(self, wanted: Set[int], left_out: Set[int], atomic: Optional[Sequence[int]]):
        self.found = Scanned(gaps={label: Gaps() for label in wanted})
        self._left_out = left_out
        self._threads: Dict[int, _Thread] = {}
        self._reads, self._writes = _Others(), _Others()
        self._acquires, self._alone = _Others(), _Others()
        # the only thread that used a variable, -1 if there are two
        self._owner: Dict[int, int] = {}
        # the only thread that called a function, -1 if there are two
        self._caller: Dict[int, int] = {}
        # the only thread that wrote a variable, -1 if there are two
        self._writer: Dict[int, int] = {}
        self._written: Set[int] = set()
        self._again: Set[int] = set()
        self._changed: Set[int] = set()
        self._plainly: Set[int] = set()
        self._atomic = frozenset(atomic or ())
        self._possible: Dict[Tuple[int, int], int] = {}

    def ended(self) -> Scanned:
        """What was found."""
        for thread in self._threads.values():
            self._decide(thread)
        self.found.threads = len(self._threads)
        shared = {variable for variable, owner in self._owner.items() if owner < 0}
        counters = (self._changed - self._plainly) | self._atomic
        self.found.counters = frozenset(counters & shared)
        self.found.once = frozenset(self._written - self._again)
        for label, gaps in self.found.gaps.items():
            gaps.possible = {
                key: gap for key, gap in gaps.possible.items() if self._can_come(label, gap)
            }
        return self.found

    def _can_come(self, label: int, gap: Gap) -> bool:
        """Whether some other thread than that of a possible gap may write its variable.

        It writes it, or uses it and calls the same function, which writes it another time.
        """
        if self._writer.get(gap.number, -1) < 0:
            return True
        return self._owner.get(gap.number, -1) < 0 and self._caller.get(label, -1) < 0

    def event(self, position: int, words: List[str], site: int) -> None:
        """The next event of the log, by the words of its line."""
        number = int(words[0])
        thread = self._threads.get(number)
        if thread is None:
            thread = self._threads[number] = _Thread(number)
        word = words[1]
        if word == "rd":
            self._read(position, thread, int(words[2]), site)
            return
        if word == "wr":
            self._write(position, thread, int(words[2]), site)
        elif word == "begin":
            self._begin(position, thread, int(words[2]), site)
        elif word == "end":
            self._end(thread)
        elif word in ("acq", "acqs"):
            self._acquire(position, thread, int(words[2]), site, word == "acq")
        elif word in ("rel", "rels"):
            self._release(position, thread, int(words[2]), site, word == "rel")
        thread.last = (-1, -1, -1)
        if thread.undecided:
            self._decide(thread, min(thread.holds.values(), default=position + 1))

    def _begin(self, position: int, thread: _Thread, label: int, site: int) -> None:
        if label in self._left_out:
            thread.stack.append(None)
            return
        self.found.calls[label] = self.found.calls.get(label, 0) + 1
        if self._caller.setdefault(label, thread.number) != thread.number:
            self._caller[label] = -1
        block = _Block(label, position, site, thread.top, label in self.found.gaps)
        thread.stack.append(block)
        thread.top = block
        thread.wanted += block.wanted

    def _end(self, thread: _Thread) -> None:
        block = thread.stack.pop() if thread.stack else None
        if block is None:
            return
        thread.top = block.parent
        thread.wanted -= block.wanted
        if not thread.wanted:
            thread.waits.clear()
            thread.owns.clear()

    def _use(self, variable: int, number: int) -> None:
        if self._owner.setdefault(variable, number) != number:
            self._owner[variable] = -1

    def _read(self, position: int, thread: _Thread, variable: int, site: int) -> None:
        number = thread.number
        self._use(variable, number)
        if thread.last[0] != variable:
            thread.first = position
            if thread.undecided and not thread.holds:
                self._decide(thread)
        if thread.wanted and thread.top is not None:
            own = _Own(position, False, site, thread.top, thread.holds)
            owns = thread.owns.get((False, variable))
            if owns is not None:
                own.polled = owns.last_is_read_at(site)
                between = self._writes.of(variable, number)
                self._told(thread, (False, variable), between, own, Tier.SEEN_TWICE)
                self._could(thread, variable, owns, own)
            thread.add((False, variable), own)
        self._reads.put(variable, position, number)
        thread.last = (variable, site, position)
        thread.reads[variable] = position

    def _write(self, position: int, thread: _Thread, variable: int, site: int) -> None:
        number = thread.number
        self._use(variable, number)
        if self._writer.setdefault(variable, number) != number:
            self._writer[variable] = -1
        (self._again if variable in self._written else self._written).add(variable)
        written = self._writes.of(variable, number)
        since = _changes_since(thread, variable, site, written)
        whole = since >= 0
        if self._owner[variable] < 0:
            (self._changed if whole else self._plainly).add(variable)
        if thread.wanted and thread.top is not None:
            target = (False, variable)
            own = _Own(position, True, site, thread.top, thread.holds)
            own.whole = whole
            owns = thread.owns.get(target)
            if owns is not None:
                if whole:
                    owns.changed(since)
                again = owns.last_read() > written
                tier = Tier.LOOKED_AT_AGAIN if again else Tier.CARRIED
                self._told(thread, target, written, own, tier)
                self._told(thread, target, self._reads.of(variable, number), own, None)
                self._could(thread, variable, owns, own)
            thread.add(target, own)
        self._writes.put(variable, position, number)

    def _acquire(self, position: int, thread: _Thread, lock: int, site: int, alone: bool) -> None:
        released = thread.released.get(lock)
        if released is not None and site and released[1] == site:
            thread.waits.append((released[0], position))
        if thread.wanted and thread.top is not None:
            between = (self._acquires if alone else self._alone).of(lock, thread.number)
            own = _Own(position, alone, site, thread.top, thread.holds)
            self._told(thread, (True, lock), between, own, Tier.LOCK)
        self._acquires.put(lock, position, thread.number)
        if alone:
            self._alone.put(lock, position, thread.number)
        thread.holds = {**thread.holds, lock: position}

    def _release(self, position: int, thread: _Thread, lock: int, site: int, alone: bool) -> None:
        if thread.wanted and thread.top is not None:
            thread.add((True, lock), _Own(position, alone, site, thread.top, thread.holds))
        thread.holds = {held: since for held, since in thread.holds.items() if held != lock}
        thread.released[lock] = (position, site)

    def _told(
        self,
        thread: _Thread,
        target: Tuple[bool, int],
        between: int,
        own: _Own,
        tier: Optional[Tier],
    ) -> None:
        """Notes the gaps of all open blocks into which another thread came with this event.

        Without a tier it read what this thread wrote before and writes again.
        """
        owns = thread.owns.get(target)
        if owns is None or between < owns.positions[0]:
            return
        block: Optional[_Block] = own.block
        while block is not None:
            if block.wanted and block.begin < between:
                gaps = self.found.gaps[block.label].seen
                known = gaps.get(target)
                if known is None or known.key() != BEST:
                    for kept in owns.between(block.begin, between):
                        if tier is None and not kept.is_write:
                            continue
                        gap = _gap(thread, block, target, kept, between, own, tier)
                        if own.is_write or target[0]:
                            self._note(gaps, gap, kept, own)
                        else:
                            thread.undecided.append(_Undecided(gaps, gap, kept, own))
            block = block.parent

    def _decide(self, thread: _Thread, since: Optional[int] = None) -> None:
        """Notes the gaps that end at a read before `since`: it is not changed at once any more."""
        left: List[_Undecided] = []
        for one in thread.undecided:
            if since is not None and one.own.position > since:
                left.append(one)
            else:
                self._note(one.gaps, one.gap, one.kept, one.own)
        thread.undecided = left

    def _note(self, gaps: _Found, gap: Gap, kept: _Own, own: _Own) -> None:
        """Keeps the more telling one of two gaps of one target."""
        gap = replace(gap, counts=self._counts(gap, kept, own))
        key = (gap.is_lock, gap.number)
        known = gaps.get(key)
        if known is None or gap.key() < known.key():
            gaps[key] = gap

    def _counts(self, gap: Gap, kept: _Own, own: _Own) -> bool:
        """Whether this is how a count is used: what is changed at once is changed at once again.

        What is changed and later only read is a value that is used. But an atomic variable that
        is looked at twice is mostly a flag, and one that is looked at again and again is.
        """
        if kept.whole and own.whole:
            return True
        if gap.is_lock or gap.number not in self._atomic:
            return False
        if own.only_reads() and not kept.only_reads():
            return own.polled
        return kept.whole or gap.tier is Tier.SEEN_TWICE

    def _could(self, thread: _Thread, variable: int, owns: _Owns, own: _Own) -> None:
        """Notes the gaps of all open blocks where a lock was let go between two accesses."""
        if not own.holds:
            return
        newest = max(own.holds.values())
        if newest < owns.positions[0]:
            return
        tier = Tier.LOOKED_AT_AGAIN if owns.last_read() > newest else Tier.CARRIED
        tier = tier if own.is_write else Tier.SEEN_TWICE
        block: Optional[_Block] = own.block
        while block is not None:
            if block.wanted and block.begin < newest and self._may_look(block.label, variable):
                for kept in owns.between(block.begin, newest):
                    if own.is_write and kept.is_write or not _let_go(kept, own):
                        continue
                    gap = _gap(thread, block, (False, variable), kept, newest, own, tier)
                    gaps = self.found.gaps[block.label].possible
                    if own.is_write:
                        self._note(gaps, gap, kept, own)
                    else:
                        thread.undecided.append(_Undecided(gaps, gap, kept, own))
            block = block.parent

    def _may_look(self, label: int, variable: int) -> bool:
        """Whether a possible gap of both was not looked at too often."""
        times = self._possible.get((label, variable), 0)
        self._possible[(label, variable)] = times + 1
        return times < MOST_POSSIBLE


def _changes_since(thread: _Thread, variable: int, site: int, written: int) -> int:
    """From where on what the thread read of a variable is changed at once by a write of it now.

    That is by an operation that cannot be interrupted, or under the hold of a lock. -1 if what is
    written does not come of what was just read.
    """
    if thread.last[:2] == (variable, site) and written < thread.last[2]:
        return thread.first if written < thread.first else thread.last[2]
    if thread.holds:
        since = min(thread.holds.values())
        if thread.reads.get(variable, -1) > since:
            return since
    return -1


def _let_go(kept: _Own, own: _Own) -> bool:
    """Whether some lock is held at both events, and each such lock was let go in between."""
    common = [lock for lock in own.holds if lock in kept.holds]
    return bool(common) and all(kept.holds[lock] != own.holds[lock] for lock in common)


def _call(block: _Block, own: _Own) -> Optional[_Block]:
    """The call of the block that an event is in, None for a line of the block itself."""
    inner = own.block
    if inner is block:
        return None
    while inner.parent is not None and inner.parent is not block:
        inner = inner.parent
    return inner


def _line(call: Optional[_Block], own: _Own) -> Tuple[str, int]:
    """Where an event is in the block, as far as it is known: equal for two passes of a loop."""
    if call is None:
        return ("line", own.site or -own.position)
    return ("call", call.site) if call.site else ("callee", call.label)


def _is_one_change(thread: _Thread, kept: _Own, own: _Own) -> bool:
    """Whether a read is followed by a write as in `x += 1`: one place, but no two passes of a loop."""
    return own.is_write and not kept.is_write and thread.last[2] == kept.position


def _gap(
    thread: _Thread,
    block: _Block,
    target: Tuple[bool, int],
    kept: _Own,
    between: int,
    own: _Own,
    tier: Optional[Tier],
) -> Gap:
    first, second = _call(block, kept), _call(block, own)
    inside = first is not None and first is second
    if tier is None or (tier < Tier.SEEN_TWICE and kept.is_write):
        tier = Tier.SEEN_TWICE
    elif target[0] and own.is_write and not kept.is_write:
        # what was read under a shared hold is followed by a hold of the lock alone
        tier = Tier.SEEN_TWICE
    low = kept.position
    return Gap(
        inside_callee=inside,
        in_wait=any(low <= start and start <= between <= end for start, end in thread.waits),
        in_loop=not (inside or _is_one_change(thread, kept, own))
        and _line(first, kept) == _line(second, own),
        tier=tier,
        counts=False,
        is_lock=target[0],
        number=target[1],
        before=kept.position,
        between=between,
        after=own.position,
        callee=first.label if inside and first is not None else -1,
    )


def scan(
    log: str,
    sites: Sites,
    wanted: Set[int],
    left_out: Set[int],
    atomic: Optional[Sequence[int]] = None,
    most: int = MOST_EVENTS,
) -> Scanned:
    """Reads the gaps of the wanted labels off a log, without blocks of the labels left out.

    Of a log that is longer than `most` events only its beginning is read, and `whole` is false.
    Raises `OSError` where the log cannot be read. What is no event is passed over: the checker
    judges the log.
    """
    state = Scan(wanted, left_out, atomic)
    event, numbers = state.event, sites.numbers
    known = len(numbers)
    with open(log, encoding="ascii", errors="replace") as opened:
        opened.readline()
        for position, line in enumerate(opened):
            if position >= most:
                state.found.whole = False
                break
            try:
                event(position, line.split(), numbers[position] if position < known else 0)
            except (ValueError, IndexError):
                continue
            state.found.events = position + 1
    return state.ended()
