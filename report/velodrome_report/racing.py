"""Values that can be written from an old one: nothing keeps a write of another thread out.

A block reads a variable and writes it later without reading it again, holds no lock at either, and
neither locks nor starts nor ends of threads nor atomic operations order the write of another
thread before the read or behind the write. Then that write can come in between, even if in this
run the threads came one after the other. It is assumed that what the other thread does up to its
write does not depend on the order.

The recorder notes which variables race; all others are in order, and what is done with them orders
threads. So most logs are not read here at all.
"""

from __future__ import annotations

from dataclasses import dataclass
from typing import Dict, Iterable, List, Optional, Set, Tuple

from . import closer
from .answers import Alarm
from .closer import SmallLog
from .gaps import MOST_EVENTS
from .sites import Sites

# so many are told of one run
MOST_TOLD = 50
# the label of a piece that is no block of the log
NO_BLOCK = 4_294_967_295

Clock = List[int]
# the open blocks of a thread: of each the position of its begin, and its text
Stack = Tuple[Tuple[int, str], ...]


@dataclass(frozen=True)
class Access:
    """An access to a variable that races, and its thread's open blocks."""

    position: int
    thread: int
    stack: Stack
    # what the thread knew of all threads, and its own time
    clock: Clock
    time: int


@dataclass(frozen=True)
class Gap:
    """A read, the write of another thread that can come behind it, and the write behind that."""

    variable: int
    before: Access
    between: Access
    after: Access

    def block(self) -> Optional[Tuple[int, str]]:
        """The innermost block that has both ends."""
        common = [one for one in self.before.stack if one in self.after.stack]
        return common[-1] if common else None


class _Object:
    """What orders threads: a lock, a variable that does not race."""

    __slots__ = ("written", "read")

    def __init__(self) -> None:
        self.written: Clock = []
        self.read: Clock = []


class _Order:
    """What happens before what, by vector clocks."""

    def __init__(self, threads: int) -> None:
        self.clocks: List[Clock] = [[0] * threads for _ in range(threads)]
        for number, clock in enumerate(self.clocks):
            clock[number] = 1
        self._ended: Dict[int, Clock] = {}
        self._locks: Dict[int, _Object] = {}
        self._variables: Dict[int, _Object] = {}

    def lock(self, thread: int, word: str, number: int) -> None:
        """A lock is taken or given back."""
        one = self._locks.setdefault(number, _Object())
        if word == "acq":
            self._learn(thread, one.written, one.read)
        elif word == "acqs":
            self._learn(thread, one.written)
        elif word == "rel":
            one.written = self._told(thread)
        else:
            one.read = _joined(one.read, self._told(thread))

    def thread(self, thread: int, word: str, other: int) -> None:
        """A thread is started, ends or is waited for."""
        if word == "fork":
            self._learn(other, self._told(thread))
        elif word == "exit":
            self._ended[thread] = self._told(thread)
        else:
            self._learn(thread, self._ended.get(other, self.clocks[other]))

    def variable(self, thread: int, word: str, number: int) -> None:
        """An access to a variable that does not race."""
        one = self._variables.setdefault(number, _Object())
        if word == "rd":
            self._learn(thread, one.written)
            one.read = _joined(one.read, self._told(thread))
        else:
            self._learn(thread, one.written, one.read)
            one.written = self._told(thread)

    def _learn(self, thread: int, *clocks: Clock) -> None:
        for clock in clocks:
            self.clocks[thread] = _joined(self.clocks[thread], clock)

    def _told(self, thread: int) -> Clock:
        """The clock of the thread as others learn it; what it does from now on they do not know."""
        told = self.clocks[thread]
        self.clocks[thread] = list(told)
        self.clocks[thread][thread] += 1
        return told


def _joined(one: Clock, other: Clock) -> Clock:
    return [max(pair) for pair in zip(one, other)] if one and other else one or other


class _Scan:
    """Reads a log once. No clock that was kept is changed later."""

    def __init__(self, threads: int, racing: Set[int], sites: Sites) -> None:
        self.found: Dict[Tuple[int, int], Gap] = {}
        self._racing = racing
        self._sites = sites
        self._order = _Order(threads)
        self._stacks: List[Stack] = [()] * threads
        self._held = [0] * threads
        # of each variable and thread: its latest access if that is a read without a lock, its
        # latest write, and its latest gap
        self._reads: Dict[Tuple[int, int], Access] = {}
        self._writes: Dict[int, Dict[int, Access]] = {}
        self._gaps: Dict[int, Dict[int, Tuple[Access, Access]]] = {}

    def event(self, position: int, words: List[str], line: str) -> None:
        """The next event, by the words of its line."""
        thread, word = int(words[0]), words[1]
        if word in ("rd", "wr"):
            variable = int(words[2])
            if variable in self._racing:
                self._access(position, thread, word, variable)
            else:
                self._order.variable(thread, word, variable)
        elif word == "begin":
            self._stacks[thread] += ((position, line),)
        elif word == "end":
            self._stacks[thread] = self._stacks[thread][:-1]
        elif word in ("fork", "join", "exit"):
            self._order.thread(thread, word, int(words[2]) if len(words) > 2 else thread)
        else:
            self._held[thread] += 1 if word in ("acq", "acqs") else -1
            self._order.lock(thread, word, int(words[2]))

    def _access(self, position: int, thread: int, word: str, variable: int) -> None:
        clock = self._order.clocks[thread]
        access = Access(position, thread, self._stacks[thread], clock, clock[thread])
        before = self._reads.pop((variable, thread), None)
        if word == "rd":
            if not self._held[thread]:
                self._reads[(variable, thread)] = access
            return
        gaps, writes = self._gaps.setdefault(variable, {}), self._writes.setdefault(variable, {})
        for number, (first, last) in gaps.items():
            if number != thread and last.time > clock[number]:
                self._tell(Gap(variable, first, access, last))
        if before is not None and not self._held[thread] and self._is_one(before, access):
            gaps[thread] = (before, access)
            for number, write in writes.items():
                if number != thread and write.time > before.clock[number]:
                    self._tell(Gap(variable, before, write, access))
        writes[thread] = access

    def _is_one(self, before: Access, after: Access) -> bool:
        """Whether one block has both, or they are lines of one routine outside of all blocks."""
        if before.stack or after.stack:
            return bool(before.stack and after.stack) and before.stack[0] == after.stack[0]
        _, function = self._sites.at(before.position)
        return function is not None and function == self._sites.at(after.position)[1]

    def _tell(self, gap: Gap) -> None:
        key = (self._site(gap.before), self._site(gap.after))
        if len(self.found) < MOST_TOLD:
            self.found.setdefault(key, gap)

    def _site(self, access: Access) -> int:
        """The number of its site, or one that no other access has."""
        return self._sites.number(access.position) or -1 - access.position


def scan(log: str, racing: Iterable[int], sites: Sites) -> List[Gap]:
    """The gaps of the variables that race. Raises `OSError`; a line that is no event is passed over."""
    wanted = set(racing)
    if not wanted:
        return []
    with open(log, encoding="ascii", errors="replace") as opened:
        header = opened.readline().split()
        if len(header) < 3 or not header[2].isdigit():
            return []
        state = _Scan(int(header[2]), wanted, sites)
        for position, line in enumerate(opened):
            if position >= MOST_EVENTS:
                break
            try:
                state.event(position, line.split(), line)
            except (ValueError, IndexError):
                continue
    return list(state.found.values())


# ---- the checker's witness


def alarm(
    gap: Gap, program: str, log: str, names: Optional[str], sites: Sites, left_out: Set[int]
) -> Optional[Alarm]:
    """The checker's alarm of the small log in which the other write comes in between."""
    block = gap.block()
    if block is not None and label_of(block) in left_out:
        return None
    with open(log, encoding="ascii", errors="replace") as opened:
        header = opened.readline()
    small = _small_log(gap, header, left_out)
    moved = closer.Moved(small.positions, sites, in_order=False)
    return next(iter(closer.asked(program, small, names, moved)), None)


def label_of(block: Tuple[int, str]) -> int:
    """The label of a block."""
    return int(block[1].split()[2])


def _small_log(gap: Gap, header: str, left_out: Set[int]) -> SmallLog:
    """Three accesses and the blocks around them. Outside of all blocks the two ends are one."""
    variable, thread = gap.variable, gap.before.thread
    first, last = (
        [block for block in one.stack if label_of(block) not in left_out]
        for one in (gap.before, gap.after)
    )
    whole = [] if gap.block() else [(gap.before.position, f"{thread} begin {NO_BLOCK}")]
    lines = [
        *whole,
        *first,
        (gap.before.position, f"{thread} rd {variable} 0"),
        *((gap.before.position, f"{thread} end") for block in first if block not in last),
        *(block for block in gap.between.stack if label_of(block) not in left_out),
        (gap.between.position, f"{gap.between.thread} wr {variable} 0"),
        *(block for block in last if block not in first),
        (gap.after.position, f"{thread} wr {variable} 0"),
    ]
    return closer.written(header, lines)
