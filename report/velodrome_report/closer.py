"""A closer look: the checker is asked about the one lock or variable that a gap is on.

Its first alarm of a log may be a long way round over several locks, and may close before the
event that matters. A gap is three events; so a small log is made of these and of the blocks
around them, and the checker's witness of it is one of the whole log, with fewer events.
"""

from __future__ import annotations

import os
import tempfile
from dataclasses import dataclass, field, replace
from typing import Dict, Iterable, List, Optional, Sequence, Set, Tuple

from . import answers, checker
from .answers import Alarm, Cycle, End, NotAnAnswer, OpenBlock, Step
from .gap import Gap, Scanned
from .sites import Sites

# so often the checker is asked again about one log
MOST_TIMES = 40
TAKES, GIVES = ("acq", "acqs"), ("rel", "rels")


def look(
    found: List[Alarm],
    scanned: Scanned,
    program: str,
    log: str,
    names: Optional[str],
    sites: Sites,
    left_out: Set[int],
) -> None:
    """Adds an alarm for the most telling gap of each function."""
    gaps = _most_telling(scanned)
    if not gaps:
        return
    surroundings = _Surroundings(log, gaps, left_out)
    for gap in gaps:
        small = surroundings.small_log(gap)
        if small is not None:
            found.extend(_asked(program, small, names, sites))


def _most_telling(scanned: Scanned) -> List[Gap]:
    """The gap to look at of each function that has one of its own, the most telling first."""
    found: Set[Gap] = set()
    for gaps in scanned.gaps.values():
        if gaps.seen:
            found.add(min(gaps.seen.values(), key=lambda gap: _key(gap, scanned)))
    own = [gap for gap in found if not gap.inside_callee]
    return sorted(own, key=lambda gap: _key(gap, scanned))[:MOST_TIMES]


def _key(gap: Gap, scanned: Scanned) -> Tuple[bool, bool, bool, bool, int, int, int]:
    counts = gap.counts and not gap.is_lock and gap.number in scanned.counters
    first = (gap.inside_callee, gap.in_wait, counts, gap.in_loop, int(gap.tier))
    return (*first, gap.after - gap.before, gap.number)


# ---- a small log


@dataclass
class _Line:
    """An event of the small log: where it stands in the whole one, and its text there."""

    position: float
    text: str


@dataclass
class SmallLog:
    """The text of a small log, and of each of its events the position in the whole one."""

    text: str
    positions: List[int] = field(default_factory=list)


class _Surroundings:
    """What is around the events of gaps: the open blocks, and the whole holds of locks."""

    def __init__(self, log: str, gaps: Iterable[Gap], left_out: Set[int]) -> None:
        self._left_out = {str(label) for label in left_out}
        self._texts: Dict[int, str] = {}
        self._open: Dict[int, Tuple[int, ...]] = {}
        self._taken: Dict[int, int] = {}
        self._given: Dict[int, int] = {}
        self._header = ""
        wanted = {position for gap in gaps for position in (gap.before, gap.between, gap.after)}
        self._read(log, wanted)

    def _read(self, log: str, wanted: Set[int]) -> None:
        """One pass over the log, up to the last event that is wanted."""
        stacks: Dict[str, List[Tuple[int, str]]] = {}
        taken: Dict[Tuple[str, str], int] = {}
        giving: Dict[Tuple[str, str], List[int]] = {}
        last = max(wanted, default=-1)
        with open(log, encoding="ascii", errors="replace") as opened:
            self._header = opened.readline()
            for position, line in enumerate(opened):
                if position > last:
                    break
                words = line.split()
                thread, word = words[0], words[1]
                if word == "begin":
                    stacks.setdefault(thread, []).append((position, line))
                elif word == "end":
                    stacks[thread].pop()
                elif word in TAKES:
                    taken[(thread, words[2])] = position
                    if position in wanted:
                        giving.setdefault((thread, words[2]), []).append(position)
                elif word in GIVES:
                    for one in giving.pop((thread, words[2]), ()):
                        self._given[one] = position
                        self._texts[position] = line
                    if position in wanted and (thread, words[2]) in taken:
                        self._taken[position] = taken[(thread, words[2])]
                if position in wanted:
                    self._texts[position] = line
                    around = [one for one in stacks.get(thread, ()) if self._is_block(one[1])]
                    self._texts.update(around)
                    self._open[position] = tuple(begin for begin, _ in around)

    def _is_block(self, begin: str) -> bool:
        """Whether a begin is not one of those that are left out."""
        return begin.split()[2] not in self._left_out

    def small_log(self, gap: Gap) -> Optional[SmallLog]:
        """The log of the three events of a gap and of what is around them."""
        events = (gap.before, gap.between, gap.after)
        if any(position not in self._open for position in events):
            return None
        lines = [_Line(position, self._texts[position]) for position in events]
        before, between, after = (self._open[position] for position in events)
        for begin in {*before, *between, *after}:
            lines.append(_Line(begin, self._texts[begin]))
        thread = self._texts[gap.before].split()[0]
        for begin in before:
            if begin not in after:
                lines.append(_Line(gap.before + 0.5, f"{thread} end\n"))
        if gap.is_lock:
            lines += self._holds(gap, thread)
        lines.sort(key=lambda line: line.position)
        return written(self._header, [(int(line.position), line.text) for line in lines])

    def _holds(self, gap: Gap, thread: str) -> List[_Line]:
        """The acquire of the first hold, and the release of the other thread's one."""
        lines: List[_Line] = []
        taken, given = self._taken.get(gap.before), self._given.get(gap.between)
        word = self._texts[gap.before].split()
        kind = "acqs" if word[1] == "rels" else "acq"
        at = gap.before - 0.5 if taken is None else float(taken)
        lines.append(_Line(at, f"{thread} {kind} {word[2]}\n"))
        other = self._texts[gap.between].split()
        kind = "rels" if other[1] == "acqs" else "rel"
        at = gap.between + 0.5 if given is None else float(given)
        lines.append(_Line(at, f"{other[0]} {kind} {other[2]}\n"))
        return lines


def written(header: str, lines: Sequence[Tuple[int, str]]) -> SmallLog:
    """The small log of these events of the log with this header, each with its position there.

    All values are 0, and thread 0 starts the others.
    """
    threads = sorted({int(text.split()[0]) for _, text in lines} - {0})
    made = SmallLog(_version_2(header) + "".join(f"0 fork {t}\n" for t in threads))
    made.positions += [-1] * len(threads)
    for position, text in lines:
        words = text.split()
        if words[1] in ("rd", "wr"):
            words[3] = "0"
        made.text += " ".join(words) + "\n"
        made.positions.append(position)
    return made


def _version_2(header: str) -> str:
    return "vlog 2 " + header.split(" ", 2)[2]


# ---- the answer


def _asked(program: str, small: SmallLog, names: Optional[str], sites: Sites) -> List[Alarm]:
    """The alarms of a small log, at the positions of the whole one."""
    return asked(program, small, names, Moved(small.positions, sites))


def asked(program: str, small: SmallLog, names: Optional[str], moved: "Moved") -> List[Alarm]:
    """The alarms of a small log; none where the checker does not answer."""
    with tempfile.NamedTemporaryFile("w", suffix=".log", delete=False) as opened:
        opened.write(small.text)
    try:
        done = checker.asked(program, "audit", opened.name, names, None)
        if done.why is not None:
            return []
        return [moved.alarm(alarm) for alarm in answers.audit(done.out).alarms]
    except (NotAnAnswer, IndexError):
        return []
    finally:
        os.unlink(opened.name)


class Moved:
    """Puts an alarm of a small log at the places of the whole one.

    Where the small log has an order of its own its positions stay.
    """

    def __init__(self, positions: List[int], sites: Sites, in_order: bool = True) -> None:
        self._positions = positions
        self._sites = sites
        self._in_order = in_order

    def step(self, step: Step) -> Step:
        position = self._positions[step.position]
        at, function = self._sites.at(position)
        if not self._in_order:
            return replace(step, at=at, function=function)
        return replace(step, position=position, line=position + 2, at=at, function=function)

    def block(self, block: OpenBlock) -> OpenBlock:
        return OpenBlock(block.label, self.step(block.begin))

    def end(self, end: End) -> End:
        return End(self.step(end.step), tuple(self.block(block) for block in end.inside))

    def alarm(self, alarm: Alarm) -> Alarm:
        return Alarm(
            blocks=tuple(self.block(block) for block in alarm.blocks),
            to_blame=alarm.to_blame,
            closing=self.step(alarm.closing),
            cycle=None if alarm.cycle is None else self._cycle(alarm.cycle),
        )

    def _cycle(self, cycle: Cycle) -> Cycle:
        return Cycle(
            transactions=tuple((self.step(a), self.step(b)) for a, b in cycle.transactions),
            edges=tuple((self.end(a), self.end(b)) for a, b in cycle.edges),
            reasons=tuple((self.block(block), self.step(step)) for block, step in cycle.reasons),
        )
