"""The cycle of a finding in words: which transaction is which, which comes before which, and why that cannot be."""

from __future__ import annotations

from typing import Callable, List, Optional

from ..model import Block, Event, Finding, Kind, Place, Transaction, Witness
from . import words

# the header of a log is its line 1, and its first event has the position 0
FIRST_LINE = 2
NO_ORDER = "No order has all of this"


def number_of(witness: Witness, transaction: Transaction) -> str:
    """Returns what a transaction is called, `T1` for the first one."""
    return f"T{witness.transactions.index(transaction) + 1}"


def told(finding: Finding, place: Callable[[Optional[Place]], str] = words.place) -> List[str]:
    """Returns the lines, none for a deadlock. A line that belongs to the one before begins with two blanks."""
    witness = finding.witness
    if len(witness.transactions) != len(witness.edges) or not witness.edges:
        return []
    return _Story(finding, place).lines()


class _Story:
    def __init__(self, finding: Finding, place: Callable[[Optional[Place]], str]) -> None:
        self.finding = finding
        self.witness = finding.witness
        self.place = place

    def lines(self) -> List[str]:
        lines = [self._transaction(one) for one in self.witness.transactions]
        for edge in range(len(self.witness.edges)):
            lines += self._edge(edge)
        return lines + self._blame()

    def _transaction(self, one: Transaction) -> str:
        where = "outside of blocks" if one.function is None else f"in {words.name(one.function)}"
        called = self._called_at(_called(one, self.witness))
        number = number_of(self.witness, one)
        return f"{number}: {one.thread} {where}{called}{_lines(one, self.finding)}"

    def _called_at(self, where: Optional[Place]) -> str:
        return f", called at {self.place(where)}" if where else ""

    def _edge(self, edge: int) -> List[str]:
        one, other = f"T{edge + 1}", f"T{(edge + 1) % len(self.witness.edges) + 1}"
        start, end = (self.witness.events[place] for place in self.witness.edges[edge])
        lines = [f"{one} comes before {other}: {self._does(start)}, then {self._does(end)}"]
        for touched in self.witness.touched:
            if touched.edge == edge:
                before, after = self._does(touched.before), self._does(touched.after)
                lock = words.name(str(start.target))
                lines.append(f"  under {lock}, too: {one} {before}, then {other} {after}")
        return lines

    def _does(self, event: Event) -> str:
        at = event.at or event.place
        return words.name(event.does()) + (f" at {self.place(at)}" if at else "")

    def _blame(self) -> List[str]:
        blocks = self.witness.blocks
        if not blocks:
            many = len(self.witness.transactions)
            each = f"T1 to T{many}" if many > 2 else "T1 and T2"
            return [
                f"{NO_ORDER}. No block alone is to blame:"
                f" each of {each} could run in one piece, but not all."
            ]
        if self.finding.kind is Kind.STALE_WRITE:
            return [f"{NO_ORDER} where it runs in one piece from the read to the write."]
        return [f"{NO_ORDER}. To blame:", *(self._blamed(block) for block in blocks)]

    def _blamed(self, block: Block) -> str:
        named = f"  {words.name(block.function)}{self._called_at(block.called_at)}"
        by = block.interrupted_by
        if by is None:
            return named
        return (
            f"{named}: in every order {by.thread} {self._does(by)}"
            " after its begin and before its end"
        )


def _lines(one: Transaction, finding: Finding) -> str:
    """Where it stands in the log of the run; nothing where the witness is of another log."""
    if finding.witness.predicted or finding.kind is Kind.STALE_WRITE:
        return ""
    first, last = one.first + FIRST_LINE, one.last + FIRST_LINE
    if first == last:
        return f", line {first} of the log"
    return f", lines {first} to {last} of the log"


def _called(one: Transaction, witness: Witness) -> Optional[Place]:
    """Where the outermost block of a transaction was called, as its events have it."""
    if one.function is None:
        return None
    for event in witness.events:
        if _is_in(event, one) and event.stack:
            return event.stack[0].called_at
    return None


def _is_in(event: Event, one: Transaction) -> bool:
    return event.thread.number == one.thread.number and one.first <= event.position <= one.last
