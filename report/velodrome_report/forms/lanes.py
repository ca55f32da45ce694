"""A finding as a drawing."""

from __future__ import annotations

from typing import List, Optional, Tuple

from ..model import Block, Event, Finding, Kind, Report, Thread, Transaction
from . import words
from .drawing import Arrow, Bar, Box, Drawing

NOTHING = Drawing("Nothing was found", (), (), (), (), (), "")
INTERRUPTED = "An arrow leads to what must come after it. Red: the block that is interrupted."
NO_BLOCK = (
    "An arrow leads to what must come after it. Each block could run in one piece, but not all."
)
OLD_VALUE = "An arrow leads to what must come after it. Red: from the read to the write."
ARROWS = "An arrow leads to what must come after it."
CIRCLE = "An arrow leads from what a thread waits for to who holds it."


def of_one(report: Report, finding: Optional[Finding]) -> Drawing:
    """Returns the drawing of the finding; without one, of the first of the report."""
    if finding is None and report.findings:
        finding = report.findings[0]
    return of(finding, report) if finding else NOTHING


def of(finding: Finding, report: Report) -> Drawing:
    """Returns the drawing of a finding."""
    witness = finding.witness
    threads = witness.threads()
    columns = {thread.number: column for column, thread in enumerate(threads)}
    spans = _spans(finding)
    rows = _rows(spans, witness.events)
    boxes = tuple(_box(row, columns) for row in rows)
    bars = tuple(_bar(span, rows, columns) for span in spans)
    at = {id(row): place for place, row in enumerate(rows)}
    arrows = tuple(
        Arrow(at[id(witness.events[start])], at[id(witness.events[end])])
        for start, end in witness.edges
    )
    below = [words.place(finding.place), words.counted(finding), words.repeated(finding)]
    return Drawing(
        words.sentence(finding, report),
        tuple(line for line in below if line),
        tuple(_head(thread) for thread in threads),
        boxes,
        bars,
        arrows,
        _note(finding),
    )


class _Span:
    """A block that is drawn: whose it is, and its first and last position."""

    def __init__(self, thread: Thread, first: int, last: int, title: str, at: str, blamed: bool):
        self.thread = thread
        self.first = first
        self.last = last
        self.title = title
        self.at = at
        self.blamed = blamed

    def has(self, event: Event) -> bool:
        return (
            event.thread.number == self.thread.number and self.first <= event.position <= self.last
        )


def _spans(finding: Finding) -> List[_Span]:
    """The blocks that are drawn, outermost transactions except where a block to blame is inside."""
    block = _blamed(finding)
    found = []
    for transaction in finding.witness.transactions:
        if block and _is_in(block, transaction, finding):
            found.append(_blamed_span(block, transaction, finding))
        elif transaction.function is not None:
            found.append(_span(transaction))
    return found


def _blamed(finding: Finding) -> Optional[Block]:
    """The block to mark: the innermost one of the finding's function, or else the innermost one."""
    blocks = finding.witness.blocks
    own = [block for block in blocks if block.function == finding.function.name] or list(blocks)
    return own[-1] if own else None


def _is_in(block: Block, transaction: Transaction, finding: Finding) -> bool:
    """Whether the block is in this transaction: that of a thread which does not interrupt."""
    interrupting = {event.thread.number for event in finding.witness.events if event.interrupts}
    return (
        transaction.first <= block.begin <= transaction.last
        and transaction.thread.number not in interrupting
    )


def _blamed_span(block: Block, transaction: Transaction, finding: Finding) -> _Span:
    name = finding.function.short if block.function == finding.function.name else block.function
    at = words.place(finding.place) if block.function == finding.function.name else ""
    return _Span(transaction.thread, block.begin, transaction.last, name, at, True)


def _span(transaction: Transaction) -> _Span:
    return _Span(
        transaction.thread,
        transaction.first,
        transaction.last,
        transaction.function or "",
        "",
        False,
    )


def _rows(spans: List[_Span], events: Tuple[Event, ...]) -> List[object]:
    """The begins of the blocks and the events, in the order of time."""
    placed: List[Tuple[int, int, object]] = [(span.first, 0, span) for span in spans]
    placed += [(event.position, 1, event) for event in events]
    return [row for _, _, row in sorted(placed, key=lambda entry: entry[:2])]


def _box(row: object, columns: dict[int, int]) -> Box:
    if isinstance(row, _Span):
        return Box(columns[row.thread.number], row.title, row.at, is_begin=True)
    assert isinstance(row, Event)
    return Box(columns[row.thread.number], row.does(), words.place(row.place), row.source or "")


def _bar(span: _Span, rows: List[object], columns: dict[int, int]) -> Bar:
    inside = [place for place, row in enumerate(rows) if isinstance(row, Event) and span.has(row)]
    first = next(place for place, row in enumerate(rows) if row is span)
    return Bar(columns[span.thread.number], first, max([first, *inside]), span.blamed)


def _head(thread: Thread) -> str:
    return f"{thread} {thread.name}" if thread.name is not None else str(thread)


def _note(finding: Finding) -> str:
    if finding.kind in (Kind.DEADLOCK, Kind.DEADLOCK_POSSIBLE):
        return CIRCLE
    if finding.kind is Kind.STALE_WRITE:
        return OLD_VALUE
    if finding.witness.blocks:
        return INTERRUPTED
    return ARROWS if finding.counts.to_blame else NO_BLOCK
