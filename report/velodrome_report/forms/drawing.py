"""A drawing: a column for each thread, a row for each event, bars for blocks, arrows for what must come before what.

It has no sizes: `svg` and `dot` give them to it, so all forms draw one thing.
"""

from __future__ import annotations

from dataclasses import dataclass


@dataclass(frozen=True)
class Box:
    """An event, or the begin of a block where `is_begin` says so, in a row of its own."""

    column: int
    title: str
    place: str = ""
    source: str = ""
    is_begin: bool = False


@dataclass(frozen=True)
class Bar:
    """A block: from the row that begins it to the last row that is in it."""

    column: int
    first: int
    last: int
    is_blamed: bool = False


@dataclass(frozen=True)
class Arrow:
    """The event of row `start` comes before that of row `end`, in every order that the run allows."""

    start: int
    end: int


@dataclass(frozen=True)
class Drawing:
    """What is drawn. Boxes stand in the order of time: the first one in row 0."""

    sentence: str
    below: tuple[str, ...]
    columns: tuple[str, ...]
    boxes: tuple[Box, ...]
    bars: tuple[Bar, ...]
    arrows: tuple[Arrow, ...]
    note: str
