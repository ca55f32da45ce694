"""A drawing as a graph for Graphviz."""

from __future__ import annotations

from .characters import shortened, visible, wrapped
from .drawing import Bar, Box, Drawing

MOST_ROOM = 60
BLAMED = 'color="#a63f00"; fontcolor="#a63f00"; penwidth=2;'


def _heading(drawing: Drawing) -> list[str]:
    texts = [drawing.sentence, *drawing.below]
    return [line for text in texts for line in wrapped(visible(text), MOST_ROOM)]


def _quoted(lines: list[str]) -> str:
    escaped = [
        shortened(visible(line), MOST_ROOM).replace("\\", "\\\\").replace('"', '\\"')
        for line in lines
        if line
    ]
    return '"' + "\\l".join(escaped) + '\\l"'


def _node(row: int, box: Box) -> str:
    return f"E{row} [label={_quoted([box.title, box.place, box.source])}];"


def _bar_of(row: int, drawing: Drawing) -> Bar | None:
    box = drawing.boxes[row]
    for bar in drawing.bars:
        if bar.column == box.column and bar.first <= row <= bar.last:
            return bar
    return None


def _cluster(number: int, bar: Bar, drawing: Drawing) -> str:
    begin = drawing.boxes[bar.first]
    out = f"    subgraph cluster_block_{number} {{\n      label={_quoted([begin.title, begin.place])};\n"
    if bar.is_blamed:
        out += f"      {BLAMED}\n"
    for row in range(bar.first + 1, bar.last + 1):
        box = drawing.boxes[row]
        if box.column == bar.column and not box.is_begin:
            out += f"      {_node(row, box)}\n"
    return out + "    }\n"


def _thread(column: int, drawing: Drawing) -> str:
    out = (
        f"  subgraph cluster_thread_{column} {{\n    label={_quoted([drawing.columns[column]])};\n"
    )
    for number, bar in enumerate(drawing.bars):
        if bar.column == column:
            out += _cluster(number, bar, drawing)
    for row, box in enumerate(drawing.boxes):
        if box.column == column and not box.is_begin and _bar_of(row, drawing) is None:
            out += f"    {_node(row, box)}\n"
    return out + "  }\n"


def _in_order(column: int, drawing: Drawing) -> str:
    """The events of a thread, one after another."""
    rows = [
        f"E{row}"
        for row, box in enumerate(drawing.boxes)
        if box.column == column and not box.is_begin
    ]
    return f"  {' -> '.join(rows)} [style=dotted, arrowhead=none];\n" if len(rows) > 1 else ""


def write(drawing: Drawing) -> str:
    """Returns the drawing in the language of Graphviz: a cluster for each thread and each block, a node for each event."""
    columns = range(len(drawing.columns))
    out = f"digraph finding {{\n  label={_quoted(_heading(drawing))};\n"
    out += "  labelloc=t; labeljust=l; rankdir=LR; node [shape=box, fontname=monospace];\n"
    out += "".join(_thread(column, drawing) for column in columns)
    out += "".join(_in_order(column, drawing) for column in columns)
    out += "".join(f"  E{arrow.start} -> E{arrow.end};\n" for arrow in drawing.arrows)
    return out + "}\n"
