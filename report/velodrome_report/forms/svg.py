"""A drawing as SVG: one file that a browser and a ticket show, in light and in dark."""

from __future__ import annotations

from dataclasses import dataclass

from .characters import columns_of, shortened, shortened_at_end, visible, wrapped, xml
from .drawing import Arrow, Bar, Box, Drawing

LETTER = 8
LINE = 18
MARGIN = 16
PADDING = 8
BETWEEN_ROWS = 12
BESIDE_BOX = 10
SLOT = 14
HEAD = 7
APART = 5
LEAST_ROOM = 14
MOST_ROOM = 42
LEAST_WIDTH = 480

STYLE = """.velodrome text { font: 13px "DejaVu Sans Mono", monospace; fill: #1b1f24; }
.velodrome .page { fill: #ffffff; }
.velodrome .sentence, .velodrome .thread { font-weight: bold; }
.velodrome .muted { fill: #57606a; }
.velodrome .event { fill: #ffffff; stroke: #57606a; }
.velodrome .block { fill: #e3f0fb; stroke: #0072b2; }
.velodrome .blamed { fill: #fdeae0; stroke: #a63f00; stroke-width: 2; }
.velodrome .blame { fill: #a63f00; font-weight: bold; }
.velodrome .arrow { fill: none; stroke: #1b1f24; stroke-width: 1.5; }
.velodrome .head { fill: #1b1f24; }
@media (prefers-color-scheme: dark) {
.velodrome text { fill: #e6edf3; }
.velodrome .page, .velodrome .event { fill: #0d1117; }
.velodrome .muted { fill: #9da7b1; }
.velodrome .block { fill: #10263f; stroke: #56b4e9; }
.velodrome .blamed { fill: #3a2313; stroke: #ffa657; }
.velodrome .blame { fill: #ffa657; }
.velodrome .arrow { stroke: #e6edf3; }
.velodrome .head { fill: #e6edf3; }
}
@media print {
.velodrome text { fill: #000000; }
}
"""


@dataclass(frozen=True)
class _Column:
    left: int
    width: int
    room: int

    @property
    def right(self) -> int:
        return self.left + self.width


@dataclass(frozen=True)
class _Layout:
    columns: tuple[_Column, ...]
    tops: tuple[int, ...]
    heights: tuple[int, ...]
    heading: tuple[tuple[str, str], ...]
    head_top: int
    room: int
    width: int
    height: int

    def middle(self, row: int) -> int:
        return self.tops[row] + self.heights[row] // 2


def _lines_of(box: Box) -> list[str]:
    return [visible(line) for line in (box.title, box.place, box.source) if line]


def _height_of(box: Box) -> int:
    return LINE * len(_lines_of(box)) + PADDING


def _gutter_of(arrow: Arrow, boxes: tuple[Box, ...]) -> int:
    """Returns beside which columns an arrow runs down: gutter N is left of column N, and 0 has none."""
    start, end = boxes[arrow.start].column, boxes[arrow.end].column
    return start if end < start else start + 1


def _gutters_of(drawing: Drawing) -> list[list[Arrow]]:
    gutters: list[list[Arrow]] = [[] for _ in range(len(drawing.columns) + 1)]
    for arrow in drawing.arrows:
        gutters[_gutter_of(arrow, drawing.boxes)].append(arrow)
    return gutters


def _room_of(drawing: Drawing, column: int) -> int:
    texts = [visible(drawing.columns[column])]
    for box in drawing.boxes:
        if box.column == column:
            texts += _lines_of(box)
    return min(max([LEAST_ROOM, *map(columns_of, texts)]), MOST_ROOM)


def _columns_of(drawing: Drawing) -> tuple[_Column, ...]:
    gutters = _gutters_of(drawing)
    left = MARGIN
    columns = []
    for number in range(len(drawing.columns)):
        left += BESIDE_BOX + SLOT * (len(gutters[number]) + 1)
        room = _room_of(drawing, number)
        columns.append(_Column(left, LETTER * room + 2 * PADDING, room))
        left += columns[-1].width + BESIDE_BOX
    return tuple(columns)


def _width_of(drawing: Drawing, columns: tuple[_Column, ...]) -> int:
    if not columns:
        return LEAST_WIDTH
    last_gutter = SLOT * (len(_gutters_of(drawing)[-1]) + 1)
    return max(columns[-1].right + BESIDE_BOX + last_gutter + MARGIN, LEAST_WIDTH)


def _room_beside(width: int) -> int:
    return (width - 2 * MARGIN) // LETTER


def _heading_of(drawing: Drawing) -> list[tuple[str, str]]:
    """The lines above the columns, each with its kind."""
    room = _room_beside(_width_of(drawing, _columns_of(drawing)))
    heading = [("sentence", line) for line in _wrapped(drawing.sentence, room)]
    heading += [("muted", line) for text in drawing.below for line in _wrapped(text, room)]
    return heading


def _layout_of(drawing: Drawing, heading: list[tuple[str, str]]) -> _Layout:
    columns = _columns_of(drawing)
    width = _width_of(drawing, columns)
    head_top = MARGIN + LINE * len(heading) + (LINE if heading else 0)
    top = head_top + LINE + BETWEEN_ROWS
    tops, heights = [], []
    for box in drawing.boxes:
        tops.append(top)
        heights.append(_height_of(box))
        top += heights[-1] + BETWEEN_ROWS
    room = _room_beside(width)
    height = top + LINE * len(_wrapped(drawing.note, room)) + MARGIN
    return _Layout(
        columns, tuple(tops), tuple(heights), tuple(heading), head_top, room, width, height
    )


def _wrapped(text: str, room: int) -> list[str]:
    return wrapped(visible(text), room)


def _text(kind: str, x: int, y: int, text: str) -> str:
    return f'<text class="{kind}" x="{x}" y="{y}">{xml(text)}</text>\n'


def _rect(kind: str, x: int, y: int, width: int, height: int) -> str:
    return f'<rect class="{kind}" x="{x}" y="{y}" width="{width}" height="{height}" rx="4"/>\n'


def _heading(layout: _Layout) -> str:
    return "".join(
        _text(kind, MARGIN, MARGIN + LINE * (place + 1), line)
        for place, (kind, line) in enumerate(layout.heading)
    )


def _heads(drawing: Drawing, layout: _Layout) -> str:
    return "".join(
        _text(
            "thread",
            column.left + PADDING,
            layout.head_top + LINE,
            shortened(visible(name), column.room),
        )
        for name, column in zip(drawing.columns, layout.columns)
    )


def _bar(bar: Bar, layout: _Layout) -> str:
    column = layout.columns[bar.column]
    top = layout.tops[bar.first] - 4
    bottom = layout.tops[bar.last] + layout.heights[bar.last] + 4
    kind = "blamed" if bar.is_blamed else "block"
    return _rect(kind, column.left - 6, top, column.width + 12, bottom - top)


def _box(row: int, box: Box, blamed: bool, layout: _Layout) -> str:
    column, top = layout.columns[box.column], layout.tops[row]
    out = (
        "" if box.is_begin else _rect("event", column.left, top, column.width, layout.heights[row])
    )
    kinds = ["blame" if blamed else "title" if not box.is_begin else "muted"]
    lines = [shortened(visible(box.title), column.room)]
    if box.place:
        kinds.append("muted")
        lines.append(shortened(visible(box.place), column.room))
    if box.source:
        kinds.append("source")
        lines.append(shortened_at_end(visible(box.source), column.room))
    for place, (kind, line) in enumerate(zip(kinds, lines)):
        out += _text(kind, column.left + PADDING, top + LINE * (place + 1), line)
    whole = "\n".join(_lines_of(box))
    return f"<g><title>{_xml_of_lines(whole)}</title>\n{out}</g>\n"


def _xml_of_lines(text: str) -> str:
    """Returns the text for XML, with its line breaks kept."""
    return "\n".join(map(xml, text.split("\n")))


def _turn_of(gutter: int, slot: int, layout: _Layout) -> int:
    """Where an arrow runs down: each arrow of a gutter at a place of its own."""
    return layout.columns[gutter - 1].right + BESIDE_BOX + SLOT * (slot + 1)


def _arrow(arrow: Arrow, drawing: Drawing, layout: _Layout) -> str:
    """An arrow leaves an event below its middle, and comes to one above it."""
    gutter = _gutter_of(arrow, drawing.boxes)
    turn = _turn_of(gutter, _gutters_of(drawing)[gutter].index(arrow), layout)
    start, end = (layout.columns[drawing.boxes[row].column] for row in (arrow.start, arrow.end))
    from_x = start.left if turn < start.left else start.right
    to_x = end.left if turn < end.left else end.right
    tip = -1 if to_x == end.left else 1
    y, z = layout.middle(arrow.start) + APART, layout.middle(arrow.end) - APART
    return (
        f'<path class="arrow" d="M{from_x} {y}H{turn}V{z}H{to_x + HEAD * tip}"/>\n'
        f'<path class="head" d="M{to_x} {z}l{8 * tip} -4v8z"/>\n'
    )


def write(drawing: Drawing) -> str:
    """Returns the drawing as an SVG document: without a declaration, in UTF-8."""
    layout = _layout_of(drawing, _heading_of(drawing))
    return _document(drawing, layout, f"<style>\n{STYLE}</style>\n")


def within_page(drawing: Drawing) -> str:
    """Returns the drawing for a page that has `STYLE` and what the heading of the drawing says."""
    return _document(drawing, _layout_of(drawing, []), "")


def _document(drawing: Drawing, layout: _Layout, style: str) -> str:
    return (
        f'<svg xmlns="http://www.w3.org/2000/svg" role="img" class="velodrome" width="{layout.width}"'
        f' height="{layout.height}" viewBox="0 0 {layout.width} {layout.height}">\n'
        f"<title>{xml(drawing.sentence)}</title>\n{style}"
        f'<rect class="page" width="{layout.width}" height="{layout.height}"/>\n'
        f"{_heading(layout)}{_heads(drawing, layout)}"
        f"{''.join(_bar(bar, layout) for bar in drawing.bars)}"
        f"{''.join(_arrow(arrow, drawing, layout) for arrow in drawing.arrows)}"
        f"{_boxes(drawing, layout)}{_note(drawing, layout)}</svg>\n"
    )


def _boxes(drawing: Drawing, layout: _Layout) -> str:
    blamed = {bar.first for bar in drawing.bars if bar.is_blamed}
    return "".join(_box(row, box, row in blamed, layout) for row, box in enumerate(drawing.boxes))


def _note(drawing: Drawing, layout: _Layout) -> str:
    lines = _wrapped(drawing.note, layout.room)
    first = layout.height - MARGIN - LINE * (len(lines) - 1)
    return "".join(
        _text("muted", MARGIN, first + LINE * place, line) for place, line in enumerate(lines)
    )
