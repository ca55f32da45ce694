"""Drawings: no arrow strikes a text, nothing leaves its place, and Graphviz reads its graph."""

from __future__ import annotations

import functools
import random
import re
import shutil
import subprocess
import unittest
from dataclasses import dataclass
from typing import List, Tuple
from xml.etree import ElementTree

import golden
import samples
from velodrome_report.forms import characters, dot, lanes, svg
from velodrome_report.forms.drawing import Arrow, Bar, Box, Drawing

SEEDS = 30
# of so many drawings Graphviz, which is slow, reads one
FEW = 9
ABOVE, BELOW = 11, 3


@dataclass(frozen=True)
class Rect:
    left: float
    top: float
    right: float
    bottom: float

    def holds(self, other: "Rect") -> bool:
        return (
            self.left <= other.left
            and self.top <= other.top
            and other.right <= self.right
            and other.bottom <= self.bottom
        )

    def meets(self, other: "Rect") -> bool:
        return (
            self.left < other.right
            and other.left < self.right
            and self.top < other.bottom
            and other.top < self.bottom
        )


class Picture:
    """What is where in an SVG that `svg` wrote."""

    def __init__(self, text: str) -> None:
        self.root = ElementTree.fromstring(text.encode("utf-8"))
        self.page = Rect(0, 0, float(self.root.get("width", 0)), float(self.root.get("height", 0)))
        self.texts = [self._text(node) for node in self._all("text")]
        self.events = [self._rect(node) for node in self._all("rect", "event")]
        self.blocks = [
            self._rect(node) for kind in ("block", "blamed") for node in self._all("rect", kind)
        ]
        self.arrows = [self._path(node) for node in self._all("path", "arrow")]

    def _all(self, name: str, kind: str = "") -> List[ElementTree.Element]:
        found = self.root.iter(f"{{http://www.w3.org/2000/svg}}{name}")
        return [node for node in found if not kind or node.get("class") == kind]

    @staticmethod
    def _text(node: ElementTree.Element) -> Rect:
        x, y = float(node.get("x", 0)), float(node.get("y", 0))
        return Rect(
            x, y - ABOVE, x + svg.LETTER * characters.columns_of(node.text or ""), y + BELOW
        )

    @staticmethod
    def _rect(node: ElementTree.Element) -> Rect:
        x, y, width, height = (float(node.get(name, 0)) for name in ("x", "y", "width", "height"))
        return Rect(x, y, x + width, y + height)

    @staticmethod
    def _path(node: ElementTree.Element) -> List[Tuple[float, float]]:
        found = re.fullmatch(r"M(\S+) (\S+)H(\S+)V(\S+)H(\S+)", node.get("d", ""))
        assert found is not None
        x, y, turn, z, end = map(float, found.groups())
        return [(x, y), (turn, y), (turn, z), (end, z)]

    def segments(self) -> List[Rect]:
        """The parts of all arrows, each a thin rectangle."""
        return [
            Rect(
                min(a[0], b[0]) - 0.5,
                min(a[1], b[1]) - 0.5,
                max(a[0], b[0]) + 0.5,
                max(a[1], b[1]) + 0.5,
            )
            for arrow in self.arrows
            for a, b in zip(arrow, arrow[1:])
        ]


def drawing_of(seed: int) -> Drawing:
    """A drawing with everything at random."""
    chance = random.Random(seed)
    columns = chance.randint(1, 6)

    def word() -> str:
        return "x" * chance.randint(1, 70)

    boxes = tuple(
        Box(
            chance.randrange(columns),
            word(),
            word() if chance.random() < 0.7 else "",
            word() if chance.random() < 0.5 else "",
            chance.random() < 0.2,
        )
        for _ in range(chance.randint(2, 14))
    )
    events = [row for row, box in enumerate(boxes) if not box.is_begin]
    bars = tuple(
        Bar(box.column, row, row, chance.random() < 0.5)
        for row, box in enumerate(boxes)
        if box.is_begin
    )
    arrows = tuple(
        Arrow(*chance.sample(events, 2)) for _ in range(chance.randint(0, 6)) if len(events) > 1
    )
    heads = tuple(f"thread {column} {word()}" for column in range(columns))
    return Drawing(word() + " " + word(), (word(),), heads, boxes, bars, arrows, "a note " + word())


def drawings() -> List[Drawing]:
    report = samples.every_kind()
    real = [lanes.of(finding, report) for finding in report.findings]
    hostile = [
        lanes.of(finding, samples.REPORTS[name])
        for name in samples.HOSTILE_REPORTS
        for finding in samples.REPORTS[name].findings
    ]
    return real + hostile + [drawing_of(seed) for seed in range(SEEDS)]


@functools.lru_cache(maxsize=None)
def pictures() -> List[Tuple[Drawing, Picture]]:
    return [(drawing, Picture(svg.write(drawing))) for drawing in drawings()]


class Svg(unittest.TestCase):
    def test_arrows_strike_no_text(self) -> None:
        for drawing, picture in pictures():
            for segment in picture.segments():
                for text in picture.texts:
                    self.assertFalse(segment.meets(text), drawing)

    def test_arrows_go_from_side_to_side_of_their_events(self) -> None:
        for drawing, picture in pictures():
            rows = [row for row, box in enumerate(drawing.boxes) if not box.is_begin]
            place_of = dict(zip(rows, picture.events))
            for arrow, path in zip(drawing.arrows, picture.arrows):
                start, end = place_of[arrow.start], place_of[arrow.end]
                self.assertIn(path[0][0], (start.left, start.right))
                self.assertTrue(start.top < path[0][1] < start.bottom)
                self.assertLess(min(abs(path[3][0] - end.left), abs(path[3][0] - end.right)), 8)
                self.assertTrue(end.top < path[3][1] < end.bottom)

    def test_no_arrow_runs_down_another(self) -> None:
        for drawing, picture in pictures():
            runs = []
            for path in picture.arrows:
                (x, y), (_, z) = path[1:3]
                runs.append((x, min(y, z), max(y, z)))
            distinct = len(set(drawing.arrows)) == len(drawing.arrows)
            for place, (x, y, z) in enumerate(runs):
                for other, top, bottom in runs[:place]:
                    self.assertFalse(distinct and x == other and y < bottom and top < z, drawing)

    def test_arrows_cross_no_event(self) -> None:
        for drawing, picture in pictures():
            inner = [Rect(e.left + 1, e.top + 1, e.right - 1, e.bottom - 1) for e in picture.events]
            for segment in picture.segments():
                self.assertFalse(any(segment.meets(event) for event in inner), drawing)

    def test_texts_stay_in_the_page_and_apart(self) -> None:
        for drawing, picture in pictures():
            for place, text in enumerate(picture.texts):
                self.assertTrue(picture.page.holds(text), drawing)
                self.assertFalse(any(text.meets(other) for other in picture.texts[:place]), drawing)

    def test_events_hold_their_texts(self) -> None:
        for drawing, picture in pictures():
            for event in picture.events:
                for text in picture.texts:
                    self.assertTrue(event.holds(text) or not event.meets(text), drawing)

    def test_blocks_hold_what_is_in_them(self) -> None:
        for finding in samples.every_kind().findings:
            picture = Picture(svg.write(lanes.of(finding, samples.every_kind())))
            for block in picture.blocks:
                for event in picture.events:
                    self.assertTrue(block.holds(event) or not block.meets(event))

    def test_widths_fit(self) -> None:
        drawing = lanes.of(samples.pool_finding(), samples.pool())
        self.assertLess(Picture(svg.write(drawing)).page.right, 760)
        drawing = lanes.of(samples.three_threads(), samples.every_kind())
        self.assertLess(Picture(svg.write(drawing)).page.right, 800)

        drawing = lanes.of(samples.REPORTS["long"].findings[0], samples.REPORTS["long"])
        self.assertLess(Picture(svg.write(drawing)).page.right, 1000)

    def test_arrows_run_down_beside_blocks(self) -> None:
        for report in (samples.every_kind(), samples.nested()):
            for finding in report.findings:
                picture = Picture(svg.write(lanes.of(finding, report)))
                for path in picture.arrows:
                    for block in picture.blocks:
                        beside = min(abs(path[1][0] - block.left), abs(path[1][0] - block.right))
                        self.assertGreater(beside, 10)

    def test_the_blamed_block_is_marked(self) -> None:
        text = svg.write(lanes.of(samples.pool_finding(), samples.pool()))
        self.assertEqual(text.count('class="blamed"'), 1)
        self.assertIn('class="blame" x="', text)
        self.assertNotIn(
            'class="blamed"', svg.write(lanes.of(samples.three_threads(), samples.every_kind()))
        )

    def test_of_nested_blocks_that_of_the_finding_is_marked(self) -> None:
        report = samples.nested()
        drawing = lanes.of(report.findings[0], report)
        blamed = [bar for bar in drawing.bars if bar.is_blamed]
        self.assertEqual(len(blamed), 1)
        self.assertEqual(drawing.boxes[blamed[0].first].title, "Pool::acquire()")
        others = [bar for bar in drawing.bars if not bar.is_blamed]
        self.assertEqual([drawing.columns[bar.column][:8] for bar in others], ["thread 1"])

    def test_without_a_finding(self) -> None:
        for name in ("nothing_found", "nothing_looked_at"):
            text = golden.printed(name, "svg", samples.REPORTS[name])
            self.assertIn("Nothing was found", text)


class Dot(unittest.TestCase):
    def test_graphviz_reads_it(self) -> None:
        if not shutil.which("dot"):
            self.skipTest("dot is not installed")
        for drawing in drawings()[::FEW]:
            done = subprocess.run(
                ["dot", "-Tplain"],
                input=dot.write(drawing),
                capture_output=True,
                encoding="utf-8",
                check=False,
            )
            self.assertEqual((done.returncode, done.stderr), (0, ""), drawing)
            nodes = [line for line in done.stdout.splitlines() if line.startswith("node ")]
            self.assertEqual(len(nodes), sum(not box.is_begin for box in drawing.boxes))

    def test_quotes_are_escaped(self) -> None:
        drawing = Drawing('a"b\\', (), ("t",), (Box(0, '"; evil [shape=box]'),), (), (), "")
        text = dot.write(drawing)
        self.assertIn(r'label="a\"b\\\l";', text)
        self.assertIn(r'"\"; evil [shape=box]\l"', text)


if __name__ == "__main__":
    unittest.main()
