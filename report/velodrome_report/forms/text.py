"""The report for people: text for a terminal or a pipe."""

from __future__ import annotations

import textwrap
from typing import Dict, List, Optional, Sequence, Set, Tuple

from ..model import Event, Finding, Kind, Place, Report, Section
from . import story, words
from .characters import columns_of, shortened, shortened_at_end, visible, wrapped
from .colours import Colours

NARROWEST = 40
# columns of a row: its mark, and what is between two cells
MARGIN = 4
GAP = 2
# the least of a line of source, and the most of what an event does, that a row has room for
LEAST_SOURCE = 12
MOST_DONE = 32
MOST_RUNS_NAMED = 4


class Text:
    """Prints a report in so many columns, with colours or without."""

    def __init__(self, report: Report, width: int, colours: bool) -> None:
        self.report = report
        self.width = max(width, NARROWEST)
        self.colours = Colours(colours)
        self._files = _short_files(report)

    # ---- the list

    def whole(self) -> str:
        """The list, what was looked at, and what nothing can be said of."""
        likely = self.report.in_section(Section.LIKELY)
        by_design = self.report.in_section(Section.BY_DESIGN)
        parts = ["\n".join(self.finding(one)) for one in likely]
        if by_design:
            parts.append("\n".join(self.folded_section(by_design)))
        notes = [*self._hints("warning", words.warned(self.report))]
        notes += self._hints("not looked at", words.unsaid(self.report))
        if notes:
            parts.append("\n".join(notes))
        ending = [self._wrapped(self.outcome(), "")]
        if words.of_runs(self.report):
            ending.append(self._wrapped(words.of_runs(self.report), ""))
        parts.append("\n".join(ending))
        return "\n\n".join(parts) + "\n"

    def runs(self) -> str:
        """Each run on a line: how it ended, and what was seen in it."""
        table = words.runs(self.report)
        most = max(self.width // 2, NARROWEST // 2)
        heads = [[shortened(cell, most) for cell in row[:-1]] for row in table]
        widths = [max(map(columns_of, column)) for column in zip(*heads)]
        before = sum(width + GAP for width in widths if width)
        lines: List[str] = []
        for head, row in zip(heads, table):
            padded = [
                cell + " " * (width - columns_of(cell) + GAP)
                for cell, width in zip(head, widths)
                if width
            ]
            told = wrapped(row[-1], max(self.width - before, LEAST_SOURCE))
            lines.append("".join(padded) + told[0])
            lines += [" " * before + line for line in told[1:]]
        return "".join(f"{line}\n" for line in lines)

    def outcome(self) -> str:
        """What was looked at, and how much was found."""
        likely = len(self.report.in_section(Section.LIKELY))
        rest = len(self.report.findings) - likely
        if not self.report.looked_at() or not self.report.findings:
            return words.outcome(self.report)
        said = [words.plural(likely, "likely mistake") if likely else "no likely mistake"]
        if rest:
            said.append(f"{rest:,} more not atomic by design or by what they call")
        return f"{words.looked_at(self.report)}: {', '.join(said)}"

    def finding(self, one: Finding) -> List[str]:
        """A finding: what, how often, where; its events; how to repeat it."""
        lines = self.head(one)
        if one.why:
            lines += [self.colours.dim(line) for line in self._indented(one.why)]
        lines += self.rows(one)
        under = self.report.under(one)
        if under:
            callers = ", ".join(words.name(other.function.short) for other in under)
            lines += self._indented(f"and so are its callers: {callers}")
        if one.repeat:
            lines.append(f"      to repeat: {visible(one.repeat)}")
        if len(self.report.findings) > 1:
            lines.append(f"      in full: velodrome-report --explain {self.number(one)}")
        return lines

    def head(self, one: Finding) -> List[str]:
        """The first line, its place at the right end if there is room."""
        often = words.how_often(one, self.report)
        place = self.place(one.place)
        claim = words.claim(one, max(self.width - columns_of(often) - 20, NARROWEST))
        sentence = f"{claim}: {often}"
        bold = self.colours.bold(claim) + sentence[len(claim) :]
        free = self.width - columns_of(sentence) - columns_of(place)
        if not place:
            return [bold]
        if free >= GAP:
            return [bold + " " * free + place]
        if columns_of(sentence) <= self.width:
            return [bold, "      " + place]
        return [self.colours.bold(claim) + ":", f"      {often}", f"      {place}"]

    def rows(self, one: Finding) -> List[str]:
        """A line for each event; `>` marks those that come between."""
        events = one.witness.events
        threads = [str(event.thread) for event in events]
        places = [self.place(event.place) for event in events]
        most = max([columns_of(event.does()) for event in events], default=0)
        sources = [event.source or "" for event in events]
        longest = max([columns_of(visible(line)) for line in sources], default=0)
        used = MARGIN + max(map(len, threads), default=0) + GAP
        used += max(map(columns_of, places), default=0) + GAP
        does_room = min(most, max(MOST_DONE, self.width - used - longest - GAP))
        room = self.width - used - does_room - GAP
        shown = [shortened_at_end(visible(line), room) for line in sources]
        if room < LEAST_SOURCE:
            shown = ["" for _ in sources]
            does_room = max(self.width - used, LEAST_SOURCE)
        cells = [threads, places, shown]
        widths = [max(map(columns_of, column), default=0) for column in cells]
        lines = []
        for index, event in enumerate(events):
            mark = "  > " if event.interrupts else "    "
            row = "".join(
                column[index] + " " * (width - columns_of(column[index]) + GAP)
                for column, width in zip(cells, widths)
                if width
            )
            row += self.does(event, does_room)
            lines.append(mark + self.colours.thread(event.thread.number, row.rstrip()))
        return lines

    def does(self, event: Event, room: int) -> str:
        """What an event does, its target cut in the middle where there is no room."""
        action = event.action.value
        target = shortened(visible(str(event.target)), max(room - len(action) - 1, 3))
        return f"{action} {target}".rstrip()

    def folded_section(self, findings: Sequence[Finding]) -> List[str]:
        """What is by design, a line for each."""
        title = words.SECTION_IN_WORDS[Section.BY_DESIGN]
        lines = [self.colours.bold(f"By design, probably ({len(findings)}): {title.lower()}")]
        for one in findings:
            number = f"{self.number(one):4}  "
            place = self.place(one.place)
            room = self.width - len(number) - columns_of(place) - GAP
            name = shortened(visible(one.function.short), max(room, LEAST_SOURCE))
            line = number + name + " " * max(room - columns_of(name) + GAP, GAP) + place
            lines.append(line.rstrip())
            often = words.how_often(one, self.report)
            lines += self._indented(f"{often}: {one.why}" if one.why else often)
        return lines

    def number(self, one: Finding) -> int:
        """The number of a finding for --explain, from 1 on."""
        return next(n for n, other in enumerate(self.report.findings, 1) if other.id == one.id)

    # ---- one finding in full

    def explained(self, one: Finding) -> str:
        """A finding in full: its events in lanes, the stack of each, its runs."""
        lines = self.head(one)
        lines += self._indented(f"{words.name(one.function.name)}")
        if one.why:
            lines += self._indented(one.why)
        if words.counted(one):
            lines += self._indented(words.counted(one))
        lines += ["", *self.rows(one), "", *self.lanes(one), ""]
        story = self.story(one)
        lines += [*story, ""] if story else []
        lines += self.stacks(one)
        lines += ["", *self._runs("seen in", one.seen)]
        rest = [run for run in one.possible if run not in one.seen]
        lines += self._runs("possible in", rest)
        if one.witness.predicted:
            lines += self._indented(
                f"these events are those of another schedule of {one.witness.run}"
            )
        else:
            lines += self._indented(f"these events are those of {one.witness.run}")
        if one.repeat:
            lines.append(f"      to repeat: {visible(one.repeat)}")
        return "\n".join(lines) + "\n"

    def lanes(self, one: Finding) -> List[str]:
        """The events, each in the lane of its thread."""
        threads = one.witness.threads()
        room = max((self.width - MARGIN) // max(len(threads), 1) - GAP, LEAST_SOURCE)
        lane = {thread.number: index for index, thread in enumerate(threads)}
        heads = []
        for thread in threads:
            name = f"{thread} {thread.name or ''}".rstrip()
            text = shortened(visible(name), room)
            padded = text + " " * (room - columns_of(text))
            heads.append(self.colours.thread(thread.number, padded))
        lines = ["    " + "  ".join(heads).rstrip()]
        for number, text in self._in_time(one, room):
            before = " " * (MARGIN + lane[number] * (room + GAP))
            lines.append(before + self.colours.thread(number, text))
        return lines

    def _in_time(self, one: Finding, room: int) -> List[Tuple[int, str]]:
        """What each thread does, in the order of time: transactions begin, events happen."""
        witness = one.witness
        placed: List[Tuple[int, int, int, str]] = []
        alone: Dict[int, str] = {}
        for transaction in witness.transactions:
            number = story.number_of(witness, transaction)
            if transaction.function is None:
                alone[transaction.first] = f"{number} "
            else:
                text = shortened(visible(f"{number} {transaction.function}"), room)
                placed.append((transaction.first, 0, transaction.thread.number, text))
        for event in witness.events:
            number = alone.get(event.position, "")
            text = number + self.does(event, room - len(number))
            placed.append((event.position, 1, event.thread.number, text))
        return [(thread, text) for _, _, thread, text in sorted(placed, key=lambda row: row[:2])]

    def story(self, one: Finding) -> List[str]:
        """The cycle in words."""
        lines: List[str] = []
        for line in story.told(one, self.place):
            indent = MARGIN + len(line) - len(line.lstrip())
            first, *rest = wrapped(line, self.width - indent - GAP)
            lines += [" " * indent + first, *(" " * (indent + GAP) + more for more in rest)]
        return lines

    def stacks(self, one: Finding) -> List[str]:
        """Each event with its own line and the calls around it, innermost first."""
        lines: List[str] = []
        for event in one.witness.events:
            thread = str(event.thread)
            row = f"{thread} {self.does(event, self.width - MARGIN - len(thread) - 1)}"
            lines.append("    " + self.colours.thread(event.thread.number, row))
            if event.at is not None:
                source = visible(event.at_source or "")
                lines.append(self._cut(f"        at {self.place(event.at)}  {source}".rstrip()))
            for frame in words.frames(event, self.report):
                name = words.name(frame.function, max(self.width - 30, NARROWEST))
                called = f", called at {self.place(frame.called_at)}" if frame.called_at else ""
                mark = " (to blame)" if frame.to_blame else ""
                lines += self._wrapped(f"in {name}{called}{mark}", "        ").split("\n")
        return lines

    # ---- parts

    def place(self, place: Optional[Place]) -> str:
        """A place with the last part of its path, if no other file has it."""
        if place is None:
            return ""
        file = self._files.get(place.file, place.file)
        return shortened(visible(str(Place(file, place.line))), self.width * 2 // 5)

    def _runs(self, title: str, runs: Sequence[str]) -> List[str]:
        if not runs:
            return []
        named = ", ".join(runs[:MOST_RUNS_NAMED])
        more = len(runs) - MOST_RUNS_NAMED
        return self._indented(f"{title}: {named}" + (f" and {more:,} more" if more > 0 else ""))

    def _hints(self, title: str, told: Sequence[str]) -> List[str]:
        lines: List[str] = []
        for text in told:
            line = f"{self.colours.warn(title)}: {visible(text)}"
            lines += self._wrapped(line, "    ", "").split("\n")
        return lines

    def _indented(self, text: str) -> List[str]:
        return self._wrapped(visible(text), "      ").split("\n")

    def _wrapped(self, text: str, indent: str, first: Optional[str] = None) -> str:
        """The text in lines of the width, each but perhaps the first one indented."""
        return "\n".join(
            textwrap.wrap(
                text,
                self.width,
                initial_indent=indent if first is None else first,
                subsequent_indent=indent,
                break_long_words=False,
                break_on_hyphens=False,
            )
            or [""]
        )

    def _cut(self, line: str) -> str:
        return shortened_at_end(line, self.width)


def write(
    report: Report, width: int, colours: bool, explain: Optional[Finding], runs: bool = False
) -> str:
    """The list, with each run where `runs` says so, or one finding in full."""
    text = Text(report, width, colours)
    if explain is not None:
        return text.explained(explain)
    return text.whole() + (f"\n{text.runs()}" if runs and report.runs else "")


def _short_files(report: Report) -> Dict[str, str]:
    """For each file of the report the last part of its path, where no other one has it."""
    files: Set[str] = set()
    for one in report.findings:
        places = [one.place, *(p for e in one.witness.events for p in (e.place, e.at))]
        places += [frame.called_at for e in one.witness.events for frame in e.stack]
        files.update(place.file for place in places if place is not None)
    times: Dict[str, int] = {}
    for file in files:
        name = file.rsplit("/", 1)[-1]
        times[name] = times.get(name, 0) + 1
    last = {file: file.rsplit("/", 1)[-1] for file in files}
    return {file: last[file] if times[last[file]] == 1 else file for file in files}
