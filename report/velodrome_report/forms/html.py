"""The report as one page that loads nothing and sends nothing: to look at, and to attach to a ticket."""

from __future__ import annotations

import pathlib
from typing import List, Sequence

from ..model import Event, Finding, Place, Report, Section
from ..source import Sources
from . import lanes, story, svg, words
from .characters import xml

HERE = pathlib.Path(__file__).parent
# columns of a name in the list of findings
LIST_ROOM = 34
# lines of source that are shown before and after those of a finding
CONTEXT = 3
# lines of source between two events that are left out beyond this many
LONGEST_GAP = 12

POLICY = "default-src 'none'; script-src 'unsafe-inline'; style-src 'unsafe-inline'"
KEYS = "<kbd>j</kbd> <kbd>k</kbd> next, previous · <kbd>/</kbd> filter · <kbd>Esc</kbd> empties it"


def write(report: Report, sources: Sources) -> str:
    """Returns the page."""
    numbered = list(enumerate(report.findings, 1))
    articles = "".join(_article(number, one, report, sources) for number, one in numbered)
    return (
        '<!doctype html>\n<html lang="en">\n<head>\n<meta charset="utf-8">\n'
        f'<meta http-equiv="Content-Security-Policy" content="{POLICY}">\n'
        '<meta name="viewport" content="width=device-width, initial-scale=1">\n'
        f"<title>{xml(_title(report))}</title>\n"
        f"<style>\n{_file('page.css')}{svg.STYLE}</style>\n</head>\n<body>\n"
        f"{_header(report)}<main>\n{_navigation(report)}"
        f'<section id="findings" aria-label="The chosen finding">\n{articles}</section>\n</main>\n'
        f"<script>\n{_file('page.js')}</script>\n</body>\n</html>\n"
    )


def _file(name: str) -> str:
    return HERE.joinpath(name).read_text(encoding="utf-8")


def _title(report: Report) -> str:
    return words.plural(len(report.findings), "finding") if report.findings else "Report"


def _isolated(text: str) -> str:
    """The text alone, so that text from right to left turns nothing around it."""
    return f"<bdi>{xml(text)}</bdi>"


def _header(report: Report) -> str:
    out = f"<header>\n<h1>velodrome-report</h1>\n<p>{xml(words.outcome(report))}</p>\n"
    for kind, texts in (("Not looked at", words.unsaid(report)), ("Warning", words.warned(report))):
        out += "".join(f'<p class="warning">{kind}: {_isolated(text)}</p>\n' for text in texts)
    if report.known:
        names = ", ".join(_isolated(words.name(name)) for name in report.known)
        out += f'<p class="muted">Known, and left out: {names}</p>\n'
    return out + _every_run(report) + "</header>\n"


def _every_run(report: Report) -> str:
    """Each run: its seed, how it ended, what was seen in it."""
    if not report.runs:
        return ""
    rows = "".join(
        f"<tr>{''.join(f'<td>{_isolated(cell)}</td>' for cell in row)}</tr>\n"
        for row in words.runs(report)
    )
    told = words.of_runs(report) or words.plural(len(report.runs), "run")
    return f"<details>\n<summary>{xml(told)}</summary>\n<table>\n{rows}</table>\n</details>\n"


def _navigation(report: Report) -> str:
    if not report.findings:
        return ""
    numbered = list(enumerate(report.findings, 1))
    out = (
        '<nav aria-label="Findings">\n<div id="tools" hidden>\n'
        '<label>Filter <input id="filter" type="search" autocomplete="off" spellcheck="false"></label>\n'
        f'<p class="muted">{KEYS} <span id="count" role="status"></span></p>\n'
        '<p id="none" hidden>No finding has these words.</p>\n</div>\n'
    )
    for section in Section:
        items = [
            _item(number, finding, report)
            for number, finding in numbered
            if finding.section is section
        ]
        if items:
            out += _list(section, items)
    return out + "</nav>\n"


def _list(section: Section, items: List[str]) -> str:
    ordered = "<ol>\n" + "".join(items) + "</ol>\n"
    if section is Section.LIKELY:
        return ordered
    name = f"{words.SECTION_IN_WORDS[section]} ({len(items)})"
    return f"<details>\n<summary>{xml(name)}</summary>\n{ordered}</details>\n"


def _item(number: int, finding: Finding, report: Report) -> str:
    told = [words.place(finding.place), words.how_often(finding, report)]
    found_by = [words.claim(finding), finding.function.name, *told]
    return (
        f'<li data-words="{xml(" ".join(found_by))}">'
        f'<a href="#finding-{number}" title="{xml(words.claim(finding))}"><b>{_isolated(words.claim(finding, LIST_ROOM))}</b>'
        f"<small>{_isolated(told[0])}</small><small>{xml(told[1])}</small></a></li>\n"
    )


def _article(number: int, finding: Finding, report: Report, sources: Sources) -> str:
    told = [words.how_often(finding, report), words.counted(finding), finding.why]
    out = f'<article id="finding-{number}" aria-labelledby="title-{number}">\n'
    out += f'<h2 id="title-{number}">{_isolated(words.claim(finding))}</h2>\n'
    out += f'<p class="place">{_isolated(words.place(finding.place))}</p>\n'
    out += f"<p>{xml('; '.join(text for text in told if text))}</p>\n"
    if finding.function.name != finding.function.short:
        out += f'<p class="muted">In full: {_isolated(finding.function.name)}</p>\n'
    out += _events(finding)
    if finding.repeat:
        out += f"<h3>To repeat</h3>\n<pre>{xml(finding.repeat)}</pre>\n"
    out += f"<h3>Thread by thread</h3>\n<figure>\n{svg.within_page(lanes.of(finding, report))}</figure>\n"
    out += _story(finding) + _excerpts(finding, sources) + _stacks(finding.witness.events, report)
    return out + f"{_runs(finding)}</article>\n"


def _story(finding: Finding) -> str:
    """The cycle in words."""
    lines = story.told(finding)
    if not lines:
        return ""
    text = "\n".join(xml(line) for line in lines)
    return f"<details>\n<summary>In words</summary>\n<pre>{text}</pre>\n</details>\n"


def _events(finding: Finding) -> str:
    return f"<table>\n{''.join(map(_row, finding.witness.events))}</table>\n"


def _row(event: Event) -> str:
    kind = ' class="between"' if event.interrupts else ""
    cells = ["▸" if event.interrupts else "", *words.cells(event)]
    return f"<tr{kind}>{''.join(f'<td>{_isolated(cell)}</td>' for cell in cells)}</tr>\n"


def _runs(finding: Finding) -> str:
    """In which runs it was seen, and in which others it is possible."""
    other = [name for name in finding.possible if name not in finding.seen]
    out = "<details>\n<summary>Runs</summary>\n"
    for kind, names in (("Seen in", finding.seen), ("Possible in", other)):
        if names:
            out += f"<p>{kind}: {', '.join(map(_isolated, names))}</p>\n"
    return out + "</details>\n"


def _stacks(events: Sequence[Event], report: Report) -> str:
    """The blocks that were open around each event, innermost first."""
    if not any(event.stack for event in events):
        return ""
    rows = "".join(_row(event) + "".join(_calls(event, report)) for event in events)
    return f"<details>\n<summary>Calls around each event</summary>\n<table>\n{rows}</table>\n</details>\n"


def _calls(event: Event, report: Report) -> List[str]:
    lines = [("at", event.at, event.at_source or "")]
    lines += [("in", frame.called_at, frame.function) for frame in words.frames(event, report)]
    return [
        f'<tr class="call"><td></td><td>{word}</td><td>{_isolated(words.place(at))}</td>'
        f"<td>{_isolated(words.name(text))}</td><td></td></tr>\n"
        for word, at, text in lines
        if at or text
    ]


def _excerpts(finding: Finding, sources: Sources) -> str:
    """The lines of source around those of the finding, file by file."""
    wanted: dict[str, set[int]] = {}
    for place in [finding.place, *(event.place for event in finding.witness.events)]:
        if isinstance(place, Place) and place.line:
            wanted.setdefault(place.file, set()).add(place.line)
    run = finding.witness.run
    out = "".join(_excerpt(file, lines, sources.lines(file, run)) for file, lines in wanted.items())
    return f"<h3>Source</h3>\n{out}" if out else ""


def _excerpt(file: str, marked: "set[int]", lines: List[str]) -> str:
    shown = _near(marked, len(lines))
    if not shown:
        return ""
    out, before = "", shown[0] - 1
    for number in shown:
        out += "..\n" if number > before + 1 else ""
        mark = ">" if number in marked else " "
        out += f"{mark}{number:>6}  {xml(lines[number - 1])}\n"
        before = number
    return f'<p class="place">{_isolated(file)}</p>\n<pre>{out}</pre>\n'


def _near(marked: "set[int]", many: int) -> List[int]:
    """The numbers of the lines to show: those marked, what is near them, and short gaps."""
    near = sorted(
        {
            number
            for line in marked
            for number in range(line - CONTEXT, line + CONTEXT + 1)
            if 0 < number <= many
        }
    )
    return [
        number
        for first, end in zip(near, near[1:])
        for number in (range(first, end) if end - first <= LONGEST_GAP else [first])
    ] + near[-1:]
