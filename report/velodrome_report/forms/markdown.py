"""The report as Markdown, for a ticket."""

from __future__ import annotations

import re
from typing import List

from ..model import Finding, Report, Section
from . import words
from .characters import visible

# what Markdown or the HTML in it would read as more than a character
_MARKS = re.compile(r"([\\`*_{}\[\]()<>#+!|~$&@-])")
LEAST_FENCE = 3


def write(report: Report) -> str:
    """Returns a heading for each section, one for each finding, and its events as they are."""
    out = f"# velodrome-report\n\n{_plain(words.outcome(report))}\n"
    out += f"\n{_plain(words.of_runs(report))}\n" if words.of_runs(report) else ""
    out += "".join(f"\n**Warning:** {_plain(text)}\n" for text in words.warned(report))
    out += "".join(f"\n**Not looked at:** {_plain(text)}\n" for text in words.unsaid(report))
    for section in Section:
        findings = report.in_section(section)
        if findings:
            out += f"\n## {_plain(words.SECTION_IN_WORDS[section])}\n"
        out += "".join(_finding(finding, report) for finding in findings)
    return out


def _plain(text: str) -> str:
    """The text as Markdown shows it, letter by letter."""
    return _MARKS.sub(r"\\\1", visible(text))


def _finding(finding: Finding, report: Report) -> str:
    told = [words.place(finding.place), words.how_often(finding, report), words.counted(finding)]
    out = f"\n### {_plain(words.claim(finding))}\n\n"
    out += _plain(", ".join(line for line in told if line)) + "\n"
    out += "\n" + _fenced(words.rows(finding.witness.events))
    if finding.repeat:
        out += "\nTo repeat:\n\n" + _fenced([visible(finding.repeat)])
    return out


def _fenced(lines: List[str]) -> str:
    """The lines as they are: the fence is longer than any that is in them."""
    runs = re.findall("`+", "\n".join(lines))
    fence = "`" * max([LEAST_FENCE, *(len(run) + 1 for run in runs)])
    return f"{fence}text\n" + "".join(f"{line}\n" for line in lines) + f"{fence}\n"
