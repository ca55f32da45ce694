"""The table of forms: under which name which module prints a report.

A form takes the report and gives its whole text. To add one, write a module with such a function
and put it into the table.
"""

from __future__ import annotations

from dataclasses import dataclass
from typing import Callable, Dict, Optional

from .. import as_json
from ..model import Finding, Report
from ..source import Sources
from . import dot, github, html, junit, lanes, markdown, sarif, svg, text


@dataclass
class Settings:
    """What a form may want to know beside the report.

    `width` is in columns. `explain` is the finding to show in full, and nothing else. `finding`
    is the one to draw, where a form draws a single one.
    """

    width: int = 80
    colours: bool = False
    by_count: bool = False
    innermost: bool = False
    # each run on a line of its own, behind the list
    runs: bool = False
    explain: Optional[Finding] = None
    finding: Optional[Finding] = None
    sources: Sources = Sources()


Form = Callable[[Report, Settings], str]


def _json(report: Report, settings: Settings) -> str:
    return as_json.write(report)


def _sarif(report: Report, settings: Settings) -> str:
    return sarif.write(report)


def _junit(report: Report, settings: Settings) -> str:
    return junit.write(report)


def _github(report: Report, settings: Settings) -> str:
    return github.write(report)


def _markdown(report: Report, settings: Settings) -> str:
    return markdown.write(report)


def _html(report: Report, settings: Settings) -> str:
    return html.write(report, settings.sources)


def _svg(report: Report, settings: Settings) -> str:
    return svg.write(lanes.of_one(report, settings.finding))


def _dot(report: Report, settings: Settings) -> str:
    return dot.write(lanes.of_one(report, settings.finding))


def _text(report: Report, settings: Settings) -> str:
    return text.write(report, settings.width, settings.colours, settings.explain, settings.runs)


# what --format takes
FORMATS: Dict[str, Form] = {
    "text": _text,
    "json": _json,
    "sarif": _sarif,
    "junit": _junit,
    "github": _github,
    "markdown": _markdown,
}

# what is written to a file of its own: --html FILE, --svg FILE, --dot FILE
FILES: Dict[str, Form] = {"html": _html, "svg": _svg, "dot": _dot}
