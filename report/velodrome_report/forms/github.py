"""The report as workflow commands of GitHub: a line of them is shown at its line of source."""

from __future__ import annotations

from typing import Dict, Optional

from ..model import Finding, Place, Report, Section
from . import words
from .characters import visible

LEVELS = {Section.LIKELY: "error", Section.BY_DESIGN: "notice", Section.FOLDED: "notice"}


def write(report: Report) -> str:
    """Returns an annotation for each finding, each warning and each run that was not looked at."""
    lines = [_annotation(finding, report) for finding in report.findings]
    lines += [_command("error", {}, text) for text in words.unsaid(report)]
    lines += [_command("warning", {}, text) for text in words.warned(report)]
    return "".join(f"{line}\n" for line in lines)


def _annotation(finding: Finding, report: Report) -> str:
    told = [words.how_often(finding, report)]
    told += words.rows(finding.witness.events)
    told += [line for line in (words.counted(finding), words.repeated(finding)) if line]
    properties = _at(finding.place) | {"title": words.claim(finding)}
    return _command(LEVELS[finding.section], properties, "\n".join(told))


def _at(place: Optional[Place]) -> Dict[str, str]:
    if place is None:
        return {}
    line = {"line": str(place.line)} if place.line else {}
    return {"file": place.file} | line


def _command(level: str, properties: Dict[str, str], text: str) -> str:
    given = ",".join(f"{name}={_property(value)}" for name, value in properties.items())
    return f"::{level}{' ' if given else ''}{given}::{_data(text)}"


def _data(text: str) -> str:
    lines = "\n".join(map(visible, text.split("\n")))
    return lines.replace("%", "%25").replace("\r", "%0D").replace("\n", "%0A")


def _property(text: str) -> str:
    return _data(visible(text)).replace(":", "%3A").replace(",", "%2C")
