"""The report as JUnit's XML, for tools that show the results of tests.

A case is a function that was looked at, or a kind of mistake that belongs to no one function. It
has one name whether it passes or fails, so that a test has a history.
"""

from __future__ import annotations

from dataclasses import dataclass
from typing import Dict, List, Optional

from ..model import Finding, Kind, Place, Report
from . import words
from .characters import xml

# the kinds that are one case for all their findings
TOGETHER = (Kind.STALE_WRITE, Kind.DEADLOCK, Kind.DEADLOCK_POSSIBLE)
LOOKED_AT = "looked at each run"
UNSAID = "nothing was looked at"


@dataclass(frozen=True)
class _Case:
    group: str
    name: str
    place: Optional[Place]
    element: str
    told: str
    text: str


def write(report: Report) -> str:
    """Returns one suite: a case for each function, each other kind of finding and the runs."""
    cases = _functions(report) + _kinds(report) + [_runs(report)]
    counts = f'tests="{len(cases)}"'
    for element, name in (("failure", "failures"), ("error", "errors"), ("skipped", "skipped")):
        counts += f' {name}="{sum(case.element == element for case in cases)}"'
    return (
        '<?xml version="1.0" encoding="UTF-8"?>\n'
        f'<testsuites name="velodrome-report" {counts}>\n'
        f'<testsuite name="velodrome-report" {counts}>\n'
        + "".join(map(_xml_of, cases))
        + "</testsuite>\n</testsuites>\n"
    )


def _functions(report: Report) -> List[_Case]:
    found: Dict[str, List[Finding]] = {name: [] for run in report.looked_at() for name in run.calls}
    for finding in report.findings:
        if finding.kind is Kind.NOT_ATOMIC:
            found.setdefault(finding.function.name, []).append(finding)
    return [_case("function", name, found[name], report) for name in sorted(found)]


def _kinds(report: Report) -> List[_Case]:
    return [
        _case(
            "program",
            words.KIND_IN_WORDS[kind],
            [one for one in report.findings if one.kind is kind],
            report,
        )
        for kind in TOGETHER
    ]


def _case(group: str, name: str, findings: List[Finding], report: Report) -> _Case:
    if not findings and not report.looked_at():
        return _Case(group, name, None, "skipped", UNSAID, "")
    if not findings:
        return _Case(group, name, None, "", "", "")
    told = "; ".join(words.sentence(finding, report) for finding in findings)
    text = "\n".join(_story(finding, report) for finding in findings)
    return _Case(group, name, findings[0].place, "failure", told, text)


def _story(finding: Finding, report: Report) -> str:
    lines = [f"{words.sentence(finding, report)}  {words.place(finding.place)}".rstrip()]
    lines += [f"  {row}" for row in words.rows(finding.witness.events)]
    lines += [f"  {line}" for line in (words.counted(finding), words.repeated(finding)) if line]
    return "\n".join(xml(line) for line in lines)


def _runs(report: Report) -> _Case:
    reasons = words.unsaid(report) or ([] if report.looked_at() else [UNSAID])
    if not reasons:
        return _Case("program", LOOKED_AT, None, "", "", "")
    return _Case(
        "program", LOOKED_AT, None, "error", "; ".join(reasons), "\n".join(map(xml, reasons))
    )


def _xml_of(case: _Case) -> str:
    head = f'<testcase classname="{case.group}" name="{xml(case.name)}"'
    if case.place is not None:
        head += f' file="{xml(case.place.file)}"'
        head += f' line="{case.place.line}"' if case.place.line else ""
    if not case.element:
        return f"{head}/>\n"
    inner = f'<{case.element} message="{xml(case.told)}">{case.text}</{case.element}>'
    return f"{head}>{inner}</testcase>\n"
