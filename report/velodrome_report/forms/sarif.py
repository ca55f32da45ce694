"""The report as a SARIF log, version 2.1.0: for code scanning, editors and other tools."""

from __future__ import annotations

import json
from typing import Any, Dict, List, Optional
from urllib.parse import quote

from .. import VERSION
from ..model import Event, Finding, Frame, Kind, Place, Report, Section
from . import words
from .characters import visible

SCHEMA = "https://json.schemastore.org/sarif-2.1.0.json"
LAST_LINE = 2**31 - 1
FINGERPRINT = "velodromeFinding/v1"

Object = Dict[str, Any]

RULES: Dict[Kind, Object] = {
    Kind.NOT_ATOMIC: {
        "id": "not-atomic",
        "name": "NotAtomic",
        "shortDescription": {"text": "A function that is not atomic"},
        "fullDescription": {
            "text": "What the function does was interrupted by another thread: no order in which"
            " it runs in one piece has the same result."
        },
    },
    Kind.STALE_WRITE: {
        "id": "stale-write",
        "name": "StaleWrite",
        "shortDescription": {"text": "A variable written from an old value"},
        "fullDescription": {
            "text": "A thread reads a variable, another thread writes it, and the first one writes"
            " it without reading it again: the write between them is lost."
        },
    },
    Kind.DEADLOCK: {
        "id": "deadlock",
        "name": "Deadlock",
        "shortDescription": {"text": "A deadlock that happened"},
        "fullDescription": {"text": "Each thread waits for what the next one holds."},
    },
    Kind.DEADLOCK_POSSIBLE: {
        "id": "deadlock-possible",
        "name": "DeadlockPossible",
        "shortDescription": {"text": "A deadlock that can happen"},
        "fullDescription": {
            "text": "In another order of the same run each thread waits for what the next one holds."
        },
    },
}
LEVELS = {Section.LIKELY: "error", Section.BY_DESIGN: "note", Section.FOLDED: "note"}


def write(report: Report) -> str:
    """Returns a SARIF log with one run and a result for each finding."""
    run = {
        "tool": {
            "driver": {
                "name": "velodrome-report",
                "version": VERSION,
                "rules": list(RULES.values()),
            }
        },
        "invocations": [_invocation(report)],
        "results": [_result(finding, report) for finding in report.findings],
    }
    log = {"$schema": SCHEMA, "version": "2.1.0", "runs": [run]}
    return json.dumps(log, ensure_ascii=False, separators=(",", ":")) + "\n"


def _message(text: str) -> Object:
    return {"text": visible(text)}


def _invocation(report: Report) -> Object:
    """What was looked at: reasons for which something cannot be said are errors of the tool."""
    notes = [{"level": "error", "message": _message(text)} for text in words.unsaid(report)]
    notes += [{"level": "warning", "message": _message(text)} for text in words.warned(report)]
    return {
        "executionSuccessful": bool(report.looked_at()),
        "exitCode": report.status(),
        "toolExecutionNotifications": notes,
    }


def _result(finding: Finding, report: Report) -> Object:
    result = {
        "ruleId": RULES[finding.kind]["id"],
        "ruleIndex": list(RULES).index(finding.kind),
        "level": LEVELS[finding.section],
        "message": _message(words.sentence(finding, report)),
        "locations": [_location(finding.place) | _function(finding)],
        "partialFingerprints": {FINGERPRINT: finding.id},
        "codeFlows": [{"threadFlows": _thread_flows(finding, report)}],
        "properties": _properties(finding, report),
    }
    return result


def _properties(finding: Finding, report: Report) -> Object:
    properties: Object = {
        "seen": len(finding.seen),
        "possible": len(finding.possible),
        "runs": report.counted(),
        "section": finding.section.value,
    }
    if finding.repeat:
        properties["repeat"] = visible(finding.repeat)
    return properties


def _function(finding: Finding) -> Object:
    logical = {"fullyQualifiedName": visible(finding.function.name), "kind": "function"}
    return {"logicalLocations": [logical]}


def _bytes_of(file: str) -> bytes:
    """The path as the system has it; a text that no path can be is written visibly."""
    try:
        return file.encode("utf-8", "surrogateescape")
    except UnicodeEncodeError:
        return visible(file).encode("utf-8")


def _uri(file: str) -> str:
    path = quote(_bytes_of(file), safe="/-._~")
    return f"file://{path}" if file.startswith("/") else path


def _location(place: Optional[Place], source: Optional[str] = None) -> Object:
    if place is None:
        return {}
    physical: Object = {"artifactLocation": {"uri": _uri(place.file)}}
    if 0 < place.line <= LAST_LINE:
        physical["region"] = {"startLine": place.line}
        if source:
            physical["region"]["snippet"] = {"text": visible(source)}
    return {"physicalLocation": physical}


def _thread_flows(finding: Finding, report: Report) -> List[Object]:
    """A flow for each thread; `executionOrder` says how they alternate."""
    return [
        {
            "id": str(thread),
            "message": _message(f"{thread} {thread.name or ''}".rstrip()),
            "locations": [
                _step(order, event, report)
                for order, event in enumerate(finding.witness.events, 1)
                if event.thread.number == thread.number
            ],
        }
        for thread in finding.witness.threads()
    ]


def _step(order: int, event: Event, report: Report) -> Object:
    message = {"message": _message(f"{event.thread} {event.does()}")}
    step: Object = {
        "executionOrder": order,
        "location": _location(event.place, event.source) | message,
        "importance": "essential",
    }
    around = words.frames(event, report)
    if around:
        step["stack"] = {"frames": [_frame(event.does(), event.at)] + list(map(_call, around))}
    return step


def _call(frame: Frame) -> Object:
    return _frame(frame.function, frame.called_at)


def _frame(text: str, place: Optional[Place]) -> Object:
    return {"location": _location(place) | {"message": _message(text)}}
