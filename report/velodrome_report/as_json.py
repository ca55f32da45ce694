"""A report as JSON, and back: what `--format json` prints and `--merge` reads."""

from __future__ import annotations

import dataclasses
import enum
import json
import re
import typing
from typing import Any, Dict

from .model import Finding, Report

# It changes if a member goes away or means something else.
SCHEMA = 1

# a byte of a name that is no UTF-8: JSON has it as an escape
_SURROGATE = re.compile("[\ud800-\udfff]")


class NotAReport(Exception):
    """The text is no report in JSON; its words say why."""


def write(report: Report) -> str:
    """The report as one object of JSON, with a newline at its end."""
    value: Dict[str, Any] = {
        "schema": SCHEMA,
        "tool": "velodrome-report",
        "status": report.status(),
    }
    value.update(_plain(report))
    text = json.dumps(value, ensure_ascii=False, separators=(",", ":"))
    return _SURROGATE.sub(lambda found: f"\\u{ord(found[0]):04x}", text) + "\n"


def read(text: str) -> Report:
    """The report that `write` made this text of. Raises `NotAReport`."""
    try:
        value = json.loads(text)
    except ValueError as reason:
        raise NotAReport(f"no JSON: {reason}") from None
    except RecursionError:
        raise NotAReport("no JSON of a report: it nests too deep") from None
    if not isinstance(value, dict) or value.get("tool") != "velodrome-report":
        raise NotAReport("no answer of velodrome-report --format json")
    if value.get("schema") != SCHEMA:
        raise NotAReport(f"of another version: its schema is {value.get('schema')}, not {SCHEMA}")
    report = _typed(Report, value, "the report")
    assert isinstance(report, Report)
    for finding in report.findings:
        _check(finding)
    return report


def _check(finding: Finding) -> None:
    """What a form takes for granted of a finding."""
    many = len(finding.witness.events)
    if not many:
        raise NotAReport(f"finding {finding.id} has no events")
    if any(not 0 <= event < many for edge in finding.witness.edges for event in edge):
        raise NotAReport(f"an edge of finding {finding.id} has no such event")
    if not set(finding.seen) <= set(finding.possible):
        raise NotAReport(f"finding {finding.id} was seen in a run in which it is not possible")


def _plain(value: Any) -> Any:
    """A value of the model as JSON has it."""
    if isinstance(value, enum.Enum):
        return value.value
    if dataclasses.is_dataclass(value):
        return {
            member.name: _plain(getattr(value, member.name)) for member in dataclasses.fields(value)
        }
    if isinstance(value, dict):
        return {key: _plain(item) for key, item in value.items()}
    if isinstance(value, (list, tuple)):
        return [_plain(item) for item in value]
    return value


def _typed(wanted: Any, value: Any, where: str) -> Any:
    """The value of the wanted type that this JSON stands for."""
    origin, inner = typing.get_origin(wanted), typing.get_args(wanted)
    if origin is typing.Union:
        return None if value is None else _typed(inner[0], value, where)
    if origin in (list, tuple):
        items = _of(list, value, where)
        if origin is tuple and inner[-1] is not Ellipsis:
            if len(items) != len(inner):
                raise NotAReport(f"{where} has {len(items)} items and not {len(inner)}")
            return tuple(_typed(kind, item, where) for kind, item in zip(inner, items))
        return origin(_typed(inner[0], item, where) for item in items)
    if origin is dict:
        entries = _of(dict, value, where)
        return {key: _typed(inner[1], item, where) for key, item in entries.items()}
    if isinstance(wanted, type) and issubclass(wanted, enum.Enum):
        return _member(wanted, value, where)
    if dataclasses.is_dataclass(wanted):
        return _record(wanted, value, where)
    return _of(wanted, value, where)


def _of(wanted: Any, value: Any, where: str) -> Any:
    if isinstance(value, wanted) and not (wanted is int and isinstance(value, bool)):
        return value
    raise NotAReport(f"{where} is no {wanted.__name__}")


def _member(wanted: Any, value: Any, where: str) -> Any:
    try:
        return wanted(value)
    except ValueError:
        raise NotAReport(f"{where} is unknown: {value}") from None


def _record(wanted: Any, value: Any, where: str) -> Any:
    """A dataclass; members that it does not have are passed over, for versions to come."""
    members = _of(dict, value, where)
    kinds = typing.get_type_hints(wanted)
    found = {
        member.name: _typed(kinds[member.name], members[member.name], member.name)
        for member in dataclasses.fields(wanted)
        if member.name in members
    }
    try:
        return wanted(**found)
    except TypeError:
        raise NotAReport(f"{where} lacks a member") from None
