"""What the standard asks of the SARIF that a report gives: OASIS SARIF 2.1.0, sections 3.13 to 3.52, as its schema has it.

Of each object that a report uses: its properties with the type of each, an exclamation mark where the property has to
be there. The schema of the standard allows no others in these objects; those that no report uses are left out here.
"""

from __future__ import annotations

import re
from typing import Any, Callable, Dict, List
from urllib.parse import urlsplit

OBJECTS: Dict[str, Dict[str, str]] = {
    "sarifLog": {"$schema": "uri", "version!": "version", "runs!": "[run]"},
    "run": {"tool!": "tool", "invocations": "[invocation]", "results": "[result]"},
    "tool": {"driver!": "toolComponent"},
    "toolComponent": {"name!": "text", "version": "text", "rules": "[reportingDescriptor]"},
    "reportingDescriptor": {
        "id!": "text",
        "name": "text",
        "shortDescription": "multiformatMessageString",
        "fullDescription": "multiformatMessageString",
    },
    "multiformatMessageString": {"text!": "text"},
    "invocation": {
        "executionSuccessful!": "flag",
        "exitCode": "integer",
        "toolExecutionNotifications": "[notification]",
    },
    "notification": {"message!": "message", "level": "level"},
    "message": {"text!": "text"},
    "result": {
        "ruleId": "text",
        "ruleIndex": "natural",
        "level": "level",
        "message!": "message",
        "locations": "[location]",
        "partialFingerprints": "texts",
        "codeFlows": "[codeFlow]",
        "properties": "bag",
    },
    "location": {
        "physicalLocation": "physicalLocation",
        "logicalLocations": "[logicalLocation]",
        "message": "message",
    },
    "physicalLocation": {"artifactLocation!": "artifactLocation", "region": "region"},
    "artifactLocation": {"uri!": "uri"},
    "region": {"startLine!": "line", "snippet": "artifactContent"},
    "artifactContent": {"text!": "text"},
    "logicalLocation": {"fullyQualifiedName": "text", "kind": "text"},
    "codeFlow": {"threadFlows!": "[threadFlow]"},
    "threadFlow": {"id": "text", "message": "message", "locations!": "[threadFlowLocation]"},
    "threadFlowLocation": {
        "location": "location",
        "stack": "stack",
        "executionOrder": "natural",
        "importance": "importance",
    },
    "stack": {"frames!": "[stackFrame]"},
    "stackFrame": {"location": "location"},
}
# lists that have to have an item
FILLED = ("runs", "threadFlows", "locations in threadFlow")


def _is_uri(value: Any) -> bool:
    if not isinstance(value, str) or re.search(r"[^A-Za-z0-9\-._~:/?#\[\]@!$&'()*+,;=%]", value):
        return False
    path = str(urlsplit(value).path)
    return path != "" and re.search("%(?![0-9A-F]{2})", value) is None


VALUES: Dict[str, Callable[[Any], bool]] = {
    "uri": _is_uri,
    "version": lambda value: value in ("2.1.0",),
    "text": lambda value: isinstance(value, str) and value != "",
    "flag": lambda value: isinstance(value, bool),
    "integer": lambda value: isinstance(value, int) and not isinstance(value, bool),
    "natural": lambda value: isinstance(value, int) and value >= 0,
    "line": lambda value: isinstance(value, int) and 1 <= value < 2**31,
    "level": lambda value: value in ("none", "note", "warning", "error"),
    "importance": lambda value: value in ("important", "essential", "unimportant"),
    "texts": lambda value: isinstance(value, dict)
    and all(isinstance(text, str) for text in value.values()),
    "bag": lambda value: isinstance(value, dict),
}


def faults(log: Any) -> List[str]:
    """Returns where a log is not what the standard asks for."""
    found: List[str] = []
    _check(log, "sarifLog", "log", found)
    return found


def _check(value: Any, kind: str, path: str, found: List[str]) -> None:
    if kind.startswith("["):
        _check_list(value, kind[1:-1], path, found)
    elif kind in OBJECTS:
        _check_object(value, kind, path, found)
    elif not VALUES[kind](value):
        found.append(f"{path} is no {kind}: {value!r}")


def _check_list(value: Any, kind: str, path: str, found: List[str]) -> None:
    if not isinstance(value, list):
        found.append(f"{path} is no list")
        return
    for place, item in enumerate(value):
        _check(item, kind, f"{path}[{place}]", found)


def _check_object(value: Any, kind: str, path: str, found: List[str]) -> None:
    if not isinstance(value, dict):
        found.append(f"{path} is no object")
        return
    kinds = {name.rstrip("!"): inner for name, inner in OBJECTS[kind].items()}
    found += [
        f"{path}.{name[:-1]} is missing"
        for name in OBJECTS[kind]
        if name[-1] == "!" and name[:-1] not in value
    ]
    found += [f"{path}.{name} is no property of {kind}" for name in value if name not in kinds]
    for name, item in value.items():
        if name in kinds:
            _check(item, kinds[name], f"{path}.{name}", found)
        if item == [] and (name in FILLED or f"{name} in {kind}" in FILLED):
            found.append(f"{path}.{name} is empty")
