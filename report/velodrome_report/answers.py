"""The answers of the checker as JSON: the one module that knows their form.

What it gives are values of its own, in the words of the log. `finding` makes a report's findings
of them.
"""

from __future__ import annotations

import json
import re
from dataclasses import dataclass
from typing import Any, Dict, List, Optional, Tuple

from .model import Action, Place, Target, TargetKind, Thread

SCHEMA = 1
SITE = re.compile(r"(.+?):([1-9]\d{0,9})(?: (.*))?$", re.S)
ACTIONS = {
    "rd": (Action.READS, TargetKind.VARIABLE),
    "wr": (Action.WRITES, TargetKind.VARIABLE),
    "acq": (Action.LOCKS, TargetKind.LOCK),
    "rel": (Action.UNLOCKS, TargetKind.LOCK),
    "acqs": (Action.SHARES, TargetKind.LOCK),
    "rels": (Action.UNSHARES, TargetKind.LOCK),
    "begin": (Action.ENTERS, TargetKind.BLOCK),
    "end": (Action.LEAVES, TargetKind.NOTHING),
    "fork": (Action.STARTS, TargetKind.THREAD),
    "join": (Action.JOINS, TargetKind.THREAD),
    "exit": (Action.ENDS, TargetKind.NOTHING),
}


class NotAnAnswer(Exception):
    """The text is no answer of the checker; its words say why."""


@dataclass(frozen=True)
class Label:
    """A label of a log. Without a name it is known by its number."""

    number: int
    name: Optional[str]

    def word(self) -> str:
        """The name of the function that it stands for."""
        return self.name if self.name is not None else f"block {self.number}"


@dataclass(frozen=True)
class Step:
    """An event of a log. `at` and `function` are its site."""

    position: int
    line: int
    thread: Thread
    action: Action
    target: Target
    at: Optional[Place]
    function: Optional[str]


@dataclass(frozen=True)
class OpenBlock:
    """A block, by its label and the event that begins it."""

    label: Label
    begin: Step


@dataclass(frozen=True)
class End:
    """An end of an edge: an event, and the blocks that are open before it, outermost first."""

    step: Step
    inside: Tuple[OpenBlock, ...]


@dataclass(frozen=True)
class Cycle:
    """The witness of an alarm."""

    transactions: Tuple[Tuple[Step, Step], ...]
    edges: Tuple[Tuple[End, End], ...]
    reasons: Tuple[Tuple[OpenBlock, Step], ...]


@dataclass(frozen=True)
class Alarm:
    """A round with an alarm: the blocks whose labels are not atomic, outermost first."""

    blocks: Tuple[OpenBlock, ...]
    to_blame: bool
    closing: Step
    cycle: Optional[Cycle]


@dataclass(frozen=True)
class Waiting:
    """What a thread of a circle waits to do."""

    thread: Thread
    action: Action
    target: Target
    at: Optional[Place]
    function: Optional[str]


@dataclass(frozen=True)
class Audit:
    """The answer of an audit. `counts` is of each label its blocks, and those to blame."""

    log: str
    alarms: Tuple[Alarm, ...]
    counts: Dict[int, Tuple[int, int]]
    atomic: int
    # the labels that the options leave out
    left_out: Tuple[int, ...] = ()


@dataclass(frozen=True)
class Predictions:
    """The answer about other runs: alarms, and circles of threads that wait."""

    log: str
    own_alarms: Tuple[Alarm, ...]
    alarms: Tuple[Alarm, ...]
    circles: Tuple[Tuple[Waiting, ...], ...]


def site(text: Optional[str]) -> Tuple[Optional[Place], Optional[str]]:
    """The place and the function of a site, `FILE:LINE FUNCTION`; None for what it lacks."""
    found = SITE.match((text or "").split(" | ")[0])
    if found is None:
        return None, None
    return Place(found[1], int(found[2])), found[3]


def kind(text: str) -> str:
    """What the text of JSON is: `audit`, `predictions`, or another word that says what it is."""
    value = _parsed(text)
    if value.get("tool") == "velodrome-report":
        return "report"
    for name, members in (("predictions", ("predictions", "log")), ("audit", ("alarms", "rounds"))):
        if all(member in value for member in members):
            return name
    for name, member in (("explanation", "serial"), ("summary", "logs"), ("exploration", "search")):
        if member in value:
            return name
    return "something else"


def audit(text: str) -> Audit:
    """The answer of `velodrome audit --format json`. Raises `NotAnAnswer`."""
    value = _parsed(text)
    try:
        listed = (value.get("counts") or {"labels": []})["labels"]
        return Audit(
            log=value["log"],
            alarms=tuple(_alarm(alarm) for alarm in value["alarms"]),
            counts={item["label"]["number"]: (item["blocks"], item["to_blame"]) for item in listed},
            atomic=value["atomic"],
            left_out=tuple(label["number"] for label in value["left_out"]["labels"]),
        )
    except (KeyError, TypeError, IndexError, ValueError, AttributeError):
        raise NotAnAnswer("no answer of velodrome audit --format json") from None


def predictions(text: str) -> Predictions:
    """The answer of `velodrome predict --format json`. Raises `NotAnAnswer`."""
    value = _parsed(text)
    try:
        found = value["predictions"]
        return Predictions(
            log=value["log"],
            own_alarms=tuple(_alarm(alarm) for alarm in value["alarms"]),
            alarms=tuple(_alarm(one["alarm"]) for one in found if one["kind"] == "not atomic"),
            circles=tuple(
                tuple(_waiting(item) for item in one["circle"])
                for one in found
                if one["kind"] == "deadlock"
            ),
        )
    except (KeyError, TypeError, IndexError, ValueError, AttributeError):
        raise NotAnAnswer("no answer of velodrome predict --format json") from None


def _parsed(text: str) -> Dict[str, Any]:
    try:
        value = json.loads(text)
    except (ValueError, RecursionError):
        raise NotAnAnswer("no JSON") from None
    if not isinstance(value, dict):
        raise NotAnAnswer("no object of JSON")
    if value.get("schema") != SCHEMA:
        raise NotAnAnswer(f"an answer of another version: its schema is {value.get('schema')}")
    return value


def _named(value: Any) -> Thread:
    return Thread(int(value["number"]), value["name"])


def _label(value: Any) -> Label:
    return Label(int(value["number"]), value["name"])


def _done(text: str, name: Optional[str]) -> Tuple[Action, Target]:
    """What an event does to what, of its text as in a log: `0 wr 3 1`."""
    words: List[str] = text.split()
    action, target = ACTIONS[words[1]]
    if target is TargetKind.NOTHING:
        return action, Target(target)
    return action, Target(target, int(words[2]), name)


def _step(value: Any) -> Step:
    action, target = _done(value["text"], value["name"])
    at, function = site(value["site"])
    return Step(
        int(value["position"]),
        int(value["line"]),
        _named(value["thread"]),
        action,
        target,
        at,
        function,
    )


def _block(value: Any) -> OpenBlock:
    return OpenBlock(_label(value["label"]), _step(value["begin"]))


def _end(value: Any) -> End:
    return End(_step(value["event"]), tuple(_block(block) for block in value["inside"]))


def _alarm(value: Any) -> Alarm:
    return Alarm(
        blocks=tuple(_block(block) for block in value["blocks"]),
        to_blame=bool(value["to_blame"]),
        closing=_step(value["closing"]),
        cycle=None if value["witness"] is None else _cycle(value["witness"]),
    )


def _cycle(value: Any) -> Cycle:
    return Cycle(
        transactions=tuple((_step(t["first"]), _step(t["last"])) for t in value["transactions"]),
        edges=tuple((_end(edge["from"]), _end(edge["to"])) for edge in value["edges"]),
        reasons=tuple((_block(r["block"]), _step(r["event"])) for r in value["reasons"]),
    )


def _waiting(value: Any) -> Waiting:
    action, target = _done(value["text"], value["name"])
    at, function = site(value["site"])
    return Waiting(_named(value["thread"]), action, target, at, function)
