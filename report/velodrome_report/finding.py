"""Makes findings of what the checker said of each run, one for each function over all runs."""

from __future__ import annotations

import hashlib
from dataclasses import dataclass, field, replace
from typing import Dict, List, Optional, Sequence, Set, Tuple

from . import choice, deadlocks, racing
from .answers import Alarm, End, OpenBlock, Step
from .gap import Gap
from .judge import Looked
from .model import (
    Action,
    Block,
    Counts,
    Event,
    Finding,
    Frame,
    Function,
    GapTrait,
    Kind,
    Place,
    TargetKind,
    Traits,
    Transaction,
    Witness,
)


# how the recorder's names begin of memory that was allocated and has no other name
HEAP = "heap "


def identity(kind: Kind, *words: str) -> str:
    """What is the same of a finding in each recording of the program: twelve hex digits."""
    return hashlib.sha1("\n".join([kind.value, *words]).encode()).hexdigest()[:12]


# ---- a witness of an alarm


def witness(run: str, alarm: Alarm, label: int, predicted: bool) -> Optional[Witness]:
    """The witness of an alarm as it is told of one function; None if the alarm has none."""
    if alarm.cycle is None:
        return None
    mine = alarm.closing.thread.number
    blamed = {block.begin.position for block in alarm.blocks} if alarm.to_blame else set()
    ends: Dict[int, End] = {}
    for edge in alarm.cycle.edges:
        for end in edge:
            ends.setdefault(end.step.position, end)
    order = sorted(ends)
    index = {position: place for place, position in enumerate(order)}
    return Witness(
        run=run,
        predicted=predicted,
        events=tuple(_event(ends[position], label, mine, blamed) for position in order),
        edges=tuple(
            (index[first.step.position], index[second.step.position])
            for first, second in alarm.cycle.edges
        ),
        transactions=tuple(_transaction(*ends) for ends in alarm.cycle.transactions),
        blocks=tuple(_block(block, alarm) for block in alarm.blocks) if alarm.to_blame else (),
    )


def _event(end: End, label: int, mine: int, blamed: Set[int]) -> Event:
    step = end.step
    inner = _call_inside(end.inside, label)
    return Event(
        thread=step.thread,
        action=step.action,
        target=step.target,
        position=step.position,
        place=step.at if inner is None else inner.begin.at,
        call=None if inner is None else inner.label.word(),
        at=step.at,
        interrupts=step.thread.number != mine,
        stack=tuple(
            Frame(block.label.word(), block.begin.at, block.begin.position in blamed)
            for block in end.inside
        ),
    )


def _call_inside(inside: Sequence[OpenBlock], label: int) -> Optional[OpenBlock]:
    """The block that the function itself called around an event; None for its own lines."""
    for place, block in enumerate(inside):
        if block.label.number == label and place + 1 < len(inside):
            inner = inside[place + 1]
            return inner if inner.begin.at is not None else None
    return None


def _transaction(first: Step, last: Step) -> Transaction:
    named = first.action is Action.ENTERS and first.target.kind is TargetKind.BLOCK
    return Transaction(
        thread=first.thread,
        first=first.position,
        last=last.position,
        function=str(first.target) if named else None,
    )


def _block(block: OpenBlock, alarm: Alarm) -> Block:
    begin = block.begin
    reasons = alarm.cycle.reasons if alarm.cycle is not None else ()
    steps = [step for of, step in reasons if of.begin.position == begin.position]
    by = _reason(steps[0]) if steps else None
    return Block(block.label.word(), begin.position, begin.at, by)


def _reason(step: Step) -> Event:
    """The event that interrupts a block."""
    return Event(
        step.thread, step.action, step.target, step.position, step.at, at=step.at, interrupts=True
    )


# ---- functions over all runs


@dataclass
class Entry:
    """What all runs said of one function up to now."""

    name: str
    place: Optional[Place] = None
    seen: List[str] = field(default_factory=list)
    possible: List[str] = field(default_factory=list)
    witnesses: List[Witness] = field(default_factory=list)
    gap: Optional[GapTrait] = None
    data: bool = False
    all_variables: bool = True
    to_blame: int = 0


class Gathering:
    """Takes runs, one after the other, and gives the findings of all."""

    def __init__(self) -> None:
        self.functions: Dict[str, Entry] = {}
        self.others: Dict[str, Finding] = {}

    def take(self, looked: Looked) -> None:
        """What was found in a run."""
        self._take_alarms(looked)
        self._take_deadlocks(looked)
        self._take_stale(looked)

    def findings(self) -> List[Finding]:
        """The findings, in no order yet."""
        made = [_finding(entry) for entry in self.functions.values() if entry.witnesses]
        return made + list(self.others.values())

    # ---- blocks that are not atomic

    def _take_alarms(self, looked: Looked) -> None:
        name = looked.run.name
        seen: Set[int] = set()
        foretold: Set[int] = set()
        if looked.audit is not None:
            for alarm in looked.audit.alarms:
                seen.update(self._take_alarm(looked, alarm, False))
        for alarm in (*looked.data_alarms, *looked.closer):
            self._take_alarm(looked, alarm, False)
        if looked.predictions is not None:
            for alarm in looked.predictions.alarms:
                foretold.update(self._take_alarm(looked, alarm, True))
        data = {
            block.label.number
            for alarm in looked.data_alarms
            for block in alarm.blocks
            if not _only_counts(alarm, looked)
        } | looked.together
        for label in seen | foretold:
            entry = self._entry(looked, label)
            if label in seen:
                entry.seen.append(name)
            entry.possible.append(name)
            entry.data = entry.data or label in data
            entry.all_variables = entry.all_variables and looked.all_variables
            self._take_gaps(looked, label, entry)
            if looked.audit is not None:
                entry.to_blame += looked.audit.counts.get(label, (0, 0))[1]

    def _take_alarm(self, looked: Looked, alarm: Alarm, predicted: bool) -> Set[int]:
        labels = {block.label.number for block in alarm.blocks}
        for block in alarm.blocks:
            entry = self._entry(looked, block.label.number, block)
            made = witness(looked.run.name, alarm, block.label.number, predicted)
            if made is not None:
                entry.witnesses = [choice.best([*entry.witnesses, made])]
        return labels

    def _entry(self, looked: Looked, label: int, block: Optional[OpenBlock] = None) -> Entry:
        described = looked.beside.functions.get(label)
        name = described.name if described else looked.beside.labels.get(label)
        if name is None:
            name = block.label.word() if block else f"block {label}"
        entry = self.functions.setdefault(name, Entry(name))
        if described is not None and described.place is not None:
            entry.place = described.place
        elif entry.place is None and block is not None:
            entry.place = block.begin.at
        return entry

    def _take_gaps(self, looked: Looked, label: int, entry: Entry) -> None:
        gaps = looked.scanned.gaps.get(label)
        if gaps is None:
            return
        counters = looked.scanned.counters
        for found, seen in ((gaps.seen, True), (gaps.possible, False)):
            for gap in found.values():
                trait = _trait(gap, seen, looked, counters)
                if entry.gap is None or trait.key() < entry.gap.key():
                    entry.gap = trait

    # ---- deadlocks

    def _take_deadlocks(self, looked: Looked) -> None:
        for happened in deadlocks.circles(looked.waits, looked.beside.notes.circles):
            self._take_circle(looked, happened, True)
        if looked.predictions is not None and looked.log is not None:
            for waiting in looked.predictions.circles:
                tried = looked.beside.tried
                found = deadlocks.predicted(looked.log, looked.sites, waiting, tried)
                if found is not None:
                    self._take_circle(looked, found, False)

    def _take_circle(self, looked: Looked, found: deadlocks.Circle, happened: bool) -> None:
        names = {number: name for number, name in looked.beside.threads.items()}
        made = deadlocks.witness(looked.run.name, found, names, happened)
        wait = found.waits[0]
        title = list(dict.fromkeys(one.function or str(one.at or "?") for one in found.waits))
        function = Function(" and ".join(title), " and ".join(title), wait.at)
        run = (looked.run.name,)
        self._put(
            Finding(
                kind=Kind.DEADLOCK if happened else Kind.DEADLOCK_POSSIBLE,
                id=deadlocks.identity(found),
                function=function,
                seen=run if happened else (),
                possible=run,
                witness=made,
            )
        )

    # ---- values that were written from an old one

    def _take_stale(self, looked: Looked) -> None:
        for one, audit in looked.stale:
            self._take_old_value(looked, audit.alarms[0], one.function, one.place, one.variable)
        for gap, alarm in looked.racing:
            function, place = _of_piece(looked, gap)
            variable = looked.beside.variables.get(gap.variable)
            self._take_old_value(looked, alarm, function, place, variable, could=True)

    def _take_old_value(
        self,
        looked: Looked,
        alarm: Alarm,
        function: Optional[str],
        place: Optional[Place],
        variable: Optional[str],
        could: bool = False,
    ) -> None:
        """A value that was written from an old one, or could be."""
        label = alarm.blocks[0].label
        made = witness(looked.run.name, alarm, label.number, could)
        if made is None:
            return
        name = function or label.word()
        told = [str(target) for target in made.targets() if target.kind is TargetKind.VARIABLE]
        written = variable or (told[0] if told else "a variable")
        run = (looked.run.name,)
        own = [event for event in made.events if not event.interrupts]
        calls = [event.call for event in (*own[:1], *own[-1:])]
        trait = GapTrait(
            tier=0,
            seen=not could,
            in_loop=None not in calls and own[0].place == own[-1].place,
            target=written,
            used_again=written.startswith(HEAP) and None not in calls,
        )
        self._put(
            Finding(
                kind=Kind.STALE_WRITE,
                id=identity(Kind.STALE_WRITE, name, written),
                function=Function(name, name, place or alarm.blocks[0].begin.at),
                seen=() if could else run,
                possible=run,
                witness=made,
                traits=Traits(gap=trait, data=True),
            )
        )

    def _put(self, finding: Finding) -> None:
        known = self.others.get(finding.id)
        self.others[finding.id] = finding if known is None else joined(known, finding)


def joined(one: Finding, other: Finding) -> Finding:
    """Two findings of one mistake, in different runs, as one."""
    kinds = {one.kind, other.kind}
    gaps = [trait for trait in (one.traits.gap, other.traits.gap) if trait is not None]
    return replace(
        one,
        kind=Kind.DEADLOCK if Kind.DEADLOCK in kinds else one.kind,
        seen=tuple(dict.fromkeys(one.seen + other.seen)),
        possible=tuple(dict.fromkeys(one.possible + other.possible)),
        witness=_better(one, other),
        counts=Counts(
            one.counts.calls + other.counts.calls, one.counts.to_blame + other.counts.to_blame
        ),
        traits=Traits(
            gap=min(gaps, key=GapTrait.key) if gaps else None,
            data=one.traits.data or other.traits.data,
            all_variables=one.traits.all_variables and other.traits.all_variables,
        ),
    )


def _better(one: Finding, other: Finding) -> Witness:
    """The better witness of both; of a deadlock one that happened before one that could."""
    if one.witness.predicted != other.witness.predicted and one.kind is not Kind.NOT_ATOMIC:
        return other.witness if one.witness.predicted else one.witness
    return choice.best([one.witness, other.witness])


def _finding(entry: Entry) -> Finding:
    return Finding(
        kind=Kind.NOT_ATOMIC,
        id=identity(Kind.NOT_ATOMIC, entry.name),
        function=Function(entry.name, entry.name, entry.place),
        seen=tuple(entry.seen),
        possible=tuple(entry.possible),
        witness=entry.witnesses[0],
        counts=Counts(0, entry.to_blame),
        traits=Traits(entry.gap, entry.data, entry.all_variables),
    )


def _of_piece(looked: Looked, gap: racing.Gap) -> Tuple[Optional[str], Optional[Place]]:
    """The function that has both ends of a gap: its innermost block, or that of its lines."""
    block = gap.block()
    if block is None:
        name = looked.sites.at(gap.before.position)[1]
        loops = {function: place for function, place in looked.beside.notes.loops}
        return name, loops.get(name or "")
    label = racing.label_of(block)
    described = looked.beside.functions.get(label)
    if described is not None:
        return described.name, described.place
    return looked.beside.labels.get(label), None


def _trait(gap: Gap, seen: bool, looked: Looked, counters: "frozenset[int]") -> GapTrait:
    names = looked.beside.locks if gap.is_lock else looked.beside.variables
    word = "lock" if gap.is_lock else "variable"
    labels = looked.beside.labels
    target = names.get(gap.number, f"{word} {gap.number}")
    return GapTrait(
        inside_callee=gap.inside_callee,
        in_wait=gap.in_wait,
        counts=gap.counts and not gap.is_lock and gap.number in counters,
        in_loop=gap.in_loop,
        tier=int(gap.tier),
        seen=seen,
        target=target,
        callee="" if gap.callee < 0 else labels.get(gap.callee, f"block {gap.callee}"),
    )


def _only_counts(alarm: Alarm, looked: Looked) -> bool:
    """Whether each variable of a cycle is a count, or is set up by the block to blame, once."""
    if alarm.cycle is None:
        return False
    mine = alarm.closing.thread.number
    ends = [end.step for edge in alarm.cycle.edges for end in edge]
    steps = [step for step in ends if step.target.kind is TargetKind.VARIABLE]
    numbers = {step.target.number for step in steps}
    set_up = {
        step.target.number
        for step in steps
        if step.action is Action.WRITES
        and step.thread.number == mine
        and step.target.number in looked.scanned.once
    }
    return bool(numbers) and numbers <= looked.scanned.counters | set_up
