"""What a report says: findings over all runs, and what was looked at.

Every form (text, JSON, a page, ..) prints a `Report` and nothing else. No other module knows the
machine answers of the checker but `answers`, and no form decides anything: the order, the section
and the place of a finding stand here.
"""

from __future__ import annotations

from dataclasses import dataclass, field
from enum import Enum
from typing import Dict, List, Optional, Tuple


class Kind(str, Enum):
    """What was found."""

    NOT_ATOMIC = "not_atomic"
    STALE_WRITE = "stale_write"
    DEADLOCK = "deadlock"
    DEADLOCK_POSSIBLE = "deadlock_possible"


class Section(str, Enum):
    """Where a finding stands in the list."""

    LIKELY = "likely"
    BY_DESIGN = "by_design"
    FOLDED = "folded"


class Action(str, Enum):
    """What an event does to its target, in the words of a report."""

    READS = "reads"
    WRITES = "writes"
    LOCKS = "locks"
    UNLOCKS = "unlocks"
    SHARES = "shares"
    UNSHARES = "unshares"
    STARTS = "starts"
    JOINS = "joins"
    ENTERS = "enters"
    LEAVES = "leaves"
    ENDS = "ends"
    HOLDS = "holds"
    WAITS = "waits for"


class TargetKind(str, Enum):
    """What a target is."""

    VARIABLE = "variable"
    LOCK = "lock"
    THREAD = "thread"
    BLOCK = "block"
    NOTHING = "nothing"


@dataclass(frozen=True)
class Place:
    """A line of source. `line` is counted from 1, and 0 where it is not known."""

    file: str
    line: int = 0

    def __str__(self) -> str:
        return f"{self.file}:{self.line}" if self.line else self.file


@dataclass(frozen=True)
class Function:
    """A function that is a block. `short` is its name as a person would say it."""

    name: str
    short: str
    place: Optional[Place] = None


@dataclass(frozen=True)
class Thread:
    """A thread of a run, by its number in the log and its name if it has one."""

    number: int
    name: Optional[str] = None

    def __str__(self) -> str:
        return f"thread {self.number}"


@dataclass(frozen=True)
class Target:
    """What an event is about: a lock, a variable, a thread or a block."""

    kind: TargetKind
    number: Optional[int] = None
    name: Optional[str] = None

    def __str__(self) -> str:
        if self.name is not None:
            return self.name
        if self.kind is TargetKind.NOTHING:
            return ""
        return f"{self.kind.value} {self.number}"


@dataclass(frozen=True)
class Frame:
    """A block that was open around an event: its function, and where it was called."""

    function: str
    called_at: Optional[Place] = None
    # whether this very block is one of those to blame
    to_blame: bool = False


@dataclass(frozen=True)
class Event:
    """An event of a witness.

    `place` is the line to show: of an event inside the blamed function it is the line of that
    function, a call of another one perhaps, and `call` is who is called there. `at` is where the
    event itself happened. `position` is its place in the log that the witness is of, from 0 on;
    only the order of positions of one finding means something. `interrupts` says that another
    thread than that of the blamed block did it.
    """

    thread: Thread
    action: Action
    target: Target
    position: int
    place: Optional[Place] = None
    source: Optional[str] = None
    call: Optional[str] = None
    at: Optional[Place] = None
    at_source: Optional[str] = None
    interrupts: bool = False
    stack: Tuple[Frame, ...] = ()

    def does(self) -> str:
        """What the event does, as `unlocks pool.mutex_`."""
        return f"{self.action.value} {self.target}".rstrip()


@dataclass(frozen=True)
class Transaction:
    """A bar of the picture: what one thread did from `first` to `last` position as one piece.

    `function` is the outermost block, None for an event outside of blocks.
    """

    thread: Thread
    first: int
    last: int
    function: Optional[str] = None


@dataclass(frozen=True)
class Block:
    """A block to blame: its function, where it was called, the position of its begin.

    `interrupted_by` is an event that is between its begin and its end in every order.
    """

    function: str
    begin: int
    called_at: Optional[Place] = None
    interrupted_by: Optional[Event] = None


@dataclass(frozen=True)
class Touched:
    """A variable that both sides of an edge by a lock touch under this lock, one of them writing.

    `edge` is the place of the edge in its witness, from 0 on; `before` comes before `after`.
    """

    edge: int
    before: Event
    after: Event


@dataclass(frozen=True)
class Witness:
    """What explains a finding: events in their order, and which must come before which.

    `edges` are pairs of places in `events`, from 0 on: the first one collides with the second
    one and comes before it. Of a deadlock each thread has what it holds and what it waits for,
    and an edge leads from a wait to the hold that it waits for. Else edge N leads from
    transaction N to the next one, and the last edge to the first transaction.
    """

    run: str
    predicted: bool
    events: Tuple[Event, ...]
    edges: Tuple[Tuple[int, int], ...] = ()
    transactions: Tuple[Transaction, ...] = ()
    blocks: Tuple[Block, ...] = ()
    touched: Tuple[Touched, ...] = ()

    def threads(self) -> Tuple[Thread, ...]:
        """The threads of the events, by number."""
        found = {event.thread.number: event.thread for event in self.events}
        return tuple(found[number] for number in sorted(found))

    def targets(self) -> Tuple[Target, ...]:
        """The locks, variables and threads that its events are about, in their order."""
        return tuple(dict.fromkeys(event.target for event in self.events))


@dataclass(frozen=True)
class Counts:
    """Over all runs that were looked at: calls of the function, and how many were to blame."""

    calls: int = 0
    to_blame: int = 0


@dataclass(frozen=True)
class GapTrait:
    """The most telling gap of a finding: two events of the block, and who came in between.

    `tier` is 0 where a value is carried over the gap, 1 where it is looked at again, 2 where a
    variable is only seen twice, 3 for a lock alone.
    """

    # one call of another block, `callee`, has the whole gap
    inside_callee: bool = False
    # the gap is a wait
    in_wait: bool = False
    # a count that is changed by operations which cannot be interrupted
    counts: bool = False
    # both ends are at one place of a loop
    in_loop: bool = False
    # a piece of the heap that one call reads and another one writes: used again, perhaps
    used_again: bool = False
    tier: int = 3
    # somebody came in between, in some run; else it could have been
    seen: bool = False
    target: str = ""
    callee: str = ""

    def key(self) -> Tuple[bool, bool, bool, bool, bool, int, bool, str, str]:
        """The lesser key is the more telling gap."""
        return (
            self.inside_callee,
            self.in_wait,
            self.counts,
            self.in_loop,
            self.used_again,
            self.tier,
            not self.seen,
            self.target,
            self.callee,
        )


@dataclass(frozen=True)
class Traits:
    """What the runs together say of a finding, from which its place in the list is made."""

    gap: Optional[GapTrait] = None
    # variables alone, without any lock, make it not atomic, in some run
    data: bool = False
    # the logs had all variables, in each run
    all_variables: bool = True


@dataclass
class Finding:
    """One entry of the list.

    `seen` are the runs in which it happened, `possible` those in which it happened or, by the
    predictions, could have: each of `seen` is in `possible`. `id` is the same in every recording
    of the program. `rank` is why it stands where it does, one short sentence; `under` the id of
    the finding that it is folded under.
    """

    kind: Kind
    id: str
    function: Function
    seen: Tuple[str, ...]
    possible: Tuple[str, ...]
    witness: Witness
    counts: Counts = Counts()
    section: Section = Section.LIKELY
    why: str = ""
    under: Optional[str] = None
    repeat: Optional[str] = None
    traits: Traits = Traits()

    @property
    def place(self) -> Optional[Place]:
        """The one place of the finding, the same in every form: that of its function."""
        return self.function.place


@dataclass
class Run:
    """One run: what it was, what was looked at in it, and why nothing can be said of it."""

    name: str
    trace: Optional[str] = None
    log: Optional[str] = None
    # where the program ran
    folder: Optional[str] = None
    command: Tuple[str, ...] = ()
    seed: Optional[int] = None
    mode: Optional[str] = None
    noise: Optional[int] = None
    # what else of the environment changes what the recorder does with a program
    settings: Dict[str, str] = field(default_factory=dict)
    # how it ended, as `exit 0` or `signal 11`; None where nothing says so
    ended: Optional[str] = None
    looked_at: bool = False
    events: int = 0
    threads: int = 0
    # the calls of each function that was looked at, by its full name
    calls: Dict[str, int] = field(default_factory=dict)
    # why nothing can be said of the run; empty if it was looked at
    reasons: Tuple[str, ...] = ()
    warnings: Tuple[str, ...] = ()


class Status:
    """What the command ends with."""

    NOTHING_FOUND = 0
    USAGE = 2
    FOUND = 3
    NOTHING_SAID = 4
    FILES = 5


@dataclass
class Report:
    """The findings in the order in which they are to be read, and what was looked at."""

    runs: List[Run] = field(default_factory=list)
    findings: List[Finding] = field(default_factory=list)
    # the names of known functions that were left out
    known: Tuple[str, ...] = ()
    warnings: Tuple[str, ...] = ()
    # why nothing can be said, of no single run
    reasons: Tuple[str, ...] = ()

    def looked_at(self) -> List[Run]:
        """The runs of which something can be said."""
        return [run for run in self.runs if run.looked_at]

    def counted(self) -> int:
        """How many runs a finding is counted over: those looked at, or in which one was found."""
        found = {name for finding in self.findings for name in finding.possible}
        return sum(run.looked_at or run.name in found for run in self.runs)

    def functions(self) -> int:
        """How many functions were called in the runs that were looked at."""
        return len({name for run in self.looked_at() for name in run.calls})

    def calls(self) -> int:
        """How many calls of these functions were looked at."""
        return sum(sum(run.calls.values()) for run in self.looked_at())

    def seen_in(self, run: Run) -> List[Finding]:
        """The findings that were seen in a run, in their order."""
        return [finding for finding in self.findings if run.name in finding.seen]

    def atomic(self) -> int:
        """How many runs were looked at, and nothing was seen in them."""
        return sum(not self.seen_in(run) for run in self.looked_at())

    def in_section(self, section: Section) -> List[Finding]:
        """The findings of one section, in their order."""
        return [finding for finding in self.findings if finding.section is section]

    def under(self, finding: Finding) -> List[Finding]:
        """The findings that are folded under this one."""
        return [other for other in self.findings if other.under == finding.id]

    def status(self) -> int:
        """What the command ends with: 3 goes before 4."""
        if self.findings:
            return Status.FOUND
        if self.reasons or not self.runs or any(not run.looked_at for run in self.runs):
            return Status.NOTHING_SAID
        return Status.NOTHING_FOUND
