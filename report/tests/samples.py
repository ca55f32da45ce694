"""Reports that the tests of the forms print: such as programs give, and such as nobody wants."""

from __future__ import annotations

import os
import sys
from dataclasses import replace
from typing import Dict, Optional, Tuple

HERE = os.path.dirname(os.path.abspath(__file__))
sys.path.insert(0, os.path.dirname(HERE))

from velodrome_report.model import (  # noqa: E402
    Action,
    Block,
    Counts,
    Event,
    Finding,
    Frame,
    Function,
    Kind,
    Place,
    Report,
    Run,
    Section,
    Target,
    TargetKind,
    Thread,
    Touched,
    Transaction,
    Witness,
)

SOURCE = os.path.join(HERE, "golden", "source")
# quotes, marks of each form, control characters, what XML 1.0 forbids, right to left, wide letters
HOSTILE = "a\"b'c<d>&e%f|g`h\\i\x00\x1b[31m\n\r\t\x85\u202e\u2028\ufffe\uffff]]>--*_{}#$:,\udc80"
RIGHT_TO_LEFT = "מחלקה::פעולה()"
WIDE = "類::方法(整数)"
LONG = (
    "std::map<std::string, std::vector<std::pair<int, double>>>::" * 12
) + "Cache::get_or_load(int)"


def target(kind: TargetKind, name: Optional[str], number: int = 0) -> Target:
    return Target(kind, number, name)


def lock(name: Optional[str], number: int = 0) -> Target:
    return target(TargetKind.LOCK, name, number)


def runs(many: int, calls: Dict[str, int]) -> list[Run]:
    return [
        Run(
            f"velodrome.runs/pool/{number}",
            command=("./pool",),
            seed=number,
            mode="exact",
            ended="exit 0",
            looked_at=True,
            events=1000 + number,
            threads=5,
            calls=dict(calls),
        )
        for number in range(1, many + 1)
    ]


def pool_event(thread: int, action: Action, position: int, line: int, interrupts: bool) -> Event:
    """An event of the pool whose acquire() asks available() and then pops."""
    source = {25: "if (!available()) return nullptr;", 26: "return pop();"}[line]
    call = {25: "Pool::available() const", 26: "Pool::pop()"}[line]
    at = Place("people/pool.cpp", {25: 17, 26: 19}[line])
    return Event(
        Thread(thread, "client(Pool&, int, int*)"),
        action,
        lock("pool.m_"),
        position,
        Place("people/pool.cpp", line),
        source,
        call,
        at,
        "std::lock_guard<std::mutex> g(m_);",
        interrupts,
        (
            Frame("client(Pool&, int, int*)", None, False),
            Frame("Pool::acquire()", Place("people/pool.cpp", 32), not interrupts),
            Frame(call, Place("people/pool.cpp", line), False),
        ),
    )


def pool_access(thread: int, action: Action, position: int, line: int) -> Event:
    """What a thread does under the lock of the pool."""
    what = target(TargetKind.VARIABLE, "pool.free_")
    at = Place("people/pool.cpp", line)
    return Event(Thread(thread), action, what, position, at, at=at)


def pool_finding(many: int = 20) -> Finding:
    names = tuple(f"velodrome.runs/pool/{number}" for number in range(1, many + 1))
    events = (
        pool_event(3, Action.UNLOCKS, 110, 25, False),
        pool_event(1, Action.LOCKS, 120, 25, True),
        pool_event(1, Action.UNLOCKS, 134, 26, True),
        pool_event(3, Action.LOCKS, 140, 26, False),
    )
    return Finding(
        Kind.NOT_ATOMIC,
        "pool_acquire",
        Function("Pool::acquire()", "Pool::acquire()", Place("people/pool.cpp", 24)),
        names[: max(1, many // 5)],
        names,
        Witness(
            names[0],
            False,
            events,
            ((0, 1), (2, 3)),
            (
                Transaction(Thread(3, "client(Pool&, int, int*)"), 100, 141, "Pool::acquire()"),
                Transaction(Thread(1, "client(Pool&, int, int*)"), 118, 136, "Pool::acquire()"),
            ),
            (Block("Pool::acquire()", 100, Place("people/pool.cpp", 32), events[1]),),
            (
                Touched(
                    0, pool_access(3, Action.READS, 108, 18), pool_access(1, Action.WRITES, 130, 20)
                ),
            ),
        ),
        Counts(1204, 31),
        why="gives up pool.m_ and takes it again around a read and a write of the same data",
        repeat="velodrome-record --mode serial --seed 7 -- ./pool",
    )


POOL_CALLS = {
    "Pool::acquire()": 80,
    "Pool::available() const": 80,
    "Pool::pop()": 61,
    "Pool::release(Connection*)": 60,
}


def pool() -> Report:
    """One finding in twenty runs."""
    return Report(runs=runs(20, POOL_CALLS), findings=[pool_finding()])


def three_threads() -> Finding:
    """No block alone is to blame, three threads, an arrow over a column, an event outside of blocks."""
    a, b, c = (Thread(number) for number in (1, 2, 3))
    names = [lock("table.lock"), lock(None, 4), lock("0x7ffd0b44f3b0")]

    def event(thread: Thread, action: Action, what: Target, position: int, line: int) -> Event:
        return Event(
            thread,
            action,
            what,
            position,
            Place("lib/table.c", line),
            interrupts=thread is not a,
        )

    events = (
        event(a, Action.UNLOCKS, names[0], 10, 11),
        event(c, Action.LOCKS, names[0], 12, 31),
        event(c, Action.WRITES, target(TargetKind.VARIABLE, "table.size"), 14, 33),
        event(b, Action.READS, target(TargetKind.VARIABLE, "table.size"), 16, 21),
        event(b, Action.UNLOCKS, names[1], 18, 22),
        event(a, Action.LOCKS, names[1], 20, 14),
    )
    return Finding(
        Kind.NOT_ATOMIC,
        "table_move",
        Function("table_move", "table_move", Place("lib/table.c", 9)),
        ("r/1",),
        ("r/1",),
        Witness(
            "r/1",
            True,
            events,
            ((0, 1), (2, 3), (4, 5)),
            (
                Transaction(a, 8, 22, "table_move"),
                Transaction(c, 11, 15, "table_add"),
                Transaction(b, 16, 18, None),
            ),
        ),
        section=Section.BY_DESIGN,
    )


def nested() -> Report:
    """Three blocks are to blame, one in the other; the other thread's block began before, and is as long."""
    finding = pool_finding(1)
    finding.id = "nested"
    begins = (("client(Pool&, int, int*)", 80), ("Pool::acquire()", 100), ("Pool::retry()", 104))
    finding.witness = replace(
        finding.witness,
        transactions=(
            Transaction(Thread(3, "client(Pool&, int, int*)"), 80, 150, "client(Pool&, int, int*)"),
            Transaction(Thread(1, "client(Pool&, int, int*)"), 90, 160, "client(Pool&, int, int*)"),
        ),
        blocks=tuple(Block(name, begin) for name, begin in begins),
    )
    return Report(runs(1, POOL_CALLS), [finding])


def _waiting(number: int, what: str, position: int, line: int, holds: bool) -> Event:
    return Event(
        Thread(number, "transfer(Account&, Account&)"),
        Action.HOLDS if holds else Action.WAITS,
        lock(what),
        position,
        Place("people/d.cpp", line),
        "std::lock_guard g(from.m);" if holds else "std::lock_guard h(to.m);",
    )


def deadlock(kind: Kind = Kind.DEADLOCK) -> Finding:
    events = (
        _waiting(1, "a.m", 5, 10, True),
        _waiting(2, "b.m", 6, 10, True),
        _waiting(1, "b.m", 7, 11, False),
        _waiting(2, "a.m", 8, 11, False),
    )
    return Finding(
        kind,
        kind.value,
        Function(
            "transfer(Account&, Account&)",
            "transfer(Account&, Account&)",
            Place("people/d.cpp", 11),
        ),
        ("r/1",) if kind is Kind.DEADLOCK else (),
        ("r/1",),
        Witness("r/1", kind is not Kind.DEADLOCK, events, ((2, 1), (3, 0))),
        repeat="velodrome-record --mode serial --seed 1 -- ./d",
    )


def stale() -> Finding:
    counter = target(TargetKind.VARIABLE, "counter")

    def event(thread: int, action: Action, position: int, line: int) -> Event:
        source = {11: "int old = counter;", 13: "counter = old + 1;"}[line]
        return Event(
            Thread(thread, "worker()"),
            action,
            counter,
            position,
            Place("people/counter.cpp", line),
            source,
            interrupts=thread == 2,
        )

    events = (
        event(1, Action.READS, 20, 11),
        event(2, Action.WRITES, 21, 13),
        event(1, Action.WRITES, 22, 13),
    )
    return Finding(
        Kind.STALE_WRITE,
        "worker_counter",
        Function("worker()", "worker()", Place("people/counter.cpp", 9)),
        ("r/1", "r/2"),
        ("r/1", "r/2"),
        Witness(
            "r/1",
            False,
            events,
            ((0, 1), (1, 2)),
            (
                Transaction(Thread(1, "worker()"), 19, 23, "worker()"),
                Transaction(Thread(2, "worker()"), 21, 21),
            ),
            (Block("worker()", 19, None),),
        ),
    )


def every_kind() -> Report:
    """Each kind and each section, a run that could not be looked at, warnings, a known function."""
    looked_at = runs(3, POOL_CALLS | {"table_move": 7, "table_add": 9})
    looked_at[1].warnings = ("worker() loops and was no block: give it one for each turn",)
    looked_at[2].ended = "signal 6"
    moved = Run("r/4", reasons=("the program was moved", "no function is known"))
    folded = pool_finding(3)
    folded.id, folded.section, folded.under = "client_folded", Section.FOLDED, "pool_acquire"
    folded.function = Function(
        "client(Pool&, int, int*)", "client(..)", Place("people/pool.cpp", 29)
    )
    findings = [
        pool_finding(3),
        stale(),
        deadlock(),
        deadlock(Kind.DEADLOCK_POSSIBLE),
        three_threads(),
        folded,
    ]
    return Report(
        looked_at + [moved],
        findings,
        known=("Queue::push(int)",),
        warnings=("40 events were dropped",),
        reasons=("half.o has no hooks",),
    )


def nothing_found() -> Report:
    return Report(runs=runs(20, POOL_CALLS))


def nothing_looked_at() -> Report:
    return Report(runs=[Run("run.1", reasons=("the program was rebuilt since",))])


def named(name: str) -> Report:
    """A report in which each name, file, line of source and word is this one."""
    place = Place(name, 7)
    frames = (Frame(name, place, True),)
    thread, other = Thread(1, name), Thread(2, name)
    what = Target(TargetKind.LOCK, 1, name)
    events = (
        Event(thread, Action.UNLOCKS, what, 5, place, name, name, place, name, False, frames),
        Event(other, Action.LOCKS, what, 6, place, name, name, place, name, True, frames),
        Event(thread, Action.LOCKS, what, 9, place, name, name, place, name, False, frames),
    )
    witness = Witness(
        name,
        False,
        events,
        ((0, 1), (1, 2)),
        (Transaction(thread, 4, 10, name), Transaction(other, 6, 7, name)),
        (Block(name, 4, place, events[1]),),
        (Touched(1, events[1], events[2]),),
    )

    def finding(kind: Kind, section: Section) -> Finding:
        return Finding(
            kind,
            f"id{kind.value}",
            Function(name, name, place),
            (name,),
            (name,),
            witness,
            Counts(3, 2),
            section,
            name,
            None,
            name,
        )

    findings = [finding(kind, Section.LIKELY) for kind in Kind]
    findings.append(finding(Kind.NOT_ATOMIC, Section.BY_DESIGN))
    run = Run(name, looked_at=True, calls={name: 3}, warnings=(name,))
    unseen = Run(name, reasons=(name,))
    return Report([run, unseen], findings, (name,), (name,), (name,))


REPORTS: Dict[str, Report] = {
    "pool": pool(),
    "every_kind": every_kind(),
    "nested": nested(),
    "nothing_found": nothing_found(),
    "nothing_looked_at": nothing_looked_at(),
    "hostile": named(HOSTILE),
    "right_to_left": named(RIGHT_TO_LEFT),
    "wide": named(WIDE),
    "long": named(LONG),
}
HOSTILE_REPORTS: Tuple[str, ...] = ("hostile", "right_to_left", "wide", "long")
