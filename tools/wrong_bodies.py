"""Looks whether each well-known wrong body is refused by an edit that the gate tries, or caught by a test that it runs.

    python3 tools/wrong_bodies.py

The table has the bodies that the specification names, each by what it does wrong, with the edits of crates/NAME/must-fail that
have it, as NAME/EDIT, or where no contract can refuse it with a test's name. A body fails where an edit is not there or cannot be
applied, or no crate has the test. The last line is `N passed, N failed`.
"""
import glob
import os
import re
import sys
from typing import Iterator, List, NamedTuple, Set, Tuple

from edits import TOP, trouble


class Body(NamedTuple):
    """A wrong body: what it does, the edits that have it, and the tests that catch it."""

    does: str
    edits: Tuple[str, ...] = ()
    tests: Tuple[str, ...] = ()


BODIES = (
    Body(
        "looks for cycles only at the end of a block",
        ("velo_world/Analysis.raise_alarm-looks_only_at_the_end_of_a_block",),
    ),
    Body("names the event after the closing one", ("velo_world/alarm_at-names_the_next_event",)),
    Body(
        "merges an operation outside blocks into an unfinished node",
        ("velo_merge/takes_all-merged_into_an_unfinished_node",),
    ),
    Body(
        "collects an unfinished node that has no ancestors",
        ("velo_graph/is_done-unfinished_node_freed",),
    ),
    Body(
        "knows a step by its slot alone",
        (
            "velo_arena/Arena.resolve-by_slot_alone",
            "velo_arena/Step.renamed-by_slot_alone",
            "velo_merge/is_last-by_slot_alone",
            "velo_monitor/closes_or_adds-by_slot_alone",
        ),
    ),
    Body(
        "has a write forget the reads of other threads",
        ("velo_tables/push_reads_of-write_forgets_other_readers",),
    ),
    Body(
        "makes no edge of a fork or a join",
        (
            "velo_events/conflicts-forgets_forks_and_joins",
            "velo_tables/Tables.record_beside-fork_records_nothing_of_the_child",
            "velo_tables/Tables.step_beside-join_looks_up_nothing_of_the_joined",
        ),
    ),
    Body(
        "adds an edge, and does not carry ancestors to what it reaches",
        ("velo_graph/widen-edge_not_carried_on",),
    ),
    Body(
        "blames every open block",
        (
            "velo_blame/Clocks.blamed-clocks_blame_every_open_block",
            "velo_blame/Scan.blamed-blames_every_open_block",
        ),
    ),
    Body("blames nobody", ("velo_blame/Scan.blamed-blames_nobody",)),
    Body(
        "merges wherever some predecessor has finished",
        ("velo_merge/takes_all-merged_wherever_one_has_finished",),
    ),
    Body("never merges", tests=("logs_are_checked",)),
    Body(
        "appends two events for one action",
        ("velo_world/LoggedRun.commit-two_events_for_one_action",),
    ),
    Body(
        "appends no event for an action",
        ("velo_world/LoggedRun.perform-reply_without_an_event",),
    ),
    Body(
        "says that the graph is full whenever a node is needed",
        ("velo_world/make_node_room-graph_full_whenever_a_node_is_needed",),
    ),
    Body(
        "never collects",
        (
            "velo_collect/collect-nothing_collected",
            "velo_monitor/Monitor.end_block-collects_nothing",
        ),
    ),
    Body("collects in one pass only", ("velo_graph/has_unfinished-one_pass_only",)),
    Body(
        "takes a serial order that leaves a position out",
        ("velo_certify/is_full-position_left_out",),
    ),
    Body("takes a cycle that is not a shortest one", ("velo_certify/check_cycle-longer_cycle",)),
    Body(
        "answers a read by a value that is not the event's",
        ("velo_runtime/Seat.read-answers_zero",),
    ),
    Body(
        "has a seat store another value",
        ("velo_runtime/Seat.write-stores_another_value",),
    ),
    Body(
        "has a seat name another variable or lock",
        (
            "velo_runtime/Seat.read-names_another_variable",
            "velo_runtime/Seat.acquire-names_another_lock",
        ),
    ),
    Body("has a seat do another action", ("velo_runtime/step_in-does_another_action",)),
    Body("has a seat answer without an event", ("velo_runtime/Seat.exit-without_an_event",)),
    Body(
        "closes a room and gives its opening world",
        ("velo_runtime/close-gives_the_opening_world",),
    ),
    Body(
        "drops the alarm at a later event",
        ("velo_world/Analysis.take_in-alarm_dropped_at_a_later_event",),
    ),
    Body(
        "replaces the alarm at a later event",
        ("velo_world/Analysis.take_in-later_alarm_replaces_the_first",),
    ),
    Body("reads a number with leading zeros", ("velo_bytes/number-leading_zeros",)),
    Body(
        "reads a last line without its newline",
        ("velo_logtext/event-last_line_without_newline",),
    ),
    Body(
        "asks for memory after the event was appended, and then refuses",
        (
            "velo_world/LoggedRun.perform-growth_after_the_commit_of_an_action",
            "velo_runtime/Room.act-growth_after_the_event",
        ),
    ),
    Body(
        "always refuses, or always answers that memory or seats are missing",
        tests=("a_joined_thread", "live_runs_end_as_they_should"),
    ),
    Body(
        "has a seat act on a world of its own",
        tests=("a_joined_thread", "four_threads_write_at_once", "live_runs_end_as_they_should"),
    ),
    Body(
        "runs all workers on one thread, one after the other",
        tests=("live_runs_end_as_they_should",),
    ),
    Body(
        "ends a live run with its opening world, or lets its threads only exit",
        (
            "velo_worker/finish-closes_the_opening_world",
            "velo_worker/has_done-done_with_fewer_events",
        ),
        ("live_runs_end_as_they_should",),
    ),
    Body(
        "treats a shared lock as one that is held alone",
        (
            "velo_events/Kind.access-sharers_take_the_lock_alone",
            "velo_heap/Lock.admit_acquire_shared-waits_for_sharers",
        ),
    ),
    Body(
        "has an exclusive event look up no shared ones",
        (
            "velo_tables/Tables.predecessors_into-write_looks_up_no_reads",
            "velo_traces/ConflictTable.look_up-write_looks_up_no_reads",
        ),
    ),
    Body("follows the waits of one sharer only", ("velo_runtime/Room.leads-one_sharer_alone",)),
    Body("never says that a reply comes after the alarm", tests=("a_joined_thread",)),
    Body(
        "closes a world and gives the log of another one",
        ("velo_world/World.close-closes_the_opening_world",),
    ),
    Body(
        "answers clean beside an alarm",
        ("velo_check/verdict_of-clean_beside_an_alarm",),
    ),
    Body("waits for a free lock", ("velo_runtime/Room.turn_after-waits_for_a_free_lock",)),
    Body(
        "says that a call would deadlock, without a chain of waits",
        ("velo_runtime/Room.turn_after-deadlock_without_a_chain",),
    ),
    Body(
        "drops the wait of another thread",
        ("velo_runtime/Room.turn-drops_the_wait_of_another_thread",),
    ),
    Body(
        "keeps the wait of a thread whose action is done",
        ("velo_runtime/Room.turn_after-keeps_the_wait_after_done",),
    ),
    Body(
        "joins two sets of bits without the rest after the last whole chunk",
        ("velo_rows/join-bits_without_the_rest",),
    ),
    Body("overwrites bits where it joins them", ("velo_rows/join_chunk-bits_overwritten",)),
    Body(
        "counts a thread's own reads as those of others",
        ("velo_tables/ClockTables.note-own_reads_count_as_those_of_others",),
    ),
)

TEST = re.compile(r"^\s*#\[test\]\s*\n\s*fn (\w+)", re.MULTILINE)


def tests_there_are() -> Set[str]:
    """The names of all tests of the crates."""
    found: Set[str] = set()
    for path in glob.glob(f"{TOP}/crates/*/src/**/*.rt", recursive=True):
        with open(path, encoding="utf-8") as source:
            found.update(TEST.findall(source.read()))
    return found


def faults(body: Body, tests: Set[str]) -> Iterator[str]:
    """What is not there of what refuses or catches the body."""
    for edit in body.edits:
        crate, name = edit.split("/")
        path = f"{TOP}/crates/{crate}/must-fail/{name}.edit"
        if not os.path.isfile(path):
            yield f"no edit {os.path.relpath(path, TOP)}"
        elif trouble(path):
            yield f"{os.path.relpath(path, TOP)} cannot be applied: {trouble(path)}"
    yield from (f"no crate has the test {name}" for name in body.tests if name not in tests)


def main() -> int:
    tests = tests_there_are()
    failed = 0
    for body in BODIES:
        told: List[str] = list(faults(body, tests))
        failed += bool(told)
        for fault in told:
            print(f"FAILED: {body.does}: {fault}")
    print(f"{len(BODIES) - failed} passed, {failed} failed")
    return 1 if failed else 0


if __name__ == "__main__":
    sys.exit(main())
