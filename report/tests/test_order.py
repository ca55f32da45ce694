"""The order of the list, its sections, and what is folded; the best witness."""

import unittest
from dataclasses import replace
from typing import Optional, Sequence

import support
from velodrome_report import assemble, choice, finding, folding, ranking
from velodrome_report.model import (
    Action,
    Block,
    Event,
    Finding,
    Function,
    GapTrait,
    Kind,
    Report,
    Run,
    Section,
    Target,
    TargetKind,
    Thread,
    Traits,
    Witness,
)

CARRIED, LOOKED_AT_AGAIN, SEEN_TWICE, LOCK = range(4)


def witness(
    threads: Sequence[int] = (1, 2, 1),
    targets: Sequence[str] = ("x", "x", "x"),
    blamed: bool = True,
    predicted: bool = False,
    kind: TargetKind = TargetKind.VARIABLE,
) -> Witness:
    events = tuple(
        Event(Thread(thread), Action.WRITES, Target(kind, 0, name), position)
        for position, (thread, name) in enumerate(zip(threads, targets))
    )
    blocks = (Block("f", 0),) if blamed else ()
    return Witness("run", predicted, events, blocks=blocks)


def found(
    name: str,
    gap: Optional[GapTrait] = None,
    kind: Kind = Kind.NOT_ATOMIC,
    possible: int = 1,
    seen: int = 1,
    data: bool = False,
) -> Finding:
    runs = tuple(f"run.{number}" for number in range(possible))
    return Finding(
        kind=kind,
        id=finding.identity(kind, name),
        function=Function(name, name),
        seen=runs[:seen],
        possible=runs,
        witness=witness(),
        traits=Traits(gap, data),
    )


class Choice(unittest.TestCase):
    def test_the_best_witness(self) -> None:
        best = witness()
        worse = (
            witness((1, 2, 3, 1), ("x",) * 4),
            witness(targets=("x", "y", "y")),
            witness(blamed=False),
            witness((1, 2, 2, 1), ("x",) * 4),
            witness(predicted=True),
        )
        for other in worse:
            with self.subTest(other):
                self.assertIs(choice.best([other, best]), best)
                self.assertIs(choice.best([best, other]), best)

    def test_each_rule_goes_before_the_next(self) -> None:
        ordered = [
            witness((1, 2, 2, 2, 1), ("x",) * 5),
            witness((1, 2, 1), ("x",) * 3, blamed=False),
            witness((1, 2, 1), ("x", "y", "y")),
            witness((1, 2, 3), ("x",) * 3),
        ]
        ranks = [choice.rank(one) for one in ordered]
        self.assertEqual(ranks, sorted(ranks))

    def test_a_read_before_a_write(self) -> None:
        plain = witness()
        events = (replace(plain.events[0], action=Action.READS), *plain.events[1:])
        carried = replace(plain, events=events)
        self.assertIs(choice.best([plain, carried]), carried)


class Order(unittest.TestCase):
    def names(self, *findings: Finding) -> Sequence[str]:
        return [one.function.name for one in ranking.ranked(folding.folded(list(findings)))]

    def test_what_is_likely_comes_first(self) -> None:
        order = self.names(
            found("lock", GapTrait(tier=LOCK, seen=True), data=True),
            found("again", GapTrait(tier=LOOKED_AT_AGAIN, seen=True)),
            found("waits", GapTrait(tier=CARRIED, in_wait=True, seen=True)),
            found("twice", GapTrait(tier=SEEN_TWICE, seen=True)),
            found("carried", GapTrait(tier=CARRIED, seen=True)),
            found("hung", kind=Kind.DEADLOCK),
        )
        self.assertEqual(order, ["hung", "carried", "again", "twice", "lock", "waits"])

    def test_what_was_seen_comes_before_what_could_be(self) -> None:
        seen = found("b", GapTrait(tier=CARRIED, seen=True), possible=1)
        more = found("c", GapTrait(tier=CARRIED, seen=True), possible=3)
        possible = found("a", GapTrait(tier=CARRIED), possible=9, seen=0)
        self.assertEqual(self.names(possible, seen, more), ["c", "b", "a"])

    def test_by_design(self) -> None:
        for gap, words in (
            (GapTrait(in_wait=True), "while it waits"),
            (
                GapTrait(counts=True, tier=SEEN_TWICE, target="hits"),
                "hits is changed more than once, each time at once",
            ),
            (GapTrait(in_loop=True), "each pass of its loop"),
            (GapTrait(used_again=True, tier=CARRIED), "used again"),
            (GapTrait(tier=LOCK, target="m"), "takes m more than once"),
            (None, "only locks and counts"),
        ):
            with self.subTest(words):
                (one,) = ranking.ranked([found("f", gap)])
                self.assertEqual(one.section, Section.BY_DESIGN)
                self.assertIn(words, one.why)

    def test_an_old_value_of_another_pass(self) -> None:
        for in_loop, section in ((True, Section.BY_DESIGN), (False, Section.LIKELY)):
            gap = GapTrait(tier=CARRIED, in_loop=in_loop, seen=True)
            (one,) = ranking.ranked([found("f", gap, kind=Kind.STALE_WRITE)])
            self.assertEqual(one.section, section)

    def test_locks_alone_may_matter(self) -> None:
        gap = GapTrait(tier=LOCK, target="m")
        (one,) = ranking.ranked([found("f", gap, data=True)])
        self.assertEqual(one.section, Section.LIKELY)
        unknown = replace(found("f", gap), traits=Traits(gap, all_variables=False))
        (one,) = ranking.ranked([unknown])
        self.assertEqual(one.section, Section.LIKELY)

    def test_a_lock_that_is_held_shared_and_later_alone(self) -> None:
        gap = GapTrait(tier=SEEN_TWICE, target="m")
        locks = witness(targets=("m", "m", "m"), kind=TargetKind.LOCK)
        (one,) = ranking.ranked([replace(found("f", gap), witness=locks)])
        self.assertEqual(one.section, Section.LIKELY)
        self.assertIn("m is held shared and later alone", one.why)
        used = replace(found("f", replace(gap, target="x")), witness=locks)
        self.assertIn("x is used before the lock is let go", ranking.ranked([used])[0].why)

    def test_the_more_telling_gap(self) -> None:
        best = GapTrait(tier=CARRIED)
        for other in (
            GapTrait(tier=CARRIED, inside_callee=True),
            GapTrait(tier=CARRIED, in_wait=True),
            GapTrait(tier=CARRIED, counts=True),
            GapTrait(tier=CARRIED, in_loop=True),
            GapTrait(tier=CARRIED, used_again=True),
            GapTrait(tier=LOCK, seen=True),
        ):
            self.assertLess(best.key(), other.key())

    def test_by_count(self) -> None:
        few = replace(found("a"), counts=replace(found("a").counts, to_blame=1))
        many = replace(found("b"), counts=replace(found("b").counts, to_blame=9))
        self.assertEqual(ranking.by_count([few, many]), [many, few])


class Folding(unittest.TestCase):
    def test_a_chain_of_callers(self) -> None:
        findings = folding.folded(
            [
                found("main2", GapTrait(inside_callee=True, callee="outer")),
                found("outer", GapTrait(inside_callee=True, callee="inner")),
                found("inner", GapTrait()),
            ]
        )
        inner = findings[2]
        self.assertEqual([one.under for one in findings], [inner.id, inner.id, None])
        self.assertEqual(findings[0].section, Section.FOLDED)

    def test_a_callee_that_is_not_listed(self) -> None:
        (one,) = folding.folded([found("f", GapTrait(inside_callee=True, callee="g"))])
        self.assertIsNone(one.under)

    def test_two_that_call_one_another(self) -> None:
        findings = folding.folded(
            [
                found("a", GapTrait(inside_callee=True, callee="b")),
                found("b", GapTrait(inside_callee=True, callee="a")),
            ]
        )
        self.assertEqual([one.section for one in findings], [Section.LIKELY, Section.FOLDED])


class Whole(unittest.TestCase):
    def test_a_stale_write_that_is_told_already(self) -> None:
        gap = GapTrait(tier=CARRIED, seen=True, target="x")
        stale = replace(found("f", gap, Kind.STALE_WRITE), seen=("run.5",), possible=("run.5",))
        runs = [Run(f"run.{number}", looked_at=True, calls={"f": 1}) for number in range(6)]
        parts = [Report(runs, [found("f", gap), stale])]
        (one,) = assemble.merged(parts).findings
        self.assertEqual((one.kind, one.seen), (Kind.NOT_ATOMIC, ("run.0", "run.5")))
        other = replace(stale, traits=Traits(replace(gap, target="y")))
        self.assertEqual(len(assemble.merged([Report(runs, [found("f", gap), other])]).findings), 2)

    def test_findings_of_one_mistake_are_joined(self) -> None:
        happened = replace(found("f", kind=Kind.DEADLOCK), id="d")
        could = replace(found("f", kind=Kind.DEADLOCK_POSSIBLE, seen=0), id="d")
        for pair in ((happened, could), (could, happened)):
            one = finding.joined(*pair)
            self.assertEqual((one.kind, one.seen), (Kind.DEADLOCK, ("run.0",)))

    def test_runs_that_are_counted(self) -> None:
        runs = [Run("run.0"), Run("run.1", looked_at=True), Run("run.2")]
        self.assertEqual(Report(runs, [found("f")]).counted(), 2)


if __name__ == "__main__":
    unittest.main()
