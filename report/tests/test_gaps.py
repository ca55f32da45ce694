"""Gaps that are read off a log."""

import os
import unittest
from typing import List, Optional

import support
from support import Line, Log, hold
from velodrome_report import gaps
from velodrome_report.gap import Gap, Scanned, Tier
from velodrome_report.sites import Sites


def changed(thread: int, site: str = "a.c:9 g") -> List[Line]:
    """Variable 0 is changed by an operation that cannot be interrupted."""
    return [(f"{thread} rd 0 0", site), (f"{thread} wr 0 0", site)]


def changed_in_a_hold(thread: int) -> List[Line]:
    """Variable 0 is changed under lock 0."""
    read, write = changed(thread)
    return [(f"{thread} acq 0", ""), read, (write[0], "a.c:10 g"), (f"{thread} rel 0", "")]


class OfALog(support.InFolder):
    def scan(
        self, log: Log, *wanted: int, left_out: int = -1, atomic: Optional[List[int]] = None
    ) -> Scanned:
        path = log.write(self.path("run.log"))
        sites = Sites(path + ".sites", gaps.MOST_EVENTS)
        return gaps.scan(path, sites, set(wanted), {left_out}, atomic)

    def seen(self, log: Log, label: int = 0, number: int = 0, is_lock: bool = False) -> Gap:
        return self.scan(log, label).gaps[label].seen[(is_lock, number)]

    def test_a_value_that_is_carried(self) -> None:
        gap = self.seen(support.lost_update())
        self.assertEqual(gap.tier, Tier.CARRIED)
        self.assertFalse(gap.inside_callee or gap.in_wait or gap.in_loop or gap.counts)
        self.assertLess(gap.before, gap.between)
        self.assertLess(gap.between, gap.after)

    def test_nobody_came_but_could_have(self) -> None:
        found = self.scan(support.lost_update(interrupted=False), 0).gaps[0]
        self.assertEqual(found.seen, {})
        self.assertEqual(found.possible[(False, 0)].tier, Tier.CARRIED)

    def test_nobody_came_between_a_change_and_a_read(self) -> None:
        log = Log().add(*changed_in_a_hold(2), ("1 begin 0", ""), *changed_in_a_hold(1))
        found = self.scan(log.add(*hold(1, "rd 0 0", 3, "f"), ("1 end", "")), 0).gaps[0]
        gap = found.possible[(False, 0)]
        self.assertEqual((found.seen, gap.tier, gap.counts), ({}, Tier.SEEN_TWICE, False))

    def test_nobody_came_between_two_changes_of_a_count(self) -> None:
        log = Log().add(*changed_in_a_hold(2), ("1 begin 0", ""), *changed_in_a_hold(1))
        found = self.scan(log.add(*changed_in_a_hold(1), ("1 end", "")), 0).gaps[0]
        self.assertTrue(found.possible[(False, 0)].counts)

    def test_nobody_else_writes_what_could_be_interrupted(self) -> None:
        log = Log().add(("1 begin 0", ""), *hold(1, "rd 0 0", 1, "f"), *hold(1, "wr 0 0", 2, "f"))
        found = self.scan(log.add(("1 end", ""), *hold(2, "rd 0 0", 9, "g")), 0).gaps[0]
        self.assertEqual(found.possible, {})

    def test_who_calls_the_same_function_may_write_it_too(self) -> None:
        for variable, tiers in ((0, [Tier.CARRIED]), (1, [])):
            log = Log(variables=2).add(("1 begin 0", ""), *hold(1, "rd 0 0", 1, "f"))
            log.add(*hold(1, "wr 0 0", 2, "f"), ("1 end", ""), ("2 begin 0", ""))
            log.add(*hold(2, f"rd {variable} 0", 1, "f"), ("2 end", ""))
            possible = self.scan(log, 0).gaps[0].possible
            self.assertEqual([gap.tier for gap in possible.values()], tiers)

    def test_what_is_written_once(self) -> None:
        log = Log(variables=2).add(("1 wr 0 0", ""), ("1 wr 1 0", ""), ("2 wr 1 0", ""))
        self.assertEqual(self.scan(log).once, {0})

    def test_one_hold_is_no_gap(self) -> None:
        found = self.scan(support.right(), 0).gaps[0]
        self.assertEqual((found.seen, found.possible), ({}, {}))

    def test_a_lock_that_is_held_all_along(self) -> None:
        log = Log(locks=2)
        log.add(("1 begin 0", "a.c:1 f"), ("1 acq 1", "a.c:2 f"), *hold(1, "rd 0 0", 3, "f"))
        log.add(*hold(1, "wr 0 0", 4, "f"), ("1 rel 1", ""), ("1 end", ""))
        self.assertEqual(self.scan(log, 0).gaps[0].possible, {})

    def test_looked_at_again(self) -> None:
        log = Log().add(("1 begin 0", ""), *hold(1, "rd 0 0", 3, "f"), *hold(2, "wr 0 0", 9, "g"))
        log.add(("1 acq 0", ""), ("1 rd 0 0", "a.c:5 f"), ("1 wr 0 0", "a.c:6 f"), ("1 rel 0", ""))
        self.assertEqual(self.seen(log).tier, Tier.LOOKED_AT_AGAIN)

    def test_a_variable_that_is_only_read_twice(self) -> None:
        log = Log().add(("1 begin 0", ""), ("1 rd 0 0", "a.c:1 f"), ("2 wr 0 0", ""))
        log.add(("1 rd 0 0", "a.c:2 f"), ("1 end", ""))
        self.assertEqual(self.seen(log).tier, Tier.SEEN_TWICE)

    def test_a_lock_alone(self) -> None:
        log = Log(variables=0).add(("1 begin 0", ""))
        log.add(("1 acq 0", "a.c:1 f"), ("1 rel 0", "a.c:2 f"), ("2 acq 0", ""), ("2 rel 0", ""))
        log.add(("1 acq 0", "a.c:3 f"), ("1 rel 0", ""), ("1 end", ""))
        self.assertEqual(self.seen(log, is_lock=True).tier, Tier.LOCK)

    def test_shares_do_not_interrupt_one_another(self) -> None:
        log = Log(variables=0).add(("1 begin 0", ""))
        log.add(("1 acqs 0", "a:1 f"), ("1 rels 0", ""), ("2 acqs 0", ""), ("2 rels 0", ""))
        log.add(("1 acqs 0", "a:2 f"), ("1 rels 0", ""), ("1 end", ""))
        self.assertEqual(self.scan(log, 0).gaps[0].seen, {})

    def test_a_wait_is_a_release_and_an_acquire_by_one_call(self) -> None:
        log = Log().add(("1 begin 0", ""), ("1 acq 0", ""), ("1 rd 0 0", "a.c:2 f"))
        log.add(("1 rel 0", "a.c:3 f"), *hold(2, "wr 0 0", 9, "g"), ("1 acq 0", "a.c:3 f"))
        log.add(("1 rd 0 0", "a.c:2 f"), ("1 wr 0 0", "a.c:4 f"), ("1 rel 0", ""), ("1 end", ""))
        self.assertTrue(self.seen(log).in_wait)

    def test_a_callee_that_has_all_of_it(self) -> None:
        log = support.lost_update()
        log.lines.insert(2, ("1 begin 7", "bank/bank.cpp:20 main"))
        log.add(("1 end", ""))
        found = self.scan(log, 0, 7).gaps
        self.assertFalse(found[0].seen[(False, 0)].inside_callee)
        self.assertTrue(found[7].seen[(False, 0)].inside_callee)
        self.assertEqual(found[7].seen[(False, 0)].callee, 0)

    def test_two_calls_are_the_callers_own_fault(self) -> None:
        log = Log().add(("1 begin 0", "a.c:1 main"))
        log.add(("1 begin 1", "a.c:2 f"), *hold(1, "rd 0 0", 20, "get"), ("1 end", ""))
        log.add(*hold(2, "wr 0 0", 9, "g"))
        log.add(("1 begin 2", "a.c:3 f"), *hold(1, "wr 0 0", 30, "set"), ("1 end", ""))
        log.add(("1 end", ""))
        gap = self.seen(log)
        self.assertFalse(gap.inside_callee)
        self.assertFalse(gap.in_loop)

    def test_a_loop(self) -> None:
        log = Log().add(("1 begin 0", "a.c:1 main"))
        for _ in range(2):
            log.add(("1 begin 1", "a.c:2 f"), *hold(1, "rd 0 0", 20, "add"))
            log.add(("1 wr 0 0", "a.c:21 add"), ("1 end", ""), *hold(2, "wr 0 0", 9, "g"))
        self.assertTrue(self.seen(log.add(("1 end", ""))).in_loop)

    def test_a_count_is_read_and_written_as_one(self) -> None:
        whole: List[Line] = [("1 rd 0 0", "a.c:2 f"), ("1 wr 0 0", "a.c:2 f")]
        log = Log().add(("2 rd 0 0", "a.c:9 g"), ("2 wr 0 0", "a.c:9 g"), ("1 begin 0", ""))
        log.add(*whole, ("2 rd 0 0", "a.c:9 g"), ("2 wr 0 0", "a.c:9 g"), *whole, ("1 end", ""))
        found = self.scan(log, 0)
        self.assertEqual(found.counters, {0})
        self.assertTrue(found.gaps[0].seen[(False, 0)].counts)

    def test_a_count_under_a_lock(self) -> None:
        change: List[Line] = [("1 acq 0", ""), ("1 rd 0 0", "a.c:2 f"), ("1 wr 0 0", "a.c:3 f")]
        change.append(("1 rel 0", ""))
        other = [(text.replace("1", "2", 1), site) for text, site in change]
        log = Log().add(*other, ("1 begin 0", ""), *change, *other, *change, ("1 end", ""))
        found = self.scan(log, 0)
        self.assertEqual(found.counters, {0})
        self.assertTrue(found.gaps[0].seen[(False, 0)].counts)
        checked = Log().add(*other, ("1 begin 0", ""), *hold(1, "rd 0 0", 1, "f"), *other)
        found = self.scan(checked.add(*change, ("1 end", "")), 0)
        self.assertFalse(found.gaps[0].seen[(False, 0)].counts)

    def test_a_check_of_a_count_is_no_count(self) -> None:
        log = Log().add(("2 rd 0 0", "a.c:9 g"), ("2 wr 0 0", "a.c:9 g"), ("1 begin 0", ""))
        log.add(("1 rd 0 0", "a.c:1 f"), ("2 rd 0 0", "a.c:9 g"), ("2 wr 0 0", "a.c:9 g"))
        log.add(("1 rd 0 0", "a.c:2 f"), ("1 wr 0 0", "a.c:2 f"), ("1 end", ""))
        self.assertFalse(self.scan(log, 0).gaps[0].seen[(False, 0)].counts)

    def test_what_is_changed_and_later_read_is_no_count(self) -> None:
        guarded = [*changed_in_a_hold(1), *changed_in_a_hold(2), *hold(1, "rd 0 0", 3, "f")]
        at_once = [*changed(1), *changed(2), ("1 rd 0 0", "a.c:3 f")]
        for events, atomic in ((guarded, None), (at_once, [0])):
            with self.subTest(atomic):
                log = Log().add(("1 begin 0", ""), *events, ("1 end", ""))
                found = self.scan(log, 0, atomic=atomic)
                gap = found.gaps[0].seen[(False, 0)]
                self.assertEqual(found.counters, {0})
                self.assertEqual((gap.tier, gap.counts), (Tier.SEEN_TWICE, False))

    def test_what_is_looked_at_in_a_call_after_a_change_is_no_count(self) -> None:
        look: List[Line] = [("1 begin 1", ""), ("1 rd 0 0", "a.c:3 f"), ("1 end", "")]
        log = Log().add(("1 begin 0", ""), *changed(1), *changed(2), *look, ("1 end", ""))
        self.assertFalse(self.scan(log, 0, atomic=[0]).gaps[0].seen[(False, 0)].counts)

    def test_what_is_looked_at_twice_under_a_lock_is_no_count(self) -> None:
        log = Log().add(("1 begin 0", ""), *hold(1, "rd 0 0", 1, "f"), *changed_in_a_hold(2))
        found = self.scan(log.add(*hold(1, "rd 0 0", 2, "f"), ("1 end", "")), 0)
        self.assertEqual(found.counters, {0})
        self.assertFalse(found.gaps[0].seen[(False, 0)].counts)

    def test_a_flag_is_looked_at_twice(self) -> None:
        log = Log().add(("1 begin 0", ""), ("1 rd 0 0", "a.c:1 f"), *changed(2))
        found = self.scan(log.add(("1 rd 0 0", "a.c:2 f"), ("1 end", "")), 0, atomic=[0])
        self.assertTrue(found.gaps[0].seen[(False, 0)].counts)

    def test_a_look_just_before_a_change_is_part_of_it(self) -> None:
        look: Line = ("1 rd 0 0", "a.c:3 f")
        for last in ((look, *changed(1)), (("1 begin 1", ""), look, *changed(1), ("1 end", ""))):
            with self.subTest(last):
                log = Log().add(("1 begin 0", ""), *changed(1), *changed(2), *last, ("1 end", ""))
                self.assertTrue(self.scan(log, 0).gaps[0].seen[(False, 0)].counts)

    def after_a_store(self, *events: Line) -> bool:
        """Whether an atomic variable, stored before these events, is a flag or a count to them."""
        log = Log().add(("1 begin 0", ""), ("1 wr 0 1", "a.c:2 f"), *events, ("1 end", ""))
        return self.scan(log, 0, atomic=[0]).gaps[0].seen[(False, 0)].counts

    def test_what_is_read_after_a_store(self) -> None:
        look: Line = ("1 rd 0 0", "a.c:3 f")
        other: Line = ("2 wr 0 0", "a.c:9 g")
        self.assertFalse(self.after_a_store(other, look))
        self.assertTrue(self.after_a_store(other, *changed(1)))
        # it is looked at again and again: it is waited for
        self.assertTrue(self.after_a_store(look, other, look))
        self.assertFalse(self.after_a_store(("1 rd 0 0", "a.c:4 f"), other, look))

    def test_a_lock_that_is_held_shared_and_later_alone(self) -> None:
        log = Log(variables=0).add(("1 begin 0", ""), ("1 acqs 0", "a.c:1 f"))
        log.add(("1 rels 0", "a.c:2 f"), ("2 acq 0", ""), ("2 rel 0", ""))
        log.add(("1 acq 0", "a.c:3 f"), ("1 rel 0", ""), ("1 end", ""))
        self.assertEqual(self.seen(log, is_lock=True).tier, Tier.SEEN_TWICE)

    def test_blocks_that_are_left_out(self) -> None:
        log = support.lost_update()
        log.lines.insert(2, ("1 begin 7", "bank/bank.cpp:20 main"))
        log.add(("1 end", ""))
        found = self.scan(log, 7, left_out=0)
        self.assertFalse(found.gaps[7].seen[(False, 0)].inside_callee)
        self.assertEqual(found.calls, {7: 1})

    def test_lines_that_are_no_event_are_passed_over(self) -> None:
        path = support.put(self.path("bad.log"), "vlog 2 2 1 1\n\n0 begin\nx y z\n0 begin 3\n")
        found = gaps.scan(path, Sites(None, 0), set(), set())
        self.assertEqual(found.calls, {3: 1})

    def test_a_log_that_is_too_long_is_read_in_part(self) -> None:
        path = support.lost_update().write(self.path("run.log"))
        found = gaps.scan(path, Sites(None, 0), set(), set(), most=4)
        self.assertFalse(found.whole)
        self.assertEqual(found.events, 4)


if __name__ == "__main__":
    unittest.main()
