"""Values that can be written from an old one, where the threads came one after the other."""

import unittest
from typing import Any, Dict, List, Tuple

import support
from support import Line, Log
from velodrome_report import beside, racing
from velodrome_report.sites import Sites

READ = ("1 rd 0 0", "race.cpp:4 worker()")
WRITE = ("1 wr 0 1", "race.cpp:5 worker()")
SECOND = ("2 rd 0 1", "race.cpp:4 worker()")
OTHER = ("2 wr 0 2", "race.cpp:5 worker()")


def one_after_the_other(*between: Line, locks: int = 1) -> Log:
    """Thread 1 reads and writes a variable without a lock, then thread 2 does."""
    log = Log(variables=2, locks=locks).named(label_0="worker()", variable_0="counter")
    log.functions = ["0 - 2 race.cpp:3 worker()"]
    log.add(("1 begin 0", "race.cpp:9 main"), READ, WRITE, ("1 end", ""))
    log.add(*between)
    log.add(("2 begin 0", "race.cpp:9 main"), SECOND, OTHER, ("2 end", ""))
    log.notes = {"schema": 1, "racing": [0], "atomic": []}
    return log


class Scans(support.InFolder):
    def gaps(self, log: Log) -> List[Tuple[str, str, str]]:
        """The three accesses of each gap, as the log has them."""
        path = log.write(self.path("run.log"))
        found = racing.scan(path, [0], Sites(beside.read(path).sites, 1000))
        return [
            (
                log.lines[gap.before.position][0],
                log.lines[gap.between.position][0],
                log.lines[gap.after.position][0],
            )
            for gap in found
        ]

    def test_the_other_write_is_later(self) -> None:
        self.assertEqual(self.gaps(one_after_the_other()), [(READ[0], OTHER[0], WRITE[0])])

    def test_the_other_write_was_before(self) -> None:
        log = one_after_the_other()
        log.lines.remove(SECOND)
        log.lines.remove(OTHER)
        log.lines.insert(2, OTHER)
        self.assertEqual(self.gaps(log), [(READ[0], OTHER[0], WRITE[0])])

    def test_what_is_in_order_is_no_mistake(self) -> None:
        for why, between in (
            ("a join and a start", [("1 exit", ""), ("0 join 1", ""), ("0 fork 2", "")]),
            ("a lock", [("1 acq 0", ""), ("1 rel 0", ""), ("2 acq 0", ""), ("2 rel 0", "")]),
            ("a share", [("1 acq 0", ""), ("1 rel 0", ""), ("2 acqs 0", ""), ("2 rels 0", "")]),
            ("a lock", [("1 acqs 0", ""), ("1 rels 0", ""), ("2 acq 0", ""), ("2 rel 0", "")]),
            ("an atomic", [("1 wr 1 1", ""), ("2 rd 1 1", "")]),
            ("one that was read", [("1 rd 1 0", ""), ("2 wr 1 1", "")]),
        ):
            with self.subTest(why):
                log = one_after_the_other(*between)
                if "a start" in why:
                    log.lines.remove(("0 fork 2", ""))
                self.assertEqual(self.gaps(log), [])

    def test_what_orders_nothing(self) -> None:
        for why, between in (
            ("another lock", [("1 acq 0", ""), ("1 rel 0", ""), ("2 acq 1", ""), ("2 rel 1", "")]),
            (
                "two shares",
                [("1 acqs 0", ""), ("1 rels 0", ""), ("2 acqs 0", ""), ("2 rels 0", "")],
            ),
            ("two reads", [("1 rd 1 0", ""), ("2 rd 1 0", "")]),
        ):
            with self.subTest(why):
                log = one_after_the_other(*between, locks=2)
                self.assertEqual(len(self.gaps(log)), 1)

    def test_a_release_tells_only_what_was_before(self) -> None:
        log = one_after_the_other(("2 acq 0", ""), ("2 rel 0", ""))
        place = log.lines.index(READ)
        log.lines[place:place] = [("1 acq 0", ""), ("1 rel 0", "")]
        self.assertEqual(len(self.gaps(log)), 1)

    def test_what_is_under_a_lock(self) -> None:
        for access in (READ, WRITE):
            with self.subTest(access):
                log = one_after_the_other()
                log.lines.remove(SECOND)
                place = log.lines.index(access)
                log.lines[place : place + 1] = [("1 acq 0", ""), access, ("1 rel 0", "")]
                self.assertEqual(self.gaps(log), [])

    def test_the_latest_read_counts(self) -> None:
        log = one_after_the_other()
        log.lines.remove(SECOND)
        again = ("1 rd 0 7", "race.cpp:6 worker()")
        log.lines.insert(log.lines.index(WRITE), again)
        self.assertEqual(self.gaps(log), [(again[0], OTHER[0], WRITE[0])])

    def test_what_was_written_since_is_not_old(self) -> None:
        log = one_after_the_other()
        log.lines.remove(SECOND)
        place = log.lines.index(WRITE)
        log.lines[place:place] = [("1 acq 0", ""), ("1 wr 0 7", ""), ("1 rel 0", "")]
        self.assertEqual(self.gaps(log), [])

    def test_two_blocks_carry_no_value(self) -> None:
        log = one_after_the_other()
        log.lines.remove(SECOND)
        place = log.lines.index(WRITE)
        log.lines[place:place] = [("1 end", ""), ("1 begin 0", "")]
        self.assertEqual(self.gaps(log), [])

    def test_lines_of_two_routines_carry_no_value(self) -> None:
        log = one_after_the_other()
        log.lines = [line for line in log.lines if "begin" not in line[0] and "end" not in line[0]]
        log.lines.remove(SECOND)
        self.assertEqual(len(self.gaps(log)), 1)
        log.lines[log.lines.index(WRITE)] = (WRITE[0], "race.cpp:7 other()")
        self.assertEqual(self.gaps(log), [])


@support.needs_checker
class Racing(support.InFolder):
    def found(self, log: Log, *options: str) -> List[Dict[str, Any]]:
        log.write(self.path("run.log"))
        return list(self.answer("run.log", *options)["findings"])

    def assert_told(self, log: Log) -> Dict[str, Any]:
        (one,) = self.found(log)
        self.assertEqual((one["kind"], one["seen"]), ("stale_write", []))
        self.assertEqual(one["possible"], ["run.log"])
        does = [(e["thread"]["number"], e["action"]) for e in one["witness"]["events"]]
        self.assertEqual(does, [(1, "reads"), (2, "writes"), (1, "writes")])
        self.assertTrue(one["witness"]["predicted"])
        return one

    def test_it_is_told(self) -> None:
        one = self.assert_told(one_after_the_other())
        self.assertEqual(one["function"]["place"], {"file": "race.cpp", "line": 3})
        lines = [event["place"]["line"] for event in one["witness"]["events"]]
        self.assertEqual(lines, [4, 5, 5])
        said = " ".join(self.run_command("run.log").stdout.split())
        self.assertIn("worker(): counter can be written from an old value: seen in 0 of 1", said)
        self.assertIn("nothing orders the other thread's write", said)

    def test_only_what_the_recorder_notes(self) -> None:
        for notes in (None, {"schema": 1}, {"schema": 1, "racing": [1]}):
            log = one_after_the_other()
            log.notes = notes
            self.assertEqual(self.found(log), [])

    def test_a_routine_that_is_no_block(self) -> None:
        log = one_after_the_other()
        log.lines = [line for line in log.lines if "begin" not in line[0] and "end" not in line[0]]
        assert log.notes is not None
        log.notes["loops"] = [{"function": "worker()", "place": "race.cpp:3"}]
        one = self.assert_told(log)
        self.assertEqual(one["function"]["name"], "worker()")
        self.assertEqual(one["function"]["place"], {"file": "race.cpp", "line": 3})

    def test_a_known_function(self) -> None:
        support.put(self.path("known.txt"), "worker()\n")
        self.assertEqual(self.found(one_after_the_other(), "--known", "known.txt"), [])

    def test_a_known_function_within_another(self) -> None:
        """What is known of the inner one is not told of the outer one."""
        log = one_after_the_other().named(label_1="run()")
        place = log.lines.index(("1 begin 0", "race.cpp:9 main"))
        log.lines.insert(place, ("1 begin 1", "race.cpp:8 main"))
        log.lines.insert(log.lines.index(("1 end", "")), ("1 end", ""))
        self.assertEqual(self.assert_told(log)["function"]["name"], "worker()")
        support.put(self.path("known.txt"), "worker()\n")
        self.assertEqual(self.found(log, "--known", "known.txt"), [])

    def test_inner_calls_are_on_the_stacks(self) -> None:
        log = one_after_the_other().named(label_1="get()", label_2="put()")
        for access, label in ((READ, 1), (WRITE, 2)):
            place = log.lines.index(access)
            begin, end = (f"1 begin {label}", f"race.cpp:{label} worker()"), ("1 end", "")
            log.lines[place : place + 1] = [begin, access, end]
        one = self.assert_told(log)
        self.assertEqual(one["function"]["name"], "worker()")
        stacks = [[f["function"] for f in e["stack"]] for e in one["witness"]["events"]]
        self.assertEqual(stacks, [["worker()", "get()"], ["worker()"], ["worker()", "put()"]])

    def test_seen_in_one_run_and_possible_in_another(self) -> None:
        one_after_the_other().write(self.path("a.log"))
        log = one_after_the_other()
        log.lines.remove(OTHER)
        log.lines.insert(log.lines.index(WRITE), OTHER)
        log.write(self.path("b.log"))
        (one,) = self.answer("a.log", "b.log")["findings"]
        self.assertEqual((one["seen"], one["possible"]), (["b.log"], ["b.log", "a.log"]))


if __name__ == "__main__":
    unittest.main()
