"""The whole command on small logs, with the checker."""

import json
import os
import unittest
from typing import Any, Optional

import support
from support import Log, hold

LOST = """\
deposit(..) is not atomic: seen in 1 of 1 run, possible in 1          bank.cpp:4
      balance is read, and later written without being read again
    thread 1  bank.cpp:5  long before = balance;  reads balance
  > thread 2  bank.cpp:6  balance = before + n;   writes balance
    thread 1  bank.cpp:6  balance = before + n;   writes balance

2 calls of 1 function in 1 run: 1 likely mistake
"""
ORDER = """\
deadlock possible: thread 1 and thread 2 can wait for each other:
      seen in 0 of 1 run, possible in 1
      d.cpp:11
    thread 1  d.cpp:10  holds a.m
    thread 1  d.cpp:11  waits for b.m
    thread 2  d.cpp:10  holds b.m
    thread 2  d.cpp:11  waits for a.m

2 calls of 1 function in 1 run: 1 likely mistake
"""
NOTHING = """\
4 calls of 1 function in 2 runs: no mistake found
2 of 2 runs atomic
"""
RUNS = """\
a.log  not atomic: deposit(..)
b.log  atomic
c.log  not looked at: it is empty
"""
BANK = ["long balance;"] * 4 + ["    long before = balance;", "    balance = before + n;"]


@support.needs_checker
class Lists(support.InFolder):
    def test_a_lost_update(self) -> None:
        support.put(self.path("bank.cpp"), support.lines_of(BANK))
        support.lost_update().write(self.path("run.log"))
        done = self.run_command("run.log")
        self.assertEqual((done.stdout, done.returncode), (LOST, 3))

    def test_a_deadlock_that_can_happen(self) -> None:
        support.inverted_order().write(self.path("run.log"))
        done = self.run_command("run.log")
        self.assertEqual((done.stdout, done.returncode), (ORDER, 3))

    def test_who_only_tries_a_lock_does_not_wait_for_it(self) -> None:
        log = support.inverted_order()
        tried = log.lines.index(("2 acq 0", "d.cpp:11 move(int, int)"))
        log.write(self.path("run.log"))
        support.put(self.path("run.log.tried"), f"{tried}\n")
        self.assertEqual(self.answer("run.log")["findings"], [])

    def test_who_sets_up_what_others_wait_for(self) -> None:
        """Thread 1 writes `once` alone; both change a count under a lock."""
        change = [("acq 0", ""), ("rd 1 0", "o.c:3 f"), ("wr 1 0", "o.c:4 f"), ("rel 0", "")]
        one, two = ([(f"{thread} {text}", site) for text, site in change] for thread in (1, 2))
        log = Log(variables=2).named(label_0="f", variable_0="once", variable_1="used")
        log.add(("1 begin 0", ""), ("1 wr 0 0", "o.c:2 f"), ("2 begin 0", ""))
        log.add(("2 rd 0 0", "o.c:2 f"), *two, ("2 end", ""), *one, ("1 end", ""))
        log.notes = {"all_variables": True}
        log.write(self.path("run.log"))
        self.assertEqual(
            [one["section"] for one in self.answer("run.log")["findings"]], ["by_design"]
        )

    def test_locks_of_one_array_are_one_deadlock(self) -> None:
        ids = []
        for first, second in (("locks+8", "locks+16"), ("locks+40", "locks[3]")):
            log = support.inverted_order()
            log.names.update({"lock 0": first, "lock 1": second})
            log.write(self.path("run.log"))
            ids += [one["id"] for one in self.answer("run.log")["findings"]]
        self.assertEqual(len(set(ids)), 1)

    def test_locks_alone_in_a_log_that_lacks_variables(self) -> None:
        log = support.lost_update().named(label_0="inc")
        log.lines = [line for line in log.lines if " 0 0" not in line[0]]
        log.write(self.path("run.log"))
        (found,) = self.answer("run.log")["findings"]
        self.assertEqual(found["section"], "likely")
        log.notes = {"schema": 1, "all_variables": True}
        log.write(self.path("run.log"))
        (found,) = self.answer("run.log")["findings"]
        self.assertEqual(found["section"], "by_design")

    def test_nothing_found_is_said_of_what_was_looked_at(self) -> None:
        for name in ("a.log", "b.log"):
            support.right().write(self.path(name))
        done = self.run_command("a.log", "b.log")
        self.assertEqual(done.stdout, NOTHING)
        self.assertEqual(done.returncode, 0)

    def test_runs_are_summed_up(self) -> None:
        support.lost_update().write(self.path("a.log"))
        support.lost_update(interrupted=False).write(self.path("b.log"))
        support.right().write(self.path("c.log"))
        (found,) = self.answer("a.log", "b.log", "c.log")["findings"]
        self.assertEqual(found["seen"], ["a.log"])
        self.assertEqual(found["possible"], ["a.log", "b.log"])
        self.assertEqual(found["counts"], {"calls": 4, "to_blame": 1})
        self.assertEqual(found["witness"]["run"], "a.log")
        self.assertFalse(found["witness"]["predicted"])

    def test_each_run(self) -> None:
        support.lost_update().write(self.path("a.log"))
        support.right().write(self.path("b.log"))
        support.put(self.path("c.log"), "")
        done = self.run_command("a.log", "b.log", "c.log", "--runs")
        self.assertTrue(done.stdout.endswith(f"1 of 3 runs atomic\n\n{RUNS}"), done.stdout)
        self.assertNotIn(RUNS, self.run_command("a.log", "b.log", "c.log").stdout)

    def test_how_each_run_ended(self) -> None:
        for number, ending in ((1, {"exit": 0}), (2, {"exit": 0}), (3, {"signal": 6})):
            support.right().write(self.path("r", str(number), "trace.7.log"))
            run = json.dumps({"schema": 1, "seed": number, **ending})
            support.put(self.path("r", str(number), "run.json"), run)
        done = self.run_command("r", "--runs")
        self.assertIn("3 of 3 runs atomic; ended with exit 0 (2) and signal 6 (1)\n", done.stdout)
        self.assertIn("r/3  seed 3  signal 6  atomic\n", done.stdout)
        alone = self.run_command("r/3").stdout
        self.assertIn("1 of 1 run atomic; ended with signal 6\n", alone)
        self.assertNotIn("atomic", self.run_command("r/1").stdout)

    def test_the_best_cycle_and_not_the_first(self) -> None:
        log = Log(variables=2, locks=2).named(label_0="get", label_1="find", variable_1="map")
        log.named(variable_0="loads", lock_0="stats", lock_1="cache", label_2="put")
        log.add(("1 begin 0", "c.c:1 main"), ("2 begin 0", "c.c:1 main"))
        log.add(("1 begin 1", "c.c:2 get"), *hold(1, "rd 1 0", 20, "find", 1), ("1 end", ""))
        log.add(*hold(1, "wr 0 0", 3, "get"), *hold(2, "wr 0 0", 3, "get"))
        log.add(("2 begin 1", "c.c:2 get"), *hold(2, "rd 1 0", 20, "find", 1), ("2 end", ""))
        log.add(("2 begin 2", "c.c:4 get"), *hold(2, "wr 1 0", 30, "put", 1), ("2 end", ""))
        log.add(("1 begin 2", "c.c:4 get"), *hold(1, "wr 1 0", 30, "put", 1), ("1 end", ""))
        log.add(("1 end", ""), ("2 end", ""))
        log.write(self.path("run.log"))
        found = self.answer("run.log")["findings"][0]
        self.assertEqual(found["function"]["name"], "get")
        does = [(e["action"], e["target"]["name"]) for e in found["witness"]["events"]]
        self.assertEqual(does, [("reads", "map"), ("writes", "map"), ("writes", "map")])
        places = [event["place"]["line"] for event in found["witness"]["events"]]
        self.assertEqual(places, [2, 4, 4])
        self.assertEqual(found["witness"]["events"][0]["call"], "find")

    def test_callers_fold_under_the_callee(self) -> None:
        log = support.lost_update().named(label_7="teller(int)")
        log.lines.insert(2, ("1 begin 7", "bank/bank.cpp:20 main"))
        log.functions.append("7 - 1 bank/bank.cpp:30 teller(int)")
        log.add(("1 end", "")).write(self.path("run.log"))
        found = self.answer("run.log")["findings"]
        self.assertEqual([one["section"] for one in found], ["likely", "folded"])
        self.assertEqual(found[1]["under"], found[0]["id"])
        done = self.run_command("run.log")
        self.assertIn("and so are its callers: teller(..)", done.stdout)
        self.assertEqual(len(self.answer("run.log", "--innermost")["findings"]), 1)

    def test_a_planted_mistake_whose_callees_are_listed_by_design_comes_first(self) -> None:
        log = Log(variables=2).named(label_0="plant", label_1="get", variable_0="hits")
        log.named(variable_1="table", lock_0="m")
        count = [("1 rd 0 0", "a.c:21 get"), ("1 wr 0 0", "a.c:21 get")]
        other = [("2 rd 0 0", "a.c:40 g"), ("2 wr 0 0", "a.c:40 g")]
        log.add(*other, ("1 begin 0", "a.c:1 main"), ("1 begin 1", "a.c:2 plant"), *count, *other)
        log.add(*count, *hold(1, "rd 1 0", 22, "get"), ("1 end", ""))
        log.add(*hold(2, "wr 1 0", 41, "g"), *hold(1, "wr 1 0", 3, "plant"), ("1 end", ""))
        log.write(self.path("run.log"))
        found = self.answer("run.log")["findings"]
        told = [(one["function"]["name"], one["section"]) for one in found]
        self.assertEqual(told, [("plant", "likely"), ("get", "by_design")])

    def test_what_waits_is_by_design(self) -> None:
        log = Log().named(label_0="push", lock_0="m", variable_0="size")
        log.add(("1 begin 0", "q.c:1 main"), ("1 acq 0", "q.c:2 push"), ("1 rd 0 0", "q.c:3 push"))
        log.add(("1 rel 0", "q.c:4 push"), *hold(2, "wr 0 0", 9, "pop"), ("1 acq 0", "q.c:4 push"))
        log.add(("1 rd 0 0", "q.c:3 push"), ("1 wr 0 0", "q.c:5 push"), ("1 rel 0", ""))
        log.add(("1 end", "")).write(self.path("run.log"))
        (found,) = self.answer("run.log")["findings"]
        self.assertEqual(found["section"], "by_design")
        self.assertIn("only while it waits", found["why"])
        self.assertIn("By design, probably (1)", self.run_command("run.log").stdout)

    def test_what_is_known_is_left_out(self) -> None:
        support.lost_update().write(self.path("run.log"))
        for line in ("deposit(long)", "deposit(..)", "not atomic 0 deposit(long)", "lock lock"):
            with self.subTest(line):
                support.put(self.path("known.txt"), f"# why\n{line}\n")
                found = self.answer("run.log", "--known", "known.txt")["findings"]
                self.assertEqual(len(found), 1 if line.startswith("lock") else 0)

    def test_one_in_full(self) -> None:
        support.lost_update().write(self.path("run.log"))
        done = self.run_command("run.log", "--explain", "1")
        self.assertIn("    thread 1 one", done.stdout)
        self.assertIn("in deposit(long), called at bank.cpp:12 (to blame)", done.stdout)
        self.assertEqual(self.run_command("run.log", "--explain", "2").returncode, 2)

    def test_merged_parts_are_the_whole(self) -> None:
        for name, log in (
            ("a.log", support.lost_update(interrupted=False)),
            ("b.log", support.lost_update()),
            ("c.log", support.right()),
            ("d.log", support.inverted_order()),
        ):
            log.write(self.path(name))
        support.put(self.path("e.log"), "vlog 9\n")
        logs = ["a.log", "b.log", "c.log", "d.log", "e.log"]
        for number, part in enumerate((logs[:2], logs[2:])):
            done = self.run_command(*part, "--format", "json")
            support.put(self.path(f"{number}.json"), done.stdout)
        whole = self.run_command(*logs, "--format", "json")
        merged = self.run_command("--merge", "0.json", "1.json", "--format", "json")
        self.assertEqual(merged.stdout, whole.stdout)
        self.assertEqual(merged.returncode, 3)
        self.assertIn("e.log: the checker refused the log", self.run_command(*logs).stdout)

    def test_answers_of_the_checker(self) -> None:
        log = support.lost_update().write(self.path("run.log"))
        for command in ("audit", "predict"):
            words = [support.CHECKER, command, "run.log", "--names", log + ".names"]
            words += ["--sites", log + ".sites", "--format", "json", "> answer.json"]
            os.system(f"cd {self.folder} && {' '.join(words)}")
            (found,) = self.answer("answer.json")["findings"]
            self.assertEqual(found["function"]["name"], "deposit(long)")
            self.assertEqual(found["seen"], ["answer.json"])

    def test_a_deadlock_that_happened(self) -> None:
        log = Log(locks=2).named(label_0="move", lock_0="a.m", lock_1="b.m")
        log.add(("1 begin 0", ""), ("1 acq 0", ""), ("2 begin 0", ""), ("2 acq 1", ""))
        waits = [
            {
                "thread": one,
                "for": "mutex",
                "name": wanted,
                "site": "d.cpp:11 move",
                "held_by": other,
                "holds": [{"name": held, "site": "d.cpp:10 move"}],
            }
            for one, other, wanted, held in ((1, 2, "b.m", "a.m"), (2, 1, "a.m", "b.m"))
        ]
        log.notes = {"schema": 1, "waits": waits, "circles": [[1, 2]]}
        log.write(self.path("run.log"))
        (found,) = self.answer("run.log")["findings"]
        self.assertEqual((found["kind"], found["seen"]), ("deadlock", ["run.log"]))
        shown = self.run_command("run.log").stdout
        self.assertIn("    thread 2  d.cpp:11  waits for a.m\n", shown)
        self.assertIn("    thread 1  d.cpp:10  holds a.m\n", shown)

    def test_a_value_that_was_written_from_an_old_one(self) -> None:
        small = Log(locks=0).named(label_0="worker()", variable_0="counter")
        small.add(("1 begin 0", ""), ("1 rd 0 0", "counter.cpp:7 worker()"))
        small.add(("2 wr 0 0", "counter.cpp:8 worker()"))
        small.add(("1 wr 0 0", "counter.cpp:8 worker()"), ("1 end", ""))
        small.write(self.path("run.log.stale.1"))
        log = Log(variables=0, locks=0)
        place = "counter.cpp:5"
        stale = {"log": "run.log.stale.1", "function": "worker()", "place": place}
        log.notes = {"schema": 1, "loops": [{"function": "worker()", "place": place}]}
        log.notes["stale"] = [{**stale, "variable": "counter"}]
        log.write(self.path("run.log"))
        done = self.run_command("run.log")
        said = " ".join(done.stdout.split())
        self.assertIn("worker(): counter is written from an old value: seen in 1 of 1", said)
        self.assertIn("worker() (counter.cpp:5), the routine of a thread, loops", said)
        self.assertEqual(done.returncode, 3)

    def test_an_old_value_of_another_pass_of_a_loop(self) -> None:
        for line, section in ((20, "by_design"), (21, "likely")):
            small = Log(locks=0).named(label_0="worker()", label_1="step()", variable_0="counter")
            small.add(("1 begin 0", ""), ("1 begin 1", "counter.cpp:20 worker()"))
            small.add(("1 rd 0 0", "counter.cpp:7 step()"), ("1 end", ""))
            small.add(("2 wr 0 0", "counter.cpp:8 step()"))
            small.add(("1 begin 1", f"counter.cpp:{line} worker()"))
            small.add(("1 wr 0 0", "counter.cpp:8 step()"), ("1 end", ""), ("1 end", ""))
            small.write(self.path("run.log.stale.1"))
            log = Log(variables=0, locks=0)
            stale = {"log": "run.log.stale.1", "function": "worker()", "place": "counter.cpp:5"}
            log.notes = {"schema": 1, "stale": [{**stale, "variable": "counter"}]}
            log.write(self.path("run.log"))
            (found,) = self.answer("run.log")["findings"]
            self.assertEqual((found["kind"], found["section"]), ("stale_write", section))

    def test_how_to_repeat_it(self) -> None:
        log = self.path("velodrome.runs", "0001", "01", "trace.7.log")
        support.lost_update().write(log)
        run = {"command": ["./bank", "a b"], "seed": 7, "mode": "serial", "noise": 5}
        support.put(self.path("velodrome.runs", "0001", "01", "run.json"), json.dumps(run))
        done = self.run_command()
        words = "to repeat: velodrome-record --mode serial --noise 5 --seed 7 -- ./bank 'a b'"
        self.assertIn(words, done.stdout)

    def repeated(self, log: Log, **run: Any) -> Optional[str]:
        """How the first finding of a run is repeated."""
        log.write(self.path("velodrome.runs", "0001", "01", "trace.7.log"))
        described = {"command": ["./bank"], "seed": 7, "folder": self.folder, **run}
        support.put(self.path("velodrome.runs", "0001", "01", "run.json"), json.dumps(described))
        told = self.answer()["findings"][0]["repeat"]
        return None if told is None else str(told)

    def test_where_and_how_it_is_repeated(self) -> None:
        self.assertEqual(
            self.repeated(support.lost_update()), "velodrome-record --seed 7 -- ./bank"
        )
        environment = {"VELODROME_PERIOD": "3", "VELODROME_SEED": "7", "VELODROME_CC": "gcc"}
        told = self.repeated(
            support.lost_update(), mode="serial", folder="/a b", environment=environment
        )
        words = "VELODROME_PERIOD=3 velodrome-record --mode serial --seed 7 -- ./bank"
        self.assertEqual(told, f"cd '/a b' && {words}")

    def test_what_never_happened_is_not_repeated(self) -> None:
        self.assertIsNone(self.repeated(support.lost_update(interrupted=False)))
        self.assertIsNone(self.repeated(support.inverted_order()))

    def test_a_run_without_a_command_is_not_repeated(self) -> None:
        self.assertIsNone(self.repeated(support.lost_update(), command=None))


if __name__ == "__main__":
    unittest.main()
