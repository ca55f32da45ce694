"""What both sides of an edge by a lock touch under it."""

import unittest
from typing import Any, Dict, List, Tuple

import support
from support import Log

Told = Tuple[int, str, str, str]


def check_and_act() -> Log:
    """A thread reads x under the lock, and y under a later hold; the other one writes both in between."""
    log = Log(variables=3).named(label_0="sum", lock_0="m", variable_0="x", variable_1="y")
    log.named(variable_2="z", label_1="put")
    log.add(
        ("1 begin 0", "s.c:9 main"),
        ("1 rd 2 0", "s.c:2 sum"),
        ("1 acq 0", "s.c:3 sum"),
        ("1 rd 0 0", "s.c:4 sum"),
        ("1 rel 0", "s.c:5 sum"),
        ("2 begin 1", "s.c:19 main"),
        ("2 acq 0", "s.c:11 put"),
        ("2 rd 0 0", "s.c:12 put"),
        ("2 wr 0 1", "s.c:13 put"),
        ("2 wr 1 1", "s.c:14 put"),
        ("2 rel 0", "s.c:15 put"),
        ("2 rd 2 0", "s.c:16 put"),
        ("2 end", ""),
        ("1 acq 0", "s.c:6 sum"),
        ("1 rd 1 1", "s.c:7 sum"),
        ("1 rel 0", "s.c:8 sum"),
        ("1 end", ""),
    )
    return log


@support.needs_checker
class Under(support.InFolder):
    def finding(self) -> Dict[str, Any]:
        found = self.answer("run.log")["findings"]
        (one,) = (one for one in found if one["function"]["name"] == "sum")
        return dict(one)

    def told(self) -> List[Told]:
        """Of each edge by a lock the variable, and what is done to it, with the line."""

        def of(event: Dict[str, Any]) -> str:
            return f"{event['thread']['number']} {event['action']} {event['at']['line']}"

        touched = self.finding()["witness"]["touched"]
        return [
            (one["edge"], one["before"]["target"]["name"], of(one["before"]), of(one["after"]))
            for one in touched
        ]

    def test_what_one_writes_on_both_sides(self) -> None:
        check_and_act().write(self.path("run.log"))
        events = self.finding()["witness"]["events"]
        self.assertEqual({event["target"]["name"] for event in events}, {"m"})
        self.assertEqual(
            self.told(),
            [(0, "x", "1 reads 4", "2 writes 13"), (1, "y", "2 writes 14", "1 reads 7")],
        )

    def test_it_is_told_in_words(self) -> None:
        check_and_act().write(self.path("run.log"))
        number = 1 + [one["function"]["name"] for one in self.answer("run.log")["findings"]].index(
            "sum"
        )
        said = " ".join(self.run_command("run.log", "--explain", str(number)).stdout.split())
        self.assertIn("T1: thread 1 in sum, called at s.c:9, lines 4 to 17 of the log", said)
        self.assertIn("T1 comes before T2: unlocks m at s.c:5, then locks m at s.c:11", said)
        self.assertIn("under m, too: T1 reads x at s.c:4, then T2 writes x at s.c:13", said)
        self.assertIn("under m, too: T2 writes y at s.c:14, then T1 reads y at s.c:7", said)
        self.assertIn("in every order thread 2 locks m at s.c:11 after its begin and before", said)

    def test_two_reads_order_nothing(self) -> None:
        log = check_and_act()
        log.lines.remove(("2 wr 0 1", "s.c:13 put"))
        log.write(self.path("run.log"))
        self.assertEqual(self.told(), [(1, "y", "2 writes 14", "1 reads 7")])

    def test_only_under_this_lock(self) -> None:
        log = check_and_act()
        access = ("1 rd 0 0", "s.c:4 sum")
        log.lines.remove(access)
        log.lines.insert(log.lines.index(("1 acq 0", "s.c:3 sum")), access)
        log.write(self.path("run.log"))
        self.assertEqual(self.told(), [(1, "y", "2 writes 14", "1 reads 7")])

    def test_the_latest_of_several(self) -> None:
        log = check_and_act()
        place = log.lines.index(("1 rd 0 0", "s.c:4 sum"))
        log.lines.insert(place, ("1 rd 0 0", "s.c:30 sum"))
        log.write(self.path("run.log"))
        self.assertEqual(self.told()[0], (0, "x", "1 reads 4", "2 writes 13"))

    def test_what_the_other_thread_does_meanwhile(self) -> None:
        log = check_and_act()
        place = log.lines.index(("2 wr 1 1", "s.c:14 put"))
        log.lines[place] = ("1 wr 1 1", "s.c:30 sum")
        log.write(self.path("run.log"))
        self.assertEqual(self.told(), [(0, "x", "1 reads 4", "2 writes 13")])

    def test_only_in_the_transactions_or_the_holds_of_the_edge(self) -> None:
        log = check_and_act()
        other = [
            ("2 acq 0", "s.c:31 main"),
            ("2 wr 1 1", "s.c:32 main"),
            ("2 rel 0", "s.c:33 main"),
        ]
        log.lines.remove(("2 wr 1 1", "s.c:14 put"))
        place = log.lines.index(("1 rd 2 0", "s.c:2 sum"))
        log.lines[place:place] = other
        log.write(self.path("run.log"))
        self.assertEqual(self.told(), [(0, "x", "1 reads 4", "2 writes 13")])

    def test_other_holds_of_a_transaction(self) -> None:
        log = check_and_act()
        place = log.lines.index(("2 rd 2 0", "s.c:16 put"))
        log.lines.remove(("2 wr 0 1", "s.c:13 put"))
        log.lines[place - 1 : place - 1] = [
            ("2 acq 0", "s.c:17 put"),
            ("2 wr 0 1", "s.c:18 put"),
            ("2 rel 0", "s.c:19 put"),
        ]
        log.write(self.path("run.log"))
        self.assertEqual(self.told()[0], (0, "x", "1 reads 4", "2 writes 18"))

    def test_the_whole_hold_of_an_event_outside_of_blocks(self) -> None:
        log = check_and_act()
        log.lines.remove(("2 begin 1", "s.c:19 main"))
        log.lines.remove(("2 end", ""))
        log.write(self.path("run.log"))
        self.assertEqual(len(self.finding()["witness"]["edges"]), 2)
        both = [(0, "x", "1 reads 4", "2 writes 13"), (1, "y", "2 writes 14", "1 reads 7")]
        self.assertEqual(self.told(), both)
        place = log.lines.index(("2 rd 2 0", "s.c:16 put"))
        log.lines[place:place] = [("2 acq 0", "s.c:17 put"), ("2 rel 0", "s.c:18 put")]
        log.write(self.path("run.log"))
        self.assertEqual(self.told(), both)


if __name__ == "__main__":
    unittest.main()
