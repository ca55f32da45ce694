"""What is made of what the tools said: `python3 -m unittest` in this folder."""

import json
import os
import sys
import unittest
from typing import Any, Dict, List, Sequence
from unittest import mock

import check
import java
import page
import results
import run
import tools
from check import Program
from results import Results
from tools import Asked, Ended, Seen

WRONG = Program("bank", "bank.c", "atomicity", "a book", "transfer", "balance", 1, 2)
HUNG = Program("meal", "meal.c", "deadlock", "a book", "dine", "forks", 1, 2)
RIGHT = Program("right_count", "right_count.c", "right", "a book", "", "", 0, 0)
ALL = [WRONG, HUNG, RIGHT]
YES, NO = Seen(True, True, 2.0, "told"), Seen(False, False, 1.0)
FAILED = Seen(False, False, 5.0, failed="it did not end")


def finding(
    name: str = "transfer",
    kind: str = "not_atomic",
    section: str = "likely",
    seen: Sequence[str] = ("run",),
    line: int = 9,
) -> Dict[str, Any]:
    """What of a finding is read."""
    return {
        "function": {"name": name},
        "kind": kind,
        "section": section,
        "seen": list(seen),
        "witness": {"events": [{"at": None}, {"at": {"file": "meal.c", "line": line}}]},
    }


def answer(*findings: Dict[str, Any], looked_at: bool = True) -> Ended:
    """A report of these findings, behind what the program printed."""
    report = {"findings": findings, "runs": [{"looked_at": looked_at}]}
    return Ended(3, f"wrong\n{json.dumps(report)}\n", "", 1.5)


class Judged(unittest.TestCase):
    def judged(
        self, *findings: Dict[str, Any], of: Program = WRONG, all: bool = False
    ) -> List[bool]:
        seen = tools.judged(of, answer(*findings), all)
        return [seen.named, seen.said]

    def test_the_function_is_first(self) -> None:
        for name in ("bank::transfer(int)", "transfer, before its wait"):
            self.assertEqual(self.judged(finding(name)), [True, True])
        self.assertEqual(self.judged(finding(kind="stale_write")), [True, True])

    def test_another_one_is_first(self) -> None:
        for other in (finding("transfer_all"), finding("f"), finding(kind="deadlock")):
            with self.subTest(other):
                self.assertEqual(self.judged(other, finding()), [False, True])

    def test_what_is_folded_is_not_said(self) -> None:
        self.assertEqual(self.judged(finding(section="by_design")), [False, False])
        self.assertEqual(self.judged(finding("f", section="folded"), finding()), [True, True])

    def test_what_could_have_happened(self) -> None:
        self.assertEqual(self.judged(finding(seen=())), [False, False])
        self.assertEqual(self.judged(finding(seen=()), all=True), [True, True])

    def test_a_deadlock(self) -> None:
        for kind in ("deadlock", "deadlock_possible", "not_atomic"):
            with self.subTest(kind):
                self.assertEqual(self.judged(finding("dine", kind), of=HUNG), [True, True])
        self.assertEqual(self.judged(finding("f", "deadlock"), of=HUNG), [False, True])
        self.assertEqual(self.judged(finding("f", "deadlock", line=2), of=HUNG), [True, True])

    def test_no_answer(self) -> None:
        self.assertEqual(tools.judged(WRONG, Ended(4, "", "no log", 1.0), True).failed, "no log")
        failed = tools.judged(WRONG, answer(looked_at=False), True).failed
        self.assertEqual(failed, "nothing was looked at")


class Commands(unittest.TestCase):
    def test_what_it_printed_and_its_time(self) -> None:
        work = "print(sum(range(10**6))); import sys; sys.stderr.write('e'); sys.exit(3)"
        ended = tools.command([sys.executable, "-c", work], ".")
        self.assertEqual((ended.status, ended.out, ended.err), (3, "499999500000\n", "e"))
        self.assertGreater(ended.seconds, 0.0)

    def test_one_that_hangs_ends_with_what_it_started(self) -> None:
        with mock.patch.object(tools, "MOST_SECONDS", 1):
            ended = tools.command(["sh", "-c", "sleep 1000; true"], ".")
        self.assertEqual(ended.status, tools.ENDED_BY_KILL)


class Order(unittest.TestCase):
    def test_all_are_run_once_before_any_is_run_again(self) -> None:
        kept = Results()
        kept.of("bank", "wrong", tools.PLAIN).append(NO)
        tasks = [
            (of.name, version, number) for of, version, _, _, number in run.missing(ALL, 2, kept)
        ]
        numbers = [number for _, _, number in tasks]
        self.assertEqual(numbers, sorted(numbers))
        self.assertEqual(len(tasks), 2 * 5 * len(tools.MEASURES) - 1)

    def test_each_column_is_measured(self) -> None:
        filled = [column for columns, _ in tools.MEASURES for column in columns]
        self.assertEqual(sorted(filled), sorted(tools.COLUMNS))


class Kept(unittest.TestCase):
    def test_what_is_saved_is_loaded(self) -> None:
        kept = filled()
        kept.loads.append(2.5)
        kept.notes.append("by hand")
        with mock.patch.object(results, "FILE", os.path.join(check.OUT, "test.json")):
            results.save(kept)
            self.assertEqual(results.load(), kept)
            os.remove(results.FILE)


def filled(**cells: List[Seen]) -> Results:
    """Nothing found and nothing said but in these cells, as `bank_wrong`, of each tool."""
    kept = Results()
    for of in ALL:
        for version in check.versions(of):
            for column in tools.COLUMNS:
                seen = cells.get(f"{of.name}_{version}", [NO, NO, NO])
                kept.of(of.name, version, column).extend(seen)
    return kept


class Pages(unittest.TestCase):
    def test_cells(self) -> None:
        kept = filled(bank_wrong=[YES, FAILED, NO], meal_wrong=[FAILED])
        one = page.cell(kept, WRONG, "wrong", (tools.DRD,), "named")
        self.assertEqual((one.text(), one.mostly()), ("1 of 2", False))
        self.assertEqual(page.cell(kept, HUNG, "wrong", (tools.DRD,), "named").text(), "-")

    def test_two_columns_together(self) -> None:
        kept = Results()
        kept.of("bank", "wrong", tools.NOISE_RUNS).extend([YES, NO, FAILED, NO])
        kept.of("bank", "wrong", tools.PREDICT).extend([NO, YES, FAILED, NO])
        self.assertEqual(page.cell(kept, WRONG, "wrong", page.GOAL, "named").text(), "2 of 3")

    def test_sums(self) -> None:
        kept = filled(bank_wrong=[YES, YES, NO], right_count_repaired=[YES, NO, NO])
        line = page.sums(ALL, kept, (tools.DRD,))[-1]
        self.assertEqual(line, "| drd | 1 | 0 | 0 | 1 |")

    def test_what_was_not_run_is_not_in_a_sum(self) -> None:
        kept = filled(bank_wrong=[YES], meal_repaired=[FAILED])
        line = page.sums(ALL, kept, (tools.DRD,))[-1]
        self.assertEqual(line, "| drd | 1 | 0 | 0 of 2 run | 1 |")
        kept = filled(meal_wrong=[])
        self.assertEqual(page.sums(ALL, kept, (tools.DRD,))[-1], "| drd | 0 | - | 0 | 1 |")

    def test_how_often_it_was_run(self) -> None:
        many = [NO] * page.REPETITIONS
        whole = filled(bank_wrong=many)
        self.assertEqual(page.in_most(ALL, whole), "In most of 10 repetitions")
        self.assertIn("Repetitions: 3 to 10; that", page.repetitions(ALL, whole))
        self.assertNotIn("Not run", page.repetitions(ALL, whole))
        few = {f"{of.name}_{version}": [NO] for of in ALL for version in check.versions(of)}
        few["meal_wrong"] = []
        kept = filled(**few)
        kept.of("meal", "wrong", tools.PLAIN).append(NO)
        self.assertEqual(page.in_most(ALL, kept), "In one repetition")
        words = page.repetitions(ALL, kept)
        self.assertIn("Repetitions: 1; that it is not 10", words)
        self.assertIn(f"of 5 programs each: {tools.ONE_RUN} 1, ", words)

    def test_goals(self) -> None:
        kept = filled(bank_wrong=[YES], right_count_repaired=[YES])
        lines = page.goals(ALL, kept)
        self.assertIn("1 of 1, 100 %", lines[2])
        self.assertIn("0 of 1, 0 %", lines[3])
        self.assertIn("1 of 3, 33 %", lines[4])

    def test_what_falls_short(self) -> None:
        kept = filled(bank_wrong=[YES, NO, NO], right_count_repaired=[YES, YES, NO])
        lines = page.short_of_goals(ALL, kept)
        self.assertEqual(len(lines), 3)
        self.assertIn("`bank`, wrong: found in 1 of 3; said: told.", lines[0])
        self.assertIn("`meal`, wrong: found in 0 of 3; nothing was said.", lines[1])
        self.assertIn("`right_count`, repaired: said in 2 of 3", lines[2])

    def test_where_another_tool_did_better(self) -> None:
        kept = filled()
        kept.of("meal", "wrong", tools.HELGRIND)[:] = [YES, YES, NO]
        lines = page.others_better(ALL, kept)
        self.assertEqual(lines, ["- `meal`: helgrind found it in 2 of 3, Velodrome in 0."])
        self.assertEqual(page.others_better(ALL, filled()), ["Nowhere in these programs."])

    def test_the_sums_stand_between_the_marks(self) -> None:
        text = f"a\n{page.BEGIN}\nold\n{page.END}\nb\n"
        self.assertEqual(page.with_sums(text, ["new"]), f"a\n{page.BEGIN}\nnew\n{page.END}\nb\n")
        with self.assertRaises(check.Bad):
            page.with_sums("a\n", ["new"])


SELL = java.Mistake("Shop", ["a.Shop$Till.sell"], "looked at, and then sold")
WITH_NOISE, PREDICTED = (column for column, _ in java.WAYS)


def recording(
    version: str, column: str, *findings: java.Listed, failed: str = ""
) -> java.Recording:
    """Of the file Shop."""
    return java.Recording("Shop", version, column, 2.5, list(findings), failed)


def sold(section: str, seen: bool = True) -> java.Listed:
    """A finding of the method that is wrong."""
    return java.Listed("a.Shop$Till.sell(int)", section, seen)


class Java(unittest.TestCase):
    def row(self, *kept: java.Recording) -> List[str]:
        """The cells behind the words of the mistake."""
        line = next(one for one in java.part([SELL], list(kept)) if one.startswith("| Till.sell"))
        return line.strip("| ").split(" | ")[2:]

    def test_with_noise_only_what_happened_counts(self) -> None:
        for seen, cell in ((True, "found"), (False, "nothing")):
            finding = sold("likely", seen)
            kept = [recording(java.BROKEN, column, finding) for column, _ in java.WAYS]
            self.assertEqual(self.row(*kept), [cell, "found", "-"])

    def test_it_is_told_where_a_report_has_it(self) -> None:
        other = java.Listed("a.Shop$Till.seller", "likely", True)
        for section, cell in (("by_design", "by design"), ("folded", "folded")):
            kept = recording(java.BROKEN, PREDICTED, other, sold(section))
            self.assertEqual(self.row(kept)[1], cell)
        self.assertEqual(self.row(recording(java.BROKEN, PREDICTED, other))[1], "nothing")

    def test_a_repair_is_of_both_ways(self) -> None:
        good = recording(java.REPAIRED, WITH_NOISE)
        said = recording(java.REPAIRED, PREDICTED, sold("likely", False))
        self.assertEqual(self.row(good, said)[2], "found")
        self.assertEqual(self.row(good, recording(java.REPAIRED, PREDICTED))[2], "nothing")

    def test_what_failed_says_nothing(self) -> None:
        failed = recording(java.BROKEN, PREDICTED, failed="no log")
        self.assertEqual(self.row(failed)[1], "-")
        self.assertIn("no log", java.part([SELL], [failed])[-1])

    def test_what_else_is_likely(self) -> None:
        other = java.Listed("a.Shop.open", "likely", True)
        less = java.Listed("a.Shop.wait", "by_design", True)
        seen = (other, less, sold("likely"))
        lines = java.part([SELL], [recording(java.REPAIRED, WITH_NOISE, *seen)])
        self.assertTrue(lines[-2].endswith("broken versions beside these methods: nothing."))
        self.assertIn("repaired versions beside these methods: `a.Shop.open`: the", lines[-1])
        self.assertNotIn("a.Shop.wait", lines[-1])

    def test_a_report_of_which_a_run_was_not_looked_at(self) -> None:
        seen, failed = java.listed(answer(finding("sell", seen=())))
        self.assertEqual((seen, failed), ([java.Listed("sell", "likely", False)], ""))
        self.assertTrue(java.listed(answer(looked_at=False))[1])
        self.assertEqual(java.listed(Ended(4, "", "no log", 1.0))[1], "no log")

    def test_without_a_jdk_it_is_not_run(self) -> None:
        asked = Asked("", "", "")
        nowhere = os.path.join(check.OUT, "nowhere.json")
        with mock.patch.object(java, "FILE", nowhere), mock.patch("shutil.which", lambda _: None):
            self.assertEqual(java.told(asked)[0][: len("not run: ")], "not run: ")

    def test_what_does_not_compile_is_not_run(self) -> None:
        nowhere = os.path.join(check.OUT, "nowhere.json")
        bad = mock.Mock(side_effect=check.Bad("it does not compile"))
        with mock.patch.multiple(java, FILE=nowhere, missing=lambda: None, recorded=bad):
            self.assertEqual(java.told(Asked("", "", "")), ["not run: it does not compile"])

    def test_the_rows_of_the_recorder_are_read(self) -> None:
        names = [of.name() for of in java.mistakes()]
        self.assertIn("Counter.increment", names)
        self.assertIn("SynchronizedCollection.containsAll", names)


if __name__ == "__main__":
    unittest.main()
