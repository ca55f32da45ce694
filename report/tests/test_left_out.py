"""A function that is known and left out is named as such, and stands around no event."""

from __future__ import annotations

import unittest

import support

OUTER = "transfer(long)"


def within_another() -> support.Log:
    """The lost update, its first call inside another function."""
    log = support.lost_update().named(label_1=OUTER)
    log.functions.append(f"1 - 1 bank/bank.cpp:8 {OUTER}")
    begin = next(place for place, (text, _) in enumerate(log.lines) if text == "1 begin 0")
    log.lines.insert(begin, ("1 begin 1", "bank/bank.cpp:12 main"))
    return log.add(("1 end", ""))


@support.needs_checker
class LeftOut(support.InFolder):
    def explained(self, *more: str) -> str:
        within_another().write(self.path("run.log"))
        support.put(self.path("known.txt"), f"{OUTER}\n")
        return self.run_command("run.log", "--explain", "1", *more).stdout

    def test_it_stands_around_no_event(self) -> None:
        self.assertIn(f"in {OUTER}", self.explained())
        self.assertNotIn(OUTER, self.explained("--known", "known.txt"))

    def test_the_report_names_it(self) -> None:
        within_another().write(self.path("run.log"))
        support.put(self.path("known.txt"), f"{OUTER}\n")
        self.assertEqual(self.answer("run.log")["known"], [])
        self.assertEqual(self.answer("run.log", "--known", "known.txt")["known"], [OUTER])


if __name__ == "__main__":
    unittest.main()
