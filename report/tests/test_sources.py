"""Lines of source are those of the run, or there are none."""

import json
import os
import unittest
from typing import Any, Dict, List

import support

OLD = ["long balance;"] * 4 + ["    long before = balance;", "    balance = before + n;"]
NEW = ["// longer", *OLD]


class Lines(support.InFolder):
    def setUp(self) -> None:
        super().setUp()
        self.source = self.path("bank.cpp")
        self.run = self.path("velodrome.runs", "0001", "01")
        self.write(OLD, 100)
        self.log = support.lost_update().write(self.path(self.run, "trace.7.log"))
        self.program = support.put(self.path("bank"), "")
        description = {"schema": 1, "folder": self.folder, "program": self.program}
        support.put(self.path(self.run, "run.json"), json.dumps(description))
        self.at(self.program, 200)
        self.at(self.log, 300)

    def at(self, path: str, seconds: int) -> None:
        """The file was written at this time."""
        os.utime(path, (seconds, seconds))

    def write(self, lines: List[str], seconds: int) -> None:
        support.put(self.source, support.lines_of(lines))
        self.at(self.source, seconds)

    def told(self) -> Dict[str, Any]:
        """The lines of source of the finding, and the warnings."""
        answer = self.answer(os.path.join("velodrome.runs", "0001"))
        (found,) = answer["findings"]
        lines = [event["source"] for event in found["witness"]["events"]]
        return {"lines": lines, "warnings": answer["warnings"]}


@support.needs_checker
class Recorded(Lines):
    READ = [line.strip() for line in (OLD[4], OLD[5], OLD[5])]

    def test_as_they_are(self) -> None:
        self.assertEqual(self.told(), {"lines": self.READ, "warnings": []})

    def test_the_lines_of_the_run_stay(self) -> None:
        self.told()
        self.write(NEW, 400)
        changed = "bank/bank.cpp was changed since velodrome.runs/0001/01:"
        words = f"{changed} its lines are shown as they were"
        self.assertEqual(self.told(), {"lines": self.READ, "warnings": [words]})
        page = self.path("page.html")
        self.run_command("--html", page)
        with open(page, encoding="utf-8") as opened:
            text = opened.read()
        self.assertIn("&gt;     5      long before = balance;".replace("&gt;", ">"), text)
        self.assertNotIn("// longer", text)
        os.unlink(self.source)
        self.assertEqual(self.told(), {"lines": self.READ, "warnings": []})

    def test_newer_than_the_run(self) -> None:
        self.write(NEW, 400)
        changed = "bank/bank.cpp was changed since velodrome.runs/0001/01:"
        none = {"lines": [None] * 3, "warnings": [f"{changed} its lines are not shown"]}
        self.assertEqual(self.told(), none)
        self.assertEqual(self.told(), none)

    def test_newer_than_the_program_that_ran(self) -> None:
        self.write(NEW, 250)
        self.assertEqual(self.told()["lines"], [None] * 3)

    def test_a_program_that_was_built_again(self) -> None:
        self.at(self.program, 500)
        self.assertEqual(self.told()["lines"], self.READ)

    def test_a_recording_that_nothing_is_written_into(self) -> None:
        support.put(self.path("velodrome.runs", "0001", "sources"), "")
        self.assertEqual(self.told(), {"lines": self.READ, "warnings": []})

    def test_a_log_alone(self) -> None:
        self.at(support.lost_update().write(self.path("run.log")), 300)
        (found,) = self.answer("run.log")["findings"]
        self.assertEqual(found["witness"]["events"][0]["source"], self.READ[0])
        self.write(NEW, 400)
        (found,) = self.answer("run.log")["findings"]
        self.assertIsNone(found["witness"]["events"][0]["source"])
        self.assertFalse(os.path.exists(self.path("sources")))


if __name__ == "__main__":
    unittest.main()
