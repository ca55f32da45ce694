"""Programs as a new user records them: what is wrong is named, and what is right is not.

They need the recorder, built, and a checker; without them they are left out.
"""

from __future__ import annotations

import os
import shutil
import subprocess
import unittest
from typing import Any, Dict, List, Tuple

import support

RECORDER = os.path.join(support.HERE, "..", "..", "recorder", "out", "bin")
PROGRAMS = os.path.join(support.HERE, "programs")
SECONDS = 600
# likely mistakes by the kind, the function and the variable or lock that is told
Told = Tuple[str, str, str]


def needs_recorder(test: Any) -> Any:
    """Leaves a test out where the recorder is not built."""
    built = os.access(os.path.join(RECORDER, "velodrome-c++"), os.X_OK)
    return support.needs_checker(unittest.skipUnless(built, "the recorder is not built")(test))


class Recorded(support.InFolder):
    def call(self, *words: str, **environment: str) -> "subprocess.CompletedProcess[str]":
        path = f"{os.path.abspath(RECORDER)}:{os.environ['PATH']}"
        return subprocess.run(
            words,
            cwd=self.folder,
            capture_output=True,
            text=True,
            timeout=SECONDS,
            check=False,
            env={**os.environ, "PATH": path, **environment},
        )

    def compiled(self, name: str) -> str:
        shutil.copy(os.path.join(PROGRAMS, f"{name}.cpp"), self.folder)
        done = self.call("velodrome-c++", "-std=c++17", f"{name}.cpp", "-o", name)
        self.assertEqual(done.returncode, 0, done.stderr)
        return f"./{name}"


@needs_recorder
class Programs(Recorded):
    def recorded(self, name: str, *options: str) -> Dict[str, Any]:
        """The report on a recording of the program."""
        done = self.call("velodrome-record", *options, "--", self.compiled(name))
        answer = self.answer()
        self.assertEqual(answer["status"], done.returncode, done.stderr)
        return answer

    def likely(self, answer: Dict[str, Any]) -> List[Told]:
        """The likely mistakes."""
        return [
            (
                one["kind"],
                one["function"]["short"],
                one["witness"]["events"][-1]["target"]["name"],
            )
            for one in answer["findings"]
            if one["section"] == "likely"
        ]

    def lines(self, answer: Dict[str, Any]) -> List[int]:
        """The lines of the first finding."""
        return [event["place"]["line"] for event in answer["findings"][0]["witness"]["events"]]

    def test_counter(self) -> None:
        answer = self.recorded("counter", "-n", "3")
        self.assertEqual(self.likely(answer), [("stale_write", "worker()", "counter")])
        self.assertEqual(self.lines(answer), [8, 9, 9])

    def test_race(self) -> None:
        answer = self.recorded("race", "-n", "3")
        ((kind, function, variable),) = self.likely(answer)
        self.assertEqual((function, variable), ("worker()", "counter"))
        self.assertIn(kind, ("stale_write", "not_atomic"))
        self.assertEqual(self.lines(answer), [4, 4, 4])
        self.assertEqual(len(answer["findings"][0]["possible"]), 3)

    def test_pool(self) -> None:
        answer = self.recorded("pool", "-n", "3")
        kind, function, variable = self.likely(answer)[0]
        self.assertEqual((kind, function), ("not_atomic", "Pool::acquire()"))
        self.assertIn("pool", variable)
        self.assertEqual(sorted(set(self.lines(answer))), [25, 26])

    def test_cache(self) -> None:
        answer = self.recorded("cache", "-n", "3")
        kind, function, variable = self.likely(answer)[0]
        self.assertEqual((kind, function), ("not_atomic", "Cache::get_or_load(..)"))
        self.assertIn("cache", variable)

    def test_registry(self) -> None:
        answer = self.recorded("registry", "-n", "3", "--noise", "5")
        (kind, function, _), *_ = self.likely(answer)
        self.assertEqual((kind, function), ("not_atomic", "Registry::id_of(..)"))
        # by what is looked up, or by the shared hold in which it is
        self.assertTrue({16, 19} & set(self.lines(answer)))

    def test_handle(self) -> None:
        answer = self.recorded("handle", "-n", "3", "--noise", "5")
        self.assertEqual(self.likely(answer)[:1], [("not_atomic", "read_it()", "data")])

    def test_a_deadlock_that_can_happen(self) -> None:
        kinds = {kind for kind, _, _ in self.likely(self.recorded("deadlock"))}
        self.assertLessEqual(kinds, {"deadlock", "deadlock_possible"})
        self.assertTrue(kinds)

    def test_a_program_that_hangs(self) -> None:
        answer = self.recorded("hang", "--mode", "serial")
        self.assertEqual([kind for kind, _, _ in self.likely(answer)], ["deadlock"])
        self.assertIn(11, self.lines(answer))

    def test_programs_that_are_right(self) -> None:
        for name in ("buffer", "config", "steal", "scoped"):
            with self.subTest(name):
                self.assertEqual(self.likely(self.recorded(name, "-n", "2")), [])


@needs_recorder
class Builds(Recorded):
    """A trace of a program that is not the one that ran, or that was not all recorded."""

    def reported(self, words: str) -> None:
        """Nothing is said of the trace, for a reason with these words."""
        done = self.run_command("run")
        self.assertEqual(done.returncode, 4, done.stdout)
        self.assertIn(words, " ".join(done.stdout.split()))
        self.assertNotIn("no mistake found", done.stdout)

    def traced(self) -> str:
        program = self.compiled("bank")
        done = self.call(program, VELODROME_OUT="run")
        self.assertEqual(done.returncode, 0, done.stderr)
        return self.path("bank")

    def test_stripped(self) -> None:
        self.call("strip", self.traced())
        self.reported("bank")

    def test_moved(self) -> None:
        os.rename(self.traced(), self.path("elsewhere"))
        self.reported("bank")

    def test_built_again(self) -> None:
        self.traced()
        source = self.path("bank.cpp")
        with open(source, encoding="utf-8") as opened:
            text = opened.read()
        support.put(source, text.replace("deposit(5)", "deposit(6)"))
        self.call("velodrome-c++", "-std=c++17", "bank.cpp", "-o", "bank")
        self.reported("bank")

    def test_half_linked(self) -> None:
        half = "long parts = 2;\nlong half(long whole) { return whole / parts; }\n"
        support.put(self.path("half.cpp"), half)
        self.call("g++", "-c", "half.cpp")
        shutil.copy(os.path.join(PROGRAMS, "bank.cpp"), self.folder)
        self.call("velodrome-c++", "-std=c++17", "bank.cpp", "half.o", "-o", "bank")
        self.call("./bank", VELODROME_OUT="run")
        done = self.run_command("run")
        self.assertIn("half.cpp", done.stdout)


if __name__ == "__main__":
    unittest.main()
