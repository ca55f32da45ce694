"""What velodrome-import makes of traces in the text format of the RAPID tools."""

import contextlib
import gzip
import io
import os
import random
import subprocess
import tempfile
import unittest
from typing import Dict, List, Set, Tuple

from velodrome_report import importing

CHECKER = os.environ.get("VELODROME", "")
LOST_UPDATE = """\
T0|fork(T1)|1
T0|begin(add)|2
T0|r(x)|3
T1|w(x)|4
T0|w(x)|5
T0|end|6
T0|join(T1)|7
"""


class Folder(unittest.TestCase):
    """A test with a folder of its own."""

    def setUp(self) -> None:
        self.folder = tempfile.mkdtemp()
        self.addCleanup(lambda: subprocess.run(["rm", "-r", self.folder], check=True))

    def path(self, name: str) -> str:
        return os.path.join(self.folder, name)

    def made(self, trace: bytes, *options: str) -> Tuple[int, str, str]:
        """The status, what was printed, and what was said, for a trace of these bytes."""
        with open(self.path("trace"), "wb") as file:
            file.write(trace)
        out, err = io.StringIO(), io.StringIO()
        with contextlib.redirect_stdout(out), contextlib.redirect_stderr(err):
            words = ["--from", "std", *options, self.path("trace"), self.path("log")]
            status = importing.main(words)
        return status, out.getvalue(), err.getvalue()

    def text(self, name: str) -> str:
        with open(self.path(name), encoding="utf-8") as file:
            return file.read()

    def events(self, trace: str, *options: str) -> List[str]:
        """The events of the log of a trace that is taken."""
        status, _, said = self.made(trace.encode(), *options)
        self.assertEqual((status, said), (0, ""))
        return self.text("log").splitlines()[1:]

    def refused(self, trace: str, words: str) -> None:
        """A trace is refused with these words, and nothing is written."""
        status, _, said = self.made(trace.encode())
        self.assertEqual(status, 1)
        self.assertIn(words, said)
        self.assertEqual(os.listdir(self.folder), ["trace"])


class Taken(Folder):
    def test_a_trace(self) -> None:
        status, printed, _ = self.made(LOST_UPDATE.encode())
        self.assertEqual(status, 0)
        self.assertEqual(printed, "events 8 threads 2 variables 1 locks 0 labels 1\n")
        log = "0 fork 1|0 begin 0|0 rd 0 0|1 wr 0 1|0 wr 0 2|0 end|1 exit|0 join 1"
        self.assertEqual(self.text("log").splitlines(), ["vlog 2 2 1 0"] + log.split("|"))

    def test_names_and_sites_are_beside_it(self) -> None:
        self.made(LOST_UPDATE.encode())
        names = "thread 0 T0\nthread 1 T1\nvariable 0 x\nlabel 0 add\n"
        self.assertEqual(self.text("log.names"), names)
        sites = self.text("log.sites").splitlines()
        self.assertEqual(sites[0], "vsites 1 7 8")
        self.assertEqual(sites[3], "location:3 add")
        self.assertEqual(sites[8:], ["1", "2", "3", "4", "5", "6", "7", "7"])

    def test_a_read_has_the_value_written_last(self) -> None:
        self.assertEqual(
            self.events("A|r(x)|\nA|w(x)|\nA|w(y)|\nA|r(x)|\n"),
            ["0 rd 0 0", "0 wr 0 1", "0 wr 1 2", "0 rd 0 1"],
        )

    def test_a_lock_taken_again_is_one_hold(self) -> None:
        trace = "A|acq(m)|1\nA|acq(m)|2\nA|rel(m)|3\nA|w(x)|4\nA|rel(m)|5\n"
        self.assertEqual(self.events(trace), ["0 acq 0", "0 wr 0 1", "0 rel 0"])

    def test_begins_without_a_name_are_named_by_their_location(self) -> None:
        self.events("A|begin|7\nA|end|8\nA|begin()|7\nA|end()|8\nA|begin|9\nA|end|9\n")
        labels = [line for line in self.text("log.names").splitlines() if "label" in line]
        self.assertEqual(labels, ["label 0 block at 7", "label 1 block at 9"])

    def test_a_location_may_be_missing_or_a_place(self) -> None:
        self.events("A|w(x)\nA|w(x)|Bank.java:12\n")
        sites = "vsites 1 1 2\nBank.java:12 A\n0\n1\n"
        self.assertEqual(self.text("log.sites"), sites)

    def test_gzip(self) -> None:
        status, _, _ = self.made(gzip.compress(LOST_UPDATE.encode()))
        self.assertEqual((status, len(self.text("log").splitlines())), (0, 9))

    def test_windows_ends_of_lines(self) -> None:
        self.assertEqual(self.events("A|w(x)|1\r\n\r\nA|w(x)|2\r\n"), ["0 wr 0 1", "0 wr 0 2"])

    def test_names_that_a_terminal_would_obey(self) -> None:
        self.events("A|w(\x1b[31m)|1\n")
        self.assertIn("variable 0 \\x1b[31m\n", self.text("log.names"))

    def test_long_names_are_cut(self) -> None:
        self.events(f"A|w({'é' * 300})|1\n")
        self.assertIn(f"variable 0 {'é' * 100}\n", self.text("log.names"))


class RefusedOrMended(Folder):
    def both(self, trace: str, words: str, mended: str, count: str) -> None:
        """`trace` is refused with `words`; mended it has these events, and prints `count`."""
        self.refused(trace, words)
        status, printed, said = self.made(trace.encode(), "--mend")
        self.assertEqual((status, said), (0, ""))
        self.assertEqual(self.text("log").splitlines()[1:], mended.split("|"))
        self.assertEqual(printed.splitlines()[1:], [f"mended {count}"])

    def test_thread_not_forked(self) -> None:
        trace = "A|w(x)|1\nB|w(x)|2\n"
        words = "line 2: B|w(x): B is not forked before"
        self.both(trace, words, "0 wr 0 1|0 fork 1|1 wr 0 2", "1 forked by the first thread")

    def test_fork_after_the_first_event(self) -> None:
        trace = "A|w(x)|1\nA|fork(B)|1\nA|fork(B)|2\n"
        words = "line 3: A|fork(B): B began or was forked at line 2"
        self.both(trace, words, "0 wr 0 1|0 fork 1", "1 forks left out")

    def test_release_without_acquire(self) -> None:
        words = "line 1: A|rel(m): A does not hold m"
        self.both("A|rel(m)|1\nA|w(x)|2\n", words, "0 wr 0 1", "1 releases left out")

    def test_lock_of_another(self) -> None:
        trace = "A|fork(B)|1\nA|acq(m)|1\nB|acq(m)|2\n"
        words = "line 3: B|acq(m): A holds m"
        self.both(trace, words, "0 fork 1|0 acq 0|0 rel 0|1 acq 0", "1 locks given back")

    def test_lock_held_at_exit(self) -> None:
        trace = "A|fork(B)|1\nB|acq(m)|1\nA|join(B)|2\n"
        words = "line 3: A|join(B): B still holds m"
        mended = "0 fork 1|1 acq 0|1 rel 0|1 exit|0 join 1"
        self.both(trace, words, mended, "1 locks given back")

    def test_block_open_at_exit(self) -> None:
        trace = "A|fork(B)|1\nB|begin(f)|1\nA|join(B)|2\n"
        words = "line 3: A|join(B): B is still inside f"
        mended = "0 fork 1|1 begin 0|1 end|1 exit|0 join 1"
        self.both(trace, words, mended, "1 blocks ended")

    def test_end_without_begin(self) -> None:
        words = "line 2: A|end: A has no open block"
        self.both("A|w(x)|1\nA|end|2\n", words, "0 wr 0 1", "1 ends left out")

    def test_join_before_the_last_event(self) -> None:
        trace = "A|fork(B)|1\nA|join(B)|2\nB|w(x)|3\n"
        words = "line 2: A|join(B): B still has an event at line 3"
        self.both(trace, words, "0 fork 1|1 wr 0 1", "1 joins left out")

    def test_second_join(self) -> None:
        trace = "A|fork(B)|1\nA|join(B)|2\nA|join(B)|3\n"
        words = "line 3: A|join(B): B was joined at line 2"
        self.both(trace, words, "0 fork 1|1 exit|0 join 1", "1 joins left out")

    def test_join_of_no_thread(self) -> None:
        words = "line 1: A|join(B): B is not forked before"
        self.both("A|join(B)|1\nA|w(x)|1\n", words, "0 wr 0 1", "1 joins left out")

    def test_join_of_the_first_thread(self) -> None:
        trace = "A|fork(B)|1\nB|join(A)|2\n"
        self.both(trace, "line 2: B|join(A): A is the first thread", "0 fork 1", "1 joins left out")

    def test_too_many_blocks(self) -> None:
        trace = "A|begin(f)|1\n" * 33 + "A|end|2\n" * 33
        mended = "|".join(["0 begin 0"] * 32 + ["0 end"] * 32)
        words = "line 33: A|begin(f): A has 32 open blocks"
        self.both(trace, words, mended, "1 inner blocks left out")


class Refused(Folder):
    def test_lines(self) -> None:
        for line, words in (
            ("A", "not THREAD|OPERATION(TARGET)|LOCATION"),
            ("A|w(x)|1|2", "not THREAD|OPERATION(TARGET)|LOCATION"),
            ("A|w(x|1", "a bracket is open"),
            ("A|write(x)|1", "the operation is none of acq begin end fork join r rel w"),
            ("A|w()|1", "a name is missing"),
            ("|w(x)|1", "a name is missing"),
            ("A|\x1b(x)|1", "line 2: A|\\x1b(x)|1: the operation"),
        ):
            with self.subTest(line):
                self.refused(f"A|w(x)|1\n{line}\n", words)

    def test_limits(self) -> None:
        forks = "".join(f"A|fork(B{n})|1\n" for n in range(64))
        self.refused(forks, "more than 64 threads")
        self.refused("".join(f"A|w({n})|1\n" for n in range(65_536)), "more than 65,535 variables")
        self.refused("".join(f"A|acq({n})|1\n" for n in range(4_097)), "more than 4,096 locks")

    def test_torn_gzip(self) -> None:
        status, _, said = self.made(gzip.compress(LOST_UPDATE.encode())[:-9])
        self.assertEqual(status, 1)
        self.assertIn("what gzip made of it cannot be read", said)

    def test_usage_and_files(self) -> None:
        for words, status in (
            (["trace", "log"], 2),
            (["--from", "vlog", "trace", "log"], 2),
            (["--from", "std", self.path("nothing"), self.path("log")], 5),
            (["--from", "std", self.folder, self.path("log")], 5),
            (["--from", "std", "/dev/null", self.path("no/log")], 5),
            (["--from", "std", "/dev/null", "/dev/null"], 2),
        ):
            err = io.StringIO()
            with self.subTest(words), contextlib.redirect_stderr(err):
                self.assertEqual(importing.main(words), status)
            self.assertEqual(err.getvalue().count("\n"), 1)

    def test_what_was_there_stays(self) -> None:
        self.made(LOST_UPDATE.encode())
        before = self.text("log")
        self.made(b"A|rel(m)|1\n")
        self.assertEqual(self.text("log"), before)


def any_lines(chance: random.Random) -> List[str]:
    """A trace of any lines: hardly ever one of a run."""
    operations = "r(x{}) w(x{}) acq(m{}) rel(m{}) fork(T{}) join(T{}) begin end".split()
    return [
        f"T{chance.randrange(3)}|{chance.choice(operations).format(chance.randrange(3))}|{line}"
        for line in range(chance.randint(1, 40))
    ]


def of_a_run(chance: random.Random) -> List[str]:
    """A trace of a run of two threads that T0 starts: accesses, and holds of one lock."""
    lines = ["T0|fork(T1)|0", "T0|fork(T2)|0"]
    is_open: Set[str] = set()
    for line in range(chance.randint(4, 30)):
        thread = f"T{chance.randint(1, 2)}"
        access = f"{thread}|{chance.choice('rrw')}(x{chance.randrange(2)})|{line}"
        if chance.random() < 0.3:
            lines.append(f"{thread}|{'end' if thread in is_open else 'begin'}|{line}")
            is_open ^= {thread}
        elif chance.random() < 0.3:
            lines += [f"{thread}|acq(m)|{line}", access, f"{thread}|rel(m)|{line}"]
        else:
            lines.append(access)
    return lines


def is_serializable(lines: List[str]) -> bool:
    """By the definition: whether a graph of all transactions of a trace has no circle."""
    sections: Dict[str, int] = {}
    before: List[Tuple[int, str, str, str]] = []
    edges: Dict[int, Set[int]] = {}
    for number, line in enumerate(lines):
        thread, operation = line.split("|")[:2]
        name, _, target = operation.rstrip(")").partition("(")
        if name == "begin":
            sections[thread] = number
        mine = sections.get(thread, number)
        if name == "end":
            del sections[thread]
        for other, by, what, on in before:
            reads = {name, what} == {"r"}
            same = target == on and target and not reads and "fork" not in (name, what)
            if other != mine and (by == thread or same or (what, on) == ("fork", thread)):
                edges.setdefault(other, set()).add(mine)
        before.append((mine, thread, name, target))
    return not any(reaches(edges, after, start) for start in edges for after in edges[start])


def reaches(edges: Dict[int, Set[int]], start: int, end: int) -> bool:
    """Whether a way leads from one node to another."""
    seen, left = {start}, [start]
    while left:
        new = edges.get(left.pop(), set()) - seen
        seen |= new
        left += new
    return end in seen


@unittest.skipUnless(CHECKER, "VELODROME is not the checker")
class Checked(Folder):
    def verdict(self) -> int:
        """The status of the checker for the log."""
        words = [CHECKER, "check", "--names", self.path("log.names"), self.path("log")]
        return subprocess.run(words, stdout=subprocess.DEVNULL).returncode

    def test_random_runs_by_the_definition(self) -> None:
        for seed in range(60):
            lines = of_a_run(random.Random(seed))
            with self.subTest(seed):
                self.assertEqual(self.made("\n".join(lines).encode())[::2], (0, ""))
                self.assertEqual(self.verdict(), 0 if is_serializable(lines) else 3)

    def test_random_lines_are_mended_to_a_run(self) -> None:
        for seed in range(60):
            lines = any_lines(random.Random(seed))
            with self.subTest(seed):
                self.assertEqual(self.made("\n".join(lines).encode(), "--mend")[::2], (0, ""))
                self.assertIn(self.verdict(), (0, 3))

    def test_the_checker_takes_it(self) -> None:
        self.made(LOST_UPDATE.encode())
        words = [CHECKER, "check", "--names", self.path("log.names"), self.path("log")]
        done = subprocess.run(words, stdout=subprocess.PIPE, text=True)
        self.assertEqual(done.returncode, 3, done.stdout)
        self.assertIn("alarm", done.stdout)

    def test_the_sites_are_taken(self) -> None:
        self.made(LOST_UPDATE.encode())
        words = [CHECKER, "audit", "--sites", self.path("log.sites"), self.path("log")]
        done = subprocess.run(words, stdout=subprocess.PIPE, text=True)
        self.assertIn("location:4 T1", done.stdout)


if __name__ == "__main__":
    unittest.main()
