"""Variables that belong together: what of holds alone makes a finding likely."""

import os
import tempfile
import unittest
from typing import FrozenSet, Set

from velodrome_report import together
from velodrome_report.sites import Sites

# a transfer between two accounts in two holds: 0 is the transfer, 1 the deposit that it calls
TRANSFER = (
    "1 begin 0|1 begin 1|1 acq 0|1 rd 0 0|1 wr 0 1|1 rel 0|1 end"
    "|1 begin 1|1 acq 0|1 rd 1 0|1 wr 1 1|1 rel 0|1 end|1 end"
)
# the lines of the transfer and of its deposits
TRANSFER_SITES = (9, 1, 3, 4, 4, 5, 0, 2, 3, 4, 4, 5, 0, 0)
COUNTS = frozenset((0, 1))


class Together(unittest.TestCase):
    def found(
        self, log: str, sites: "tuple[int, ...]" = (), counters: FrozenSet[int] = COUNTS
    ) -> Set[int]:
        """The labels of a log of these events that do in pieces what belongs together."""
        with tempfile.TemporaryDirectory() as folder:
            path = os.path.join(folder, "log")
            with open(path, "w", encoding="utf-8") as file:
                file.write("vlog 2 3 3 2\n" + log.replace("|", "\n") + "\n")
            known = Sites(None, 0)
            known.numbers = list(sites)
            return together.scan(path, known, {0}, counters)

    def test_an_audit_reads_both_counts(self) -> None:
        audit = "|2 acq 0|2 rd 0 1|2 rd 1 1|2 rel 0"
        self.assertEqual(self.found(TRANSFER + audit, TRANSFER_SITES), {0})

    def test_where_it_stands_in_the_log_does_not_matter(self) -> None:
        audit = "2 acq 0|2 rd 0 0|2 rd 1 0|2 rel 0|"
        self.assertEqual(self.found(audit + TRANSFER, (0,) * 4 + TRANSFER_SITES), {0})

    def test_a_reader_in_pieces_of_what_is_written_at_once(self) -> None:
        mean = "1 begin 0|1 acq 0|1 rd 0 0|1 rel 0|1 acq 0|1 rd 1 0|1 rel 0|1 end"
        add = "|2 acq 0|2 rd 0 0|2 wr 0 1|2 rd 1 0|2 wr 1 1|2 rel 0"
        self.assertEqual(self.found(mean + add), {0})

    def test_each_variable_has_its_own_lock(self) -> None:
        move = (
            TRANSFER[: TRANSFER.rindex("1 acq 0")] + "1 acq 1|1 rd 1 0|1 wr 1 1|1 rel 1|1 end|1 end"
        )
        find = "|2 acq 0|2 acq 1|2 rd 0 1|2 rd 1 1|2 rel 1|2 rel 0"
        self.assertEqual(self.found(move + find, TRANSFER_SITES), {0})
        apart = "|2 acq 0|2 rd 0 1|2 rel 0|2 acq 1|2 rd 1 1|2 rel 1"
        self.assertEqual(self.found(move + apart, TRANSFER_SITES), set())

    def test_counts_that_nobody_takes_together(self) -> None:
        for other in (
            # each by itself
            "|2 acq 0|2 rd 0 1|2 wr 0 2|2 rel 0|2 acq 0|2 rd 1 1|2 wr 1 2|2 rel 0",
            # without a lock
            "|2 rd 0 1|2 rd 1 1",
            # by the same thread
            "|1 acq 0|1 rd 0 1|1 rd 1 1|1 rel 0",
            # only one of them
            "|2 acq 0|2 rd 0 1|2 rd 2 0|2 rel 0",
        ):
            with self.subTest(other):
                self.assertEqual(self.found(TRANSFER + other, TRANSFER_SITES), set())

    def test_holds_that_touch_both_are_each_whole(self) -> None:
        push = "1 acq 0|1 rd 0 0|1 wr 0 1|1 rd 1 0|1 wr 1 1|1 rel 0|"
        pop = "2 acq 0|2 rd 0 1|2 wr 0 0|2 rd 1 1|2 wr 1 0|2 rel 0"
        self.assertEqual(self.found("1 begin 0|" + push + push + "1 end|" + pop), set())

    def test_one_variable_that_is_no_count(self) -> None:
        rotate = "1 begin 0|1 acq 0|1 wr 0 0|1 rel 0|1 acq 0|1 wr 0 1|1 rel 0|1 end"
        insert = "|2 acq 0|2 rd 0 1|2 rel 0"
        self.assertEqual(self.found(rotate + insert, counters=frozenset()), {0})
        self.assertEqual(self.found(rotate + insert), set())

    def test_passes_of_a_loop(self) -> None:
        audit = "|2 acq 0|2 rd 0 1|2 rd 1 1|2 rel 0"
        self.assertEqual(self.found(TRANSFER + audit, TRANSFER_SITES), {0})
        loop = tuple(1 if site == 2 else site for site in TRANSFER_SITES)
        self.assertEqual(self.found(TRANSFER + audit, loop), set())

    def test_a_wait_does_not_end_a_hold(self) -> None:
        take = "1 begin 0|1 acq 0|1 rd 0 0|1 rel 0|1 acq 0|1 rd 1 0|1 rel 0|1 end"
        put = "|2 acq 0|2 wr 0 1|2 wr 1 1|2 rel 0"
        self.assertEqual(self.found(take + put, (9, 1, 2, 3, 3, 4, 5, 0)), set())
        self.assertEqual(self.found(take + put, (9, 1, 2, 3, 4, 4, 5, 0)), {0})

    def test_lines_that_are_no_events_are_passed_over(self) -> None:
        audit = "|2 acq 0|2 rd 0 1|2 rd 1 1|2 rel 0"
        log = "?|1|1 acq|1 end|" + TRANSFER + audit
        self.assertEqual(self.found(log, (0,) * 4 + TRANSFER_SITES), {0})


if __name__ == "__main__":
    unittest.main()
