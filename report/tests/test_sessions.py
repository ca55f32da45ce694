"""A log that a library's session kept: its sections have their place in their name, its sites have no function."""

import unittest

import support

SOURCE = ["class Account:", "    def deposit(self, amount):"]
SOURCE += ["        before = self.balance", "        self.balance = before + amount"]


@support.needs_checker
class Kept(support.InFolder):
    def test_the_lines_of_source(self) -> None:
        source = support.put(self.path("bank.py"), support.lines_of(SOURCE))
        log = support.Log(threads=3, variables=4, locks=0)
        log.named(variable_0="Account.balance", label_0="Account.deposit (bank.py:2)")
        reads, writes = f"{source}:3 -", f"{source}:4 -"
        for thread in (1, 2):
            log.add((f"{thread} begin 0", ""), (f"{thread} rd 0 0", reads))
        for thread in (2, 1):
            log.add((f"{thread} wr 0 0", writes), (f"{thread} end", ""))
        log.write(self.path("test_bank.vlog"))
        done = self.run_command("test_bank.vlog")
        self.assertEqual(done.returncode, 3, done.stderr)
        self.assertEqual(
            done.stdout.splitlines()[:5],
            [
                "Account.deposit (bank.py:2) is not atomic: seen in 1 of 1 run, possible in 1",
                "      Account.balance is read, and later written without being read again",
                "    thread 1  bank.py:3  before = self.balance           reads Account.balance",
                "  > thread 2  bank.py:4  self.balance = before + amount  writes Account.balance",
                "    thread 1  bank.py:4  self.balance = before + amount  writes Account.balance",
            ],
        )

    def test_one_statement_is_no_loop(self) -> None:
        """A read and a write have one place in `balance += amount`."""
        source = support.put(self.path("bank.py"), support.lines_of(["balance += amount"]))
        log = support.Log(threads=3, variables=4, locks=0)
        log.named(variable_0="balance", label_0="deposit (bank.py:1)")
        place = f"{source}:1 -"
        for thread in (1, 2):
            log.add((f"{thread} begin 0", ""), (f"{thread} rd 0 0", place))
        for thread in (2, 1):
            log.add((f"{thread} wr 0 0", place), (f"{thread} end", ""))
        log.write(self.path("test_bank.vlog"))
        lines = self.run_command("test_bank.vlog").stdout.splitlines()
        self.assertTrue(lines[0].startswith("deposit (bank.py:1) is not atomic: seen in 1"), lines)
        self.assertEqual(lines[3], "  > thread 2  bank.py:1  balance += amount  writes balance")


if __name__ == "__main__":
    unittest.main()
