"""A bank whose accounts threads share. One of its deposits is atomic."""
import threading

import velodrome


class Account:
    balance: int = velodrome.field(0)

    def __init__(self):
        self.lock = threading.Lock()  # the plugin watches it

    @velodrome.atomic
    def deposit(self, amount):
        """In one hold of the lock."""
        with self.lock:
            self.balance += amount

    @velodrome.atomic
    def deposit_carelessly(self, amount):
        """In none: another one may come between the read and the write, and is lost then."""
        self.balance += amount
