"""`pytest`: `test_careless` fails, as soon as a schedule comes about that loses a deposit; the others pass.

`--velodrome-noise 4` makes such schedules more frequent; `repeat` runs a test until one came.
"""
import threading

import pytest
from bank import Account


def two_threads(*deposits):
    threads = [threading.Thread(target=deposit, args=(5,)) for deposit in deposits]
    for thread in threads:
        thread.start()
    for thread in threads:
        thread.join()


@pytest.mark.velodrome(repeat=100)
def test_careful():
    account = Account()
    two_threads(account.deposit, account.deposit)
    assert account.balance == 10


@pytest.mark.velodrome(repeat=100)
def test_careful_with_accounts_of_their_own():
    two_threads(Account().deposit_carelessly, Account().deposit_carelessly)


@pytest.mark.velodrome(repeat=1000)
def test_careless():
    account = Account()
    two_threads(account.deposit_carelessly, account.deposit_carelessly)
