"""Nanoseconds of the processor an event: the median of nine, over 20,000 rounds of begin, acquire, read, write, release, end."""
import statistics
import threading
import time

import velodrome

ROUNDS = 20_000


class Account:
    balance = velodrome.field(0)


def cost(name, body, events, **options):
    """Prints what an event of the body costs in a session with these options; with none, where no session is."""
    times = []
    for _ in range(9):
        run = velodrome.session(**options) if options else None
        start = time.process_time_ns()
        for _ in range(ROUNDS):
            body()
        times.append((time.process_time_ns() - start) / ROUNDS / events)
        if run and not run.close().clean:
            raise SystemExit(run.outcome.text)
    print(f"{name:34} {statistics.median(times):5.0f} ns an event", flush=True)


def main():
    x, lock, block, account = (
        velodrome.Var(0, "x"),
        velodrome.Lock("lock"),
        velodrome.atomic("block"),
        Account(),
    )
    plain, plain_lock = Account(), threading.Lock()
    plain.__dict__["value"] = 0

    def whole():
        with block, lock:
            x.set(x.get() + 1)

    def of_fields():
        with block, lock:
            account.balance += 1

    def without():
        with plain_lock:
            plain.value = plain.value + 1

    cost("a round", whole, 6, places=True)
    cost("a round without places", whole, 6, places=False)
    cost("a round of a field", of_fields, 6, places=True)
    cost("Var.get", x.get, 1, places=True)
    cost("a round with no session", whole, 6)
    cost("a plain lock and attribute, a sixth", without, 6)


if __name__ == "__main__":
    main()
