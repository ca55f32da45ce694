"""The verdict is that of the run, and nothing fails the program."""
import asyncio
import collections
import concurrent.futures
import contextlib
import copy
import dataclasses
import gc
import importlib.util
import io
import json
import logging
import os
import pathlib
import pickle
import queue
import resource
import signal
import subprocess
import sys
import tempfile
import threading
import time
import types
import unittest
import unittest.mock
import warnings
import weakref

import velodrome
from velodrome import Lock, RLock, Thread, Var, atomic
from velodrome._finding import finding


class Account:
    balance = velodrome.field(0)

    @atomic
    def deposit(self, amount):
        self.balance = self.balance + amount


_Thread, _Lock = threading.Thread, threading.Lock  # also where they are patched


def elsewhere(body):
    """Done by a thread that the session has not met."""
    thread = _Thread(target=body)
    thread.start()
    thread.join()


class Case(unittest.TestCase):
    def watch(self, verdict, body, words="", **options):
        """The body's value, of a run with this verdict and words in its text."""
        with velodrome.session(**options) as run:
            Var(0, "met").get()  # a run of which nothing is recorded is incomplete
            value = body()
        self.assertEqual(run.outcome.verdict, verdict, run.outcome.text)
        self.assertIn(words, run.outcome.text)
        return value


class Verdicts(Case):
    def test_lost_update(self):
        for same in (True, False):
            account, other = Var(100, "account"), Var(0, "other")

            def deposit():
                theirs = account if same else other
                with atomic("deposit"):
                    theirs.set(theirs.get() + 10)

            def transfer():
                with atomic("transfer"):
                    before = account.get()
                    elsewhere(deposit)
                    account.set(before + 5)

            if same:
                self.watch("alarm", transfer, "not atomic: transfer")
            else:
                self.watch("clean", transfer)

    def test_reads_commute_and_writes_do_not(self):
        account, x = Account(), Var(1)
        ways = {
            "Var": (x.get, lambda: x.set(1)),
            "field": (lambda: account.balance, lambda: setattr(account, "balance", 1)),
        }
        for read, write in ways.values():
            for mine, theirs, verdict in (
                (read, read, "clean"),
                (read, write, "alarm"),
                (write, read, "alarm"),
                (write, write, "alarm"),
            ):

                def twice():
                    with atomic("twice"):
                        mine()
                        elsewhere(theirs)
                        mine()

                self.watch(verdict, twice)

    def test_names_and_places(self):
        account = Account()

        def move():
            with atomic("move"):
                before = account.balance
                elsewhere(lambda: setattr(account, "balance", 1))
                account.balance = before

        line = move.__code__.co_firstlineno
        with velodrome.session() as run:
            move()
        for words in (
            f"reads Account.balance at test_velodrome.py:{line + 2}",
            f"writes Account.balance at test_velodrome.py:{line + 3}",
            f"writes Account.balance at test_velodrome.py:{line + 4}",
        ):
            self.assertIn(words, run.outcome.text)

    def test_what_is_not_named_is_named_by_its_place(self):
        x, lock = Var(0), Lock()
        line = sys._getframe().f_lineno - 1
        folder = pathlib.Path(tempfile.mkdtemp())
        with velodrome.session() as run:
            with lock, atomic("b"):
                x.get()
            self.assertTrue(run.save(folder / "x.vlog"))
        names = (folder / "x.vlog.names").read_text().splitlines()
        self.assertEqual(
            names,
            [
                f"variable 0 variable at test_velodrome.py:{line}",
                f"lock 0 lock at test_velodrome.py:{line}",
                "label 0 b",
            ],
        )
        self.assertTrue((folder / "x.vlog").read_text().startswith("vlog 2 "))

    def test_a_join_in_a_block_is_an_alarm(self):
        def body():
            with atomic("joins"):
                thread = Thread(target=lambda: None)
                thread.start()
                thread.join()

        self.watch("alarm", body, "not atomic: joins")

    def test_instances_are_their_own(self):
        a, b = Account(), Account()
        first, second = Lock("lock"), Lock("lock")

        def move():
            with atomic("move"), first, second:
                before = a.balance
                elsewhere(lambda: setattr(b, "balance", 5))
                a.balance = before

        self.watch("clean", move)
        self.assertFalse(first.locked() or second.locked())

    def test_a_copy_is_its_own(self):
        a = Account()
        self.watch("clean", lambda: a.deposit(7))
        for copied in (copy.copy(a), copy.deepcopy(a), pickle.loads(pickle.dumps(a))):

            def move():
                with atomic("move"):
                    before = a.balance
                    elsewhere(lambda: copied.deposit(1))
                    a.balance = before

            self.watch("clean", move)
            self.assertEqual((a.balance, copied.balance), (7, 8))

    def test_a_stranger_is_never_the_opener(self):
        opened = []
        elsewhere(lambda: opened.append(velodrome.session()))
        x, ready, done = Var(0, "x"), threading.Event(), threading.Event()

        def stranger():
            with atomic("increment"):
                before = x.get()
                ready.set()
                done.wait()
                x.set(before + 1)

        thread = threading.Thread(target=stranger)
        thread.start()
        ready.wait()
        elsewhere(lambda: x.set(5))
        done.set()
        thread.join()
        self.assertEqual(opened[0].close().verdict, "alarm")

    def test_sessions_nest(self):
        x = Var(0)

        def outer():
            x.set(1)
            self.watch("clean", lambda: Var(0).get())
            x.set(2)
            y = Var(0)  # which the session has not met
            with atomic("outer"):
                before = y.get()
                elsewhere(lambda: y.set(1))
                y.set(before)

        self.watch("alarm", outer)


class Tasks(Case):
    def both(self, increment, factory=None):
        async def main():
            asyncio.get_running_loop().set_task_factory(factory)
            await asyncio.gather(*(asyncio.ensure_future(increment()) for _ in range(2)))

        asyncio.run(main())

    def test_lost_update_between_tasks(self):
        for locked in (False, True):
            x = Var(0, "x")

            async def increment():
                with atomic("increment"):
                    before = x.get()
                    await asyncio.sleep(0.001)
                    x.set(before + 1)

            async def safely():
                nonlocal gate
                gate = gate or asyncio.Lock()  # in a loop, as Python 3.9 wants it
                async with gate:
                    await increment()

            def body():
                nonlocal gate
                gate = None
                self.both(safely if locked else increment)
                return x.get()

            gate = None
            if locked:
                self.assertEqual(self.watch("clean", body), 2)
            else:
                self.assertEqual(self.watch("alarm", body, "not atomic: increment"), 1)

    def test_a_decorated_coroutine_is_a_block_of_its_task(self):
        x = Var(0, "x")

        @atomic
        async def increment():
            before = x.get()
            await asyncio.sleep(0)
            x.set(before + 1)
            return x

        self.watch("alarm", lambda: self.both(increment), "increment (test_velodrome.py:")

    def test_blocks_of_a_task_nest(self):
        x = Var(0, "x")

        @atomic
        async def inner():
            x.set(x.get() + 1)

        @atomic
        async def outer():
            x.set(x.get() + 1)
            await inner()
            x.set(x.get() + 1)

        async def main():
            await asyncio.ensure_future(outer())
            return x.get()

        self.assertEqual(self.watch("clean", lambda: asyncio.run(main())), 3)

    def test_a_coroutine_is_as_it_was(self):
        @atomic
        async def fails(how):
            try:
                await asyncio.sleep(10 if how == "cancelled" else 0)
            except asyncio.CancelledError:
                return "cancelled"
            raise KeyError(how)

        async def main():
            with self.assertRaises(KeyError):
                await fails("mine")
            task = asyncio.ensure_future(fails("cancelled"))
            await asyncio.sleep(0)
            task.cancel()
            return await task

        self.assertEqual(self.watch("clean", lambda: asyncio.run(main())), "cancelled")

    def test_tasks_are_as_they_were(self):
        """One that is cancelled before its first step is closed, without a warning, and each has its name."""

        async def named(n):
            await asyncio.sleep(n)
            return n

        async def main():
            task = asyncio.ensure_future(named(1))
            self.assertIn("named", repr(task))
            self.assertEqual(len(task.get_stack()), 1)
            task.cancel()
            with self.assertRaises(asyncio.CancelledError):
                await task
            with self.assertRaises(asyncio.TimeoutError):
                await asyncio.wait_for(named(1), 0.001)
            return await asyncio.gather(*map(named, (0, 0.001)))

        with warnings.catch_warnings():
            warnings.simplefilter("error")
            self.assertEqual(self.watch("clean", lambda: asyncio.run(main())), [0, 0.001])
            gc.collect()

    def test_more_tasks_than_numbers(self):
        """They are used again once no block is open; who is in one never waits for another task."""

        def body(tasks, at_once):
            async def one(gate):
                async with gate:
                    with atomic("one"):
                        x = Var(0)
                        x.set(1)
                        await asyncio.sleep(0)
                        x.set(2)

            async def main():
                gate = asyncio.Semaphore(at_once)
                await asyncio.gather(*(one(gate) for _ in range(tasks)))

            return lambda: asyncio.run(main())

        self.watch("clean", body(500, 1))
        self.watch("clean", body(60, 60))
        self.watch("incomplete", body(100, 100), "more than 63 threads while a block was open")

    def test_generators_are_refused(self):
        def generator():
            yield

        async def asynchronous():
            yield

        for function in (generator, asynchronous):
            with self.assertRaises(TypeError):
                atomic(function)
        for other in (Account, 7):
            with self.assertRaises(TypeError):
                atomic(other)


class Suspended(Case):
    """Blocks of what is suspended and goes on elsewhere: each is of who runs it, and of no other."""

    def lose(self, x):
        """An update of this thread between whose two accesses another thread writes."""
        before = x.get()
        elsewhere(lambda: x.set(5))
        x.set(before + 1)

    def test_a_block_of_a_suspended_generator_is_no_block_of_its_consumer(self):
        x, y = Var(0, "x"), Var(0, "y")

        def rows():
            with atomic("rows"):
                yield y.get()
                yield y.get()

        kept = rows()
        self.watch("clean", lambda: next(kept))
        self.watch("clean", lambda: self.lose(x))  # in a later session

        def consume():
            other = rows()
            next(other)
            self.lose(x)
            next(other)

        self.watch("clean", consume)

    def test_a_block_of_a_generator_is_seen(self):
        x = Var(0, "x")

        def rows():
            with atomic("rows"):
                before = x.get()
                yield
                x.set(before + 1)

        def consume():
            for _ in rows():
                x.set(5)

        self.watch("alarm", consume, "not atomic: rows")

    def test_a_generator_that_is_closed_in_another_block(self):
        x = Var(0, "x")

        def rows():
            with atomic("rows"):
                yield 1

        def close_at_once(cursor):
            cursor.close()

        def let_it_go(cursor):
            cursor.clear()
            gc.collect()

        for by_whom in ("this thread", "another"):
            for how in (close_at_once, let_it_go):

                def update(cursor):
                    with atomic("update"):
                        before = x.get()
                        how(cursor)
                        elsewhere(lambda: x.set(5))
                        x.set(before + 1)

                def body():
                    cursor = rows()
                    next(cursor)
                    mine = [cursor] if how is let_it_go else cursor
                    del cursor
                    if by_whom == "another":
                        elsewhere(lambda: update(mine))
                    else:
                        update(mine)

                self.watch("alarm", body, "not atomic: update")

    def test_a_generator_that_outlives_the_block_it_began_in(self):
        x = Var(0, "x")

        def rows():
            with atomic("rows"):
                yield x.get()

        def body():
            cursor = rows()
            with atomic("outer"):
                next(cursor)
            self.lose(x)
            cursor.close()

        self.watch("incomplete", body, "a block ended in which another one was open")

        def resumed():
            cursor = rows()
            next(cursor)
            with atomic("outer"):
                x.get()
                collections.deque(cursor, 0)

        self.watch("clean", resumed)

    def test_a_generator_that_is_resumed_in_another_block(self):
        x = Var(0, "x")

        def rows():
            with atomic("rows"):
                yield x.get()
                yield x.get()

        def body():
            cursor = rows()
            next(cursor)
            with atomic("outer"):
                x.get()
                next(cursor)

        self.watch("incomplete", body, "resumed in another block")

    def test_a_context_managers_block_is_of_its_with_statement(self):
        x = Var(0, "x")

        @contextlib.contextmanager
        def transaction():
            with atomic("transaction"):
                yield

        class Transaction:
            def __enter__(self):
                self.block = atomic("transaction")
                self.block.__enter__()

            def __exit__(self, *failure):
                self.block.__exit__(*failure)

        @transaction()
        def decorated():
            self.lose(x)

        def by_stack():
            with contextlib.ExitStack() as stack:
                stack.enter_context(transaction())
                stack.enter_context(atomic("inner"))
                self.lose(x)

        for make in (transaction, Transaction):

            def body():
                with make():
                    self.lose(x)
                x.get()

            self.watch("alarm", body, "not atomic: transaction")

            def generator():
                with make():
                    x.get()
                    yield

            def consume():
                for _ in generator():
                    self.lose(x)

            self.watch("clean", consume)
        for body in (decorated, by_stack):
            self.watch("alarm", body, "not atomic: transaction")

    def test_asynchronous_generators_and_context_managers(self):
        x, y = Var(0, "x"), Var(0, "y")

        async def rows():
            for n in range(3):
                with atomic("row"):
                    y.get()
                    yield n

        @contextlib.asynccontextmanager
        async def transaction():
            with atomic("transaction"):
                yield

        async def read():
            async for _ in rows():
                self.lose(x)

        async def update():
            async with transaction():
                before = x.get()
                await asyncio.sleep(0)
                x.set(before + 1)

        self.watch("clean", lambda: asyncio.run(read()))

        async def both():
            await asyncio.gather(update(), update())

        self.watch("alarm", lambda: asyncio.run(both()), "not atomic: transaction")

    def test_a_task_that_is_collected(self):
        x, y = Var(0, "x"), Var(0, "y")

        async def stuck():
            with atomic("stuck"):
                y.get()
                await asyncio.get_running_loop().create_future()

        async def main():
            asyncio.get_running_loop().set_exception_handler(lambda *_: None)
            task = asyncio.ensure_future(stuck())
            await asyncio.sleep(0)
            with atomic("update"):
                before = x.get()
                del task
                gc.collect()
                elsewhere(lambda: x.set(5))
                x.set(before + 1)

        self.watch("alarm", lambda: asyncio.run(main()), "not atomic: update")

    def test_tasks_by_any_factory(self):
        x = Var(0, "x")

        async def increment():
            with atomic("increment"):
                before = x.get()
                await asyncio.sleep(0)
                x.set(before + 1)

        async def main(factory):
            asyncio.get_running_loop().set_task_factory(factory)
            await asyncio.gather(*(asyncio.ensure_future(increment()) for _ in range(2)))

        own = lambda loop, coroutine, **keywords: asyncio.Task(coroutine, loop=loop, **keywords)
        for factory in (None, own, getattr(asyncio, "eager_task_factory", None)):
            self.watch("alarm", lambda: asyncio.run(main(factory)), "not atomic: increment")

    def test_coroutines_that_no_loop_runs(self):
        x = Var(0, "x")

        @types.coroutine
        def turn():
            yield

        async def increment():
            with atomic("increment"):
                before = x.get()
                await turn()
                x.set(before + 1)

        def body():
            both = [increment(), increment()]
            for _ in range(2):
                for coroutine in both:
                    with contextlib.suppress(StopIteration):
                        coroutine.send(None)

        self.watch("alarm", body, "not atomic: increment")

    def test_actors(self):
        x = Var(0, "x")
        one, two = velodrome.Actor(), velodrome.Actor()

        def body():
            self.assertIsNone(velodrome.switch(one))
            first = atomic("increment")
            first.__enter__()
            before = x.get()
            self.assertIs(velodrome.switch(two), one)
            x.set(5)
            self.assertIs(velodrome.switch(one), two)
            x.set(before + 1)
            first.__exit__(None, None, None)
            self.assertIs(velodrome.switch(None), one)
            with velodrome.acting_as(two):
                x.get()
            self.assertIsNone(velodrome.switch(None))

        self.watch("alarm", body, "not atomic: increment")
        for wrong in (7, one.__class__):
            with self.assertRaises(TypeError):
                velodrome.switch(wrong)

    @unittest.skipUnless(importlib.util.find_spec("greenlet"), "no greenlet")
    def test_greenlets(self):
        import greenlet

        x = Var(0, "x")

        @atomic
        def increment():
            before = x.get()
            main.switch()
            x.set(before + 1)

        def body():
            both = [greenlet.greenlet(increment) for _ in range(2)]
            for _ in range(2):
                for one in both:
                    one.switch()

        main = greenlet.getcurrent()
        self.watch("alarm", body, "not atomic: Suspended.test_greenlets")

    @unittest.skipUnless(importlib.util.find_spec("gevent"), "no gevent")
    def test_gevent_after_the_import(self):
        program = """
import velodrome
import gevent.monkey
gevent.monkey.patch_all()
import gevent, threading
with velodrome.session() as run, velodrome.patched():
    lock, order = threading.Lock(), []
    def use(n):
        with lock, velodrome.atomic('use'):
            order.append(n)
            gevent.sleep(0.01)
            order.append(n)
    gevent.joinall([gevent.spawn(use, n) for n in range(3)])
assert order == [0, 0, 1, 1, 2, 2] and run.outcome.clean, (order, run.outcome)
"""
        subprocess.run([sys.executable, "-c", program], timeout=300, check=True)


class Host(Case):
    """The program goes on, with its own exceptions and locks."""

    def test_a_full_log(self):
        x, lock = Var(0), Lock()

        def body():
            with atomic("long"):
                for _ in range(1000):
                    with lock:
                        x.set(x.get() + 1)

        self.watch("incomplete", body, "too many events while a block was open", events=20)
        self.assertEqual((x.get(), lock.locked()), (1000, False))

    def test_the_bodys_exception_is_the_programs(self):
        x = Var(0)

        def body():
            with self.assertRaises(KeyError), atomic("b"):
                for _ in range(9):
                    x.get()
                raise KeyError

        self.watch("incomplete", body, events=5)

    def test_a_long_program(self):
        x, lock = Var(0), Lock()

        def body():
            for _ in range(250_000):
                with atomic("round"), lock:
                    x.set(x.get() + 1)

        self.watch("clean", body, places=False)
        self.assertEqual(x.get(), 250_000)

    def test_many_threads_one_after_another(self):
        def body():
            for _ in range(300):
                thread = Thread(target=lambda: Var(0).get())
                thread.start()
                thread.join()

        self.watch("clean", body)

    def test_pools(self):
        x, lock = Var(0), Lock()

        def increment():
            with atomic("increment"), lock:
                x.set(x.get() + 1)

        def body():
            with concurrent.futures.ThreadPoolExecutor(8) as pool:
                collections.deque(
                    (f.result() for f in [pool.submit(increment) for _ in range(200)]),
                    0,
                )

        self.watch("clean", body)
        self.assertEqual((x.get(), lock.locked()), (200, False))

    def test_a_thread_met_in_a_block_is_no_child_of_it(self):
        x, y, start, done = Var(0), Var(0), threading.Event(), threading.Event()

        def work():
            start.wait()
            y.set(1)
            done.set()

        def body():
            with atomic("block"):
                x.set(1)
                start.set()
                done.wait()
                y.get()

        thread = threading.Thread(target=work)  # older than the session, as one of a pool is
        thread.start()
        self.watch("clean", body)
        thread.join()

    def test_a_session_that_ends_in_a_block(self):
        lock, x, go = Lock(), Var(0), threading.Event()

        def work():
            with lock, atomic("work"):
                x.set(1)
                go.wait()
                x.set(2)

        with velodrome.session():
            thread = Thread(target=work)
            thread.start()
        go.set()
        thread.join()
        self.assertEqual((lock.locked(), x.get()), (False, 2))
        with velodrome.session() as run:
            lock.acquire()
        lock.release()
        self.assertTrue(run.outcome.clean)
        run.close(), run.__exit__(), self.assertFalse(run.save("/dev/null"))

    def test_sessions_that_nobody_closes(self):
        before = resource.getrusage(resource.RUSAGE_SELF).ru_maxrss
        for _ in range(2000):
            run = velodrome.session()
            Var(0).get()
            del run
        gc.collect()
        self.assertLess(resource.getrusage(resource.RUSAGE_SELF).ru_maxrss - before, 50 << 10)
        self.watch("clean", lambda: Var(0).get())

    def test_numbers_are_not_cut(self):
        for name in ("events", "noise", "seed"):
            for number in (-1, 2**32 + 5 if name == "events" else 2**65, 1 << 200):
                with self.assertRaises(ValueError):
                    velodrome.session(**{name: number})
            with self.assertRaises(TypeError):
                velodrome.session(**{name: "7"})

    def test_names_of_all_kinds(self):
        def body():
            for name in ("größe", "pay\nlabel 2 refund", "", "x" * 300, "a\tb"):
                with atomic(name):
                    Var(0, name).get()

        folder = pathlib.Path(tempfile.mkdtemp())
        with velodrome.session() as run:
            body()
            run.save(folder / "x")
        lines = (folder / "x.names").read_text(encoding="utf-8").splitlines()
        self.assertEqual([line.split(" ")[0] for line in lines], ["variable"] * 5 + ["label"] * 5)
        self.assertLess(max(map(len, lines)), 200)
        for name in (7, b"x"):
            with self.assertRaises(TypeError):
                Var(0, name)

    def test_children_of_fork(self):
        x, stop, hung = Var(0), [], 0

        def work():
            while not stop:
                x.set(1)

        with velodrome.session() as run:
            thread = Thread(target=work)
            thread.start()
            for _ in range(10):
                child = os.fork()
                if not child:
                    signal.alarm(30)
                    x.set(x.get() + 1)
                    fine = run.close().verdict == "incomplete"
                    with velodrome.session() as own:
                        x.get()
                    os._exit(0 if fine and own.outcome.clean else 1)
                hung += os.waitpid(child, 0)[1] != 0
            stop.append(1)
            thread.join()
        self.assertEqual((hung, run.outcome.verdict), (0, "clean"))

    def test_a_thread_that_raises(self):
        seen, hook = [], threading.excepthook
        threading.excepthook = lambda failure: seen.append(failure.exc_type)

        def body():
            thread = Thread(target=lambda: 1 // 0)
            thread.start()
            thread.join()

        try:
            self.watch("clean", body)
        finally:
            threading.excepthook = hook
        self.assertEqual(seen, [ZeroDivisionError])

    def test_a_daemon_does_not_keep_the_process(self):
        program = """
import velodrome
x, lock = velodrome.Var(0), velodrome.Lock()
def work():
    while True:
        with velodrome.atomic('b'), lock: x.set(x.get() + 1)
run = velodrome.session(noise=4)
velodrome.Thread(target=work, daemon=True).start()
while x.get() < 100: pass
"""
        self.assertEqual(subprocess.run([sys.executable, "-c", program], timeout=120).returncode, 0)

    def test_signals(self):
        x, y = Var(0), Var(0)
        before = signal.signal(signal.SIGALRM, lambda *_: y.set(1))
        signal.setitimer(signal.ITIMER_REAL, 0.0005, 0.0005)

        def body():
            for _ in range(30_000):
                x.get()

        try:
            self.watch("clean", body)
        finally:
            signal.setitimer(signal.ITIMER_REAL, 0)
            signal.signal(signal.SIGALRM, before)

    def test_destructors_of_the_program(self):
        x = Var(0)

        class Nosy:
            def __del__(self):
                elsewhere(lambda: x.set(1))

        class Owner:
            nosy = velodrome.field(None)

        def body():
            y, owner = Var(Nosy()), Owner()
            y.set(None)
            owner.nosy = Nosy()
            owner.nosy = None
            del owner.nosy

        self.watch("clean", body)

    def test_a_destructor_finds_the_new_value(self):
        seen = []

        class Nosy:
            def __del__(self):
                seen.append((type(x.get()), type(owner.nosy)))

        class Owner:
            nosy = velodrome.field(None)

        x, owner = Var(Nosy()), Owner()
        x.set(1)
        owner.nosy = Nosy()
        owner.nosy = 2
        self.assertEqual(seen, [(int, type(None)), (int, int)])

    @unittest.skipUnless(importlib.util.find_spec("_testcapi"), "no _testcapi")
    def test_interpreters_that_share_the_gil(self):
        import _testcapi

        program = """
import velodrome

class Account:
    balance = velodrome.field(0)

account = Account()
with velodrome.session() as run, velodrome.patched(), velodrome.atomic('deposit'):
    account.balance += 1
assert run.outcome.clean and account.balance == 1, run.outcome
"""
        for _ in range(3):
            self.assertEqual(_testcapi.run_in_subinterp(program), 0)
        self.watch("clean", lambda: Account().deposit(1))

    def test_noise_lets_others_run(self):
        x, turns, together = Var(0), [], threading.Barrier(2)

        def work(name):
            together.wait()
            for _ in range(200):
                x.get()
                turns.append(name)

        def body():
            threads = [Thread(target=work, args=(n,)) for n in range(2)]
            collections.deque((t.start() for t in threads), 0)
            collections.deque((t.join() for t in threads), 0)

        interval = sys.getswitchinterval()
        sys.setswitchinterval(100)  # so that only who waits gives the GIL up
        try:
            self.watch("clean", body, noise=1)
        finally:
            sys.setswitchinterval(interval)
        self.assertGreater(sum(a != b for a, b in zip(turns, turns[1:])), 4)

    def test_from_a_thread_of_its_own(self):
        """A session that is dropped by another thread than its opener."""
        box = []
        elsewhere(lambda: box.append(velodrome.session()))
        x = Var(0)
        x.get()
        box.clear()
        gc.collect()
        self.watch("clean", x.get)


class Types(Case):
    def test_lock(self):
        lock = Lock("l")

        def body():
            self.assertTrue(lock.acquire() and lock.locked())
            self.assertFalse(lock.acquire(False) or lock.acquire(timeout=0.001))
            lock.release()
            with self.assertRaises(RuntimeError):
                lock.release()
            with self.assertRaises(ValueError):
                lock.acquire(False, 1)
            with lock as taken:
                self.assertIs(taken, True)
            self.assertTrue(lock.acquire(blocking=True, timeout=1))
            lock.release()

        self.watch("clean", body)
        body()

    def test_rlock(self):
        lock = RLock()

        def body():
            with lock:
                with lock:
                    self.assertTrue(lock.acquire())
                    elsewhere(lambda: self.assertFalse(lock.acquire(False)))
                    elsewhere(lambda: self.assertRaises(RuntimeError, lock.release))
                    lock.release()
                self.assertTrue(lock.locked())
            with self.assertRaises(RuntimeError):
                lock.release()

        self.watch("clean", body)
        self.assertFalse(lock.locked())

    def test_conditions(self):
        for make in (Lock, RLock):

            def body():
                ready, go = threading.Condition(make()), []

                def wait():
                    with ready:
                        while not go:
                            ready.wait()

                thread = Thread(target=wait)
                thread.start()
                with ready:
                    go.append(1)
                    ready.notify_all()
                thread.join()
                with ready:
                    self.assertFalse(ready.wait(0.001))

            self.watch("clean", body)

    def test_a_condition_of_a_lock_that_is_held_twice(self):
        def body():
            lock = RLock()
            ready = threading.Condition(lock)
            with lock, lock:
                self.assertFalse(ready.wait(0.001))
                self.assertTrue(lock.locked())
            self.assertFalse(lock.locked())

        self.watch("clean", body)

    def test_patched(self):
        def body():
            with velodrome.patched():
                self.assertEqual((threading.Lock, threading.Thread), (Lock, Thread))
                box = queue.Queue()
                threads = [
                    threading.Thread(target=lambda: box.put(n), daemon=True) for n in range(4)
                ]
                with atomic("a start is not a join"):
                    collections.deque((t.start() for t in threads), 0)
                collections.deque((t.join() for t in threads), 0)
                self.assertEqual(box.qsize(), 4)
                with concurrent.futures.ThreadPoolExecutor(4) as pool:
                    self.assertEqual(sum(pool.map(abs, range(10))), 45)
                done = threading.Event()
                timer = threading.Timer(0.001, done.set)
                timer.start()
                self.assertTrue(done.wait(60))
                timer.join()

        self.watch("clean", body)
        self.assertNotIn(threading.Thread, (Thread,))

    def test_threads(self):
        class Worker(Thread):
            def run(self):
                self.result = 7

        def body():
            worker = Worker(name="w", daemon=False)
            self.assertFalse(worker.is_alive())
            worker.start()
            worker.join(10)
            worker.join()
            self.assertEqual((worker.result, worker.name), (7, "w"))
            with self.assertRaises(RuntimeError):
                worker.start()
            worker.join()

        self.watch("clean", body)

    def test_a_thread_is_no_cycle(self):
        def body():
            worker = Thread(target=int)
            worker.start()
            worker.join()
            return weakref.ref(worker)

        gc.disable()
        try:
            self.assertIsNone(self.watch("clean", body)())
        finally:
            gc.enable()

    def test_fields(self):
        @dataclasses.dataclass
        class Point:
            x: int = velodrome.field(1)
            y: int = velodrome.field(2)

        class Bare:
            needed = velodrome.field()

        class Slotted:
            __slots__ = ()
            f = velodrome.field()

        def body():
            p = Point(5)
            p.y += 1
            self.assertEqual(
                (p, p.x, p.y, dataclasses.asdict(p)),
                (Point(5, 3), 5, 3, {"x": 5, "y": 3}),
            )
            del p.x
            self.assertEqual(p.x, 1)
            with self.assertRaisesRegex(AttributeError, "Bare.needed"):
                Bare().needed
            for touch in (lambda: Bare().__delattr__("needed"), lambda: Bare.needed):
                with self.assertRaises(AttributeError):
                    touch()
            with self.assertRaises((TypeError, AttributeError)):
                Slotted().f = 1
            with self.assertRaises(TypeError):
                velodrome.field(1).__get__(p)

        self.watch("clean", body)
        body()

    def test_a_field_leaves_the_instance_as_it_was(self):
        class Owner:
            balance = velodrome.field(0)

            def __init__(self):
                self.name, self.balance = "me", 3

            def __repr__(self):
                return ", ".join(f"{key}={getattr(self, key)}" for key in self.__dict__)

        owner, other = Owner(), Owner()

        def body():
            self.assertEqual(repr(owner), "name=me, balance=3")
            self.assertEqual(json.dumps(vars(other)), '{"name": "me", "balance": 3}')
            self.assertEqual(vars(owner), vars(other))

        body()
        self.watch("clean", body)
        body()

    def test_instances_that_share_their_dict(self):
        class Config:
            shared = {}
            level = velodrome.field(0)

            def __init__(self):
                self.__dict__ = self.shared

        def update():
            mine = Config()
            with atomic("update"):
                before = mine.level
                del mine
                elsewhere(lambda: setattr(Config(), "level", 5))
                Config().level = before + 1

        self.watch("alarm", update, "not atomic: update")

    def test_instances_go(self):
        class Owner:
            balance = velodrome.field(0)

        class Slotted:
            __slots__ = ("__dict__",)
            balance = velodrome.field(0)

        def grown():
            before = resource.getrusage(resource.RUSAGE_SELF).ru_maxrss
            for _ in range(20_000):
                owner = Owner()
                owner.balance += 1
                self.assertEqual(owner.balance, 1)
            return resource.getrusage(resource.RUSAGE_SELF).ru_maxrss - before

        def body():
            owner = Owner()
            owner.balance = owner
            gone = weakref.ref(owner)
            del owner
            gc.collect()
            self.assertIsNone(gone())
            Slotted().balance += 1
            grown()
            self.assertLess(grown(), 1 << 10)

        self.watch("clean", body, places=False, events=4096)  # its log stays small

    def test_weak_references(self):
        with velodrome.patched():
            for make in (threading.Lock, threading.RLock, Var):
                made = make()
                gone = weakref.ref(made)
                self.assertIs(gone(), made)
                weakref.WeakKeyDictionary()[made] = 1
                del made
                self.assertIsNone(gone())

    def test_labels_and_code_go(self):
        x = Var(0)

        def grown(body):
            before = resource.getrusage(resource.RUSAGE_SELF).ru_maxrss
            for n in range(20_000):
                body(n)
            return resource.getrusage(resource.RUSAGE_SELF).ru_maxrss - before

        def label(n):
            with atomic(f"{'request ' * 100}{n}"):
                pass

        def code(n):
            exec(compile(f"s = {'y' * 2000!r}\nx.get()", f"f{n}.py", "exec"), {"x": x})

        grown(label)
        self.assertLess(grown(label), 4 << 10)
        with velodrome.session(places=True):
            grown(code)
            self.assertLess(grown(code), 20 << 10)

    def test_names_that_are_no_utf8(self):
        x = Var(0, "cut \udce9 and zero \0")

        def body():
            with atomic("block \udce9"):
                self.assertEqual(x.get(), 0)

        folder = pathlib.Path(tempfile.mkdtemp())
        with velodrome.session() as run:
            body()
            run.save(folder / "x")
        self.assertEqual(
            (folder / "x.names").read_text().splitlines(),
            ["variable 0 cut \\udce9 and zero \\x00", "label 0 block \\udce9"],
        )

    def test_locks_of_the_library(self):
        def logger():
            log = logging.Logger("x")
            log.addHandler(logging.StreamHandler(io.StringIO()))
            return lambda: log.warning("deposit")

        def put():
            box = queue.Queue()
            return lambda: box.put(1)

        def submit():
            pool = concurrent.futures.ThreadPoolExecutor(1)
            return lambda: pool.submit(int).result()

        def event():
            done = threading.Event()
            return lambda: (done.set(), done.is_set())

        for make in (logger, put, submit, event):
            for told in (False, True):

                def body():
                    with velodrome.patched(library_locks=told):
                        use = make()
                        with atomic("twice"):
                            x = Var(0)
                            x.set(1)
                            use()
                            elsewhere(use)
                            use()

                if not told:
                    self.watch("clean", body)
                elif make is not submit:
                    self.watch("alarm", body, "not atomic: twice")

    def test_a_condition_is_the_programs(self):
        def body():
            with velodrome.patched():
                ready = threading.Condition()

                def take():
                    with ready:
                        pass

                with atomic("twice"):
                    take()
                    elsewhere(take)
                    take()

        line = body.__code__.co_firstlineno + 2
        self.watch("alarm", body, f"lock at test_velodrome.py:{line}")

    def test_what_is_ignored_makes_no_alarm(self):
        x, lock = Var(0, "x"), Lock("log of x")

        def use():
            with lock:
                x.get()

        def body():
            with atomic("twice"):
                use()
                elsewhere(lambda: (use(), x.set(1)))
                use()

        self.watch("alarm", body)
        self.watch("alarm", body, ignore_locks=["log*"])
        self.watch("clean", body, ignore_locks=["log*"], ignore_variables=iter("xyz"))
        self.watch("clean", body, ignore_labels=["twice"])
        with self.assertRaises(TypeError):
            velodrome.session(ignore_labels=[7])

    def test_nothing_was_recorded(self):
        with velodrome.session() as run:
            pass
        self.assertEqual(run.outcome.verdict, "incomplete")
        self.assertIn("nothing was recorded", run.outcome.text)

    def test_settings_that_mean_nothing(self):
        for name, value in (("EVENTS", "1e6"), ("NOISE", "yes"), ("SEED", "-1")):
            os.environ[f"VELODROME_{name}"] = value
            try:
                with self.assertRaisesRegex(ValueError, f"VELODROME_{name} is '{value}'"):
                    velodrome.session()
            finally:
                del os.environ[f"VELODROME_{name}"]
        with velodrome.session() as run:
            with self.assertRaisesRegex(ValueError, "incomplete is 'Fail'"):
                run.finish("x", incomplete="Fail")

    def test_var(self):
        x: Var[list] = Var([1], name="x")
        self.assertEqual((x.get(), repr(x), repr(Var())), ([1], "Var([1])", "Var(None)"))
        for wrong in (
            lambda: x.__init__(1),
            lambda: Lock.__new__(Lock).acquire(),
            lambda: x.set(),
        ):
            with self.assertRaises(TypeError):
                wrong()
        gone = weakref.ref(type("T", (), {})())
        cycle = Var()
        cycle.set([cycle])
        del cycle, gone
        gc.collect()

    def test_atomic(self):
        class Bank:
            @staticmethod
            @atomic("named")
            def static(a, b=2):
                """Its own."""
                return a + b

            @atomic
            @classmethod
            def of_class(cls):
                return cls

        def body():
            self.assertEqual(
                (Bank.static(1), Bank.of_class(), Bank.static.__doc__),
                (3, Bank, "Its own."),
            )
            block = atomic("twice")
            with block, block:
                Var(0).get()

        self.watch("clean", body)

    def test_finish(self):
        folder = tempfile.mkdtemp() + "/new"
        os.environ["VELODROME_LOGS"] = folder
        try:
            x = Var(0, "x")
            run = velodrome.session()
            with atomic("b"):
                before = x.get()
                elsewhere(lambda: x.set(1))
                x.set(before)
            self.assertEqual(run.outcome.verdict, "alarm")
            self.assertTrue(run.finish("tests/bank::test_lost"))
            self.assertIn(f"velodrome explain {folder}/", run.outcome.text)
            self.assertEqual(len(os.listdir(folder)), 3)
            for setting in ("fail", "warn", ""):
                os.environ["VELODROME_INCOMPLETE"] = setting
                run = velodrome.session(events=8)
                with atomic("b"):
                    for _ in range(20):
                        x.get()
                self.assertEqual(
                    (run.finish("incomplete"), run.outcome.verdict),
                    (setting != "warn", "incomplete"),
                )
            run = velodrome.session()
            self.assertEqual((run.finish("none"), run.finish("none")), (True, False))
        finally:
            del os.environ["VELODROME_LOGS"], os.environ["VELODROME_INCOMPLETE"]

    def lose(self):
        """An update of x that another thread writes between."""
        x = Var(0, "x")
        with atomic("b"):
            before = x.get()
            elsewhere(lambda: x.set(1))
            x.set(before)

    def test_the_finding_of_velodrome_report(self):
        folder = pathlib.Path(tempfile.mkdtemp())
        report = folder / "velodrome-report"
        path, os.environ["PATH"] = os.environ["PATH"], f"{folder}:{os.environ['PATH']}"
        rows = "    thread 1  x.py:1  before = x  reads x"
        other = "a is not atomic: possible in 1 of 1 run\n    of another\n\n"
        of_b = f"b is not atomic: seen in 1 of 1 run, possible in 1\n{rows}\n\n"
        try:
            for said, shown in (
                (f"{other}{of_b}2 calls of 2 functions\n", True),
                (other, False),
                (f"{rows}\n", False),
                ("", False),
            ):
                report.write_text(f"#!/bin/sh\necho \"$@\" >'{folder}/asked'\nprintf '{said}'\n")
                report.chmod(0o755)
                with velodrome.session() as run:
                    self.lose()
                    self.assertTrue(run.finish("lost", folder=str(folder)))
                log = folder / "lost.vlog"
                self.assertEqual((folder / "asked").read_text(), f"{log}\n")
                command = f"velodrome explain {log} --names {log}.names --sites {log}.sites\n"
                self.assertTrue(run.outcome.text.endswith(command))
                if shown:
                    self.assertEqual(run.outcome.text, f"not atomic: b\n{rows}\n{command}")
                else:
                    self.assertIn("closes a cycle", run.outcome.text)
            report.write_text(f"#!/bin/sh\nsleep 600 &\necho $! >'{folder}/started'\nwait\n")
            with unittest.mock.patch("velodrome._finding.MOST_SECONDS", 3):
                self.assertEqual(finding(str(log), "not atomic: b"), "")
            started = pathlib.Path("/proc", (folder / "started").read_text().strip(), "stat")
            with contextlib.suppress(FileNotFoundError, ProcessLookupError):
                while started.read_text().rsplit(")", 1)[1].split()[0] != "Z":
                    time.sleep(0.01)  # it ends, or the test does by its time
            report.unlink()
            self.assertEqual(finding(str(log), "not atomic: b"), "")
        finally:
            os.environ["PATH"] = path

    def test_check(self):
        folder = tempfile.mkdtemp()
        run = velodrome.session()
        self.lose()
        with self.assertRaisesRegex(velodrome.Alarm, "not atomic: b"):
            run.check("lost", folder=folder)
        with self.assertRaises(velodrome.Alarm):
            run.check("lost")  # though it has ended
        with self.assertRaisesRegex(velodrome.Incomplete, "recorded(.|\n)*VELODROME_INCOMPLETE"):
            velodrome.session().check("none", folder=folder)
        with self.assertWarnsRegex(velodrome.IncompleteWarning, "nothing was recorded"):
            velodrome.session().check("none", folder=folder, incomplete="warn")
        with warnings.catch_warnings(), velodrome.session() as run:
            warnings.simplefilter("error")
            Var(0).get()
            self.assertTrue(run.check("fine", folder=folder).clean)

    def test_watched_tests_of_unittest(self):
        lose, case = self.lose, self

        @velodrome.watched()
        class Bank(unittest.IsolatedAsyncioTestCase):
            def test_lost(self):
                case.assertIs(threading.Lock, Lock)
                lose()

            async def test_lost_by_a_coroutine(self):
                lose()

            def test_fine(self):
                Var(0).get()

            def test_nothing(self):
                pass

            def test_skipped(self):
                self.skipTest("later")

            def test_fails(self):
                self.fail("its own")

            def test_both(self):
                lose()
                self.fail("its own")

        folder = tempfile.mkdtemp()
        os.environ["VELODROME_LOGS"] = folder
        try:
            result = unittest.TestResult()
            with contextlib.redirect_stderr(io.StringIO()) as said:
                unittest.defaultTestLoader.loadTestsFromTestCase(Bank).run(result)
        finally:
            del os.environ["VELODROME_LOGS"]
        told = {test.id().split(".")[-1]: words for test, words in result.failures}
        expected = {
            "test_both": "its own",
            "test_fails": "its own",
            "test_lost": "not atomic: b",
            "test_lost_by_a_coroutine": "not atomic: b",
            "test_nothing": "nothing was recorded",
        }
        self.assertEqual(sorted(told), sorted(expected))
        for name, words in expected.items():
            self.assertIn(words, told[name])
        self.assertIn("not atomic: b", told["test_both"] + said.getvalue())
        self.assertEqual((result.errors, len(result.skipped), result.testsRun), ([], 1, 7))
        self.assertIs(threading.Lock, _Lock)
        kept = [name for name in os.listdir(folder) if name.endswith(".vlog")]
        self.assertEqual(len([name for name in kept if ".Bank.test_" in name]), 3)

    def test_watched_statements_and_functions(self):
        folder = tempfile.mkdtemp()
        os.environ["VELODROME_LOGS"] = folder
        try:
            with self.assertRaises(velodrome.Alarm):
                with velodrome.watched("lost"):
                    self.lose()

            @velodrome.watched(incomplete="warn")
            def test_nothing():
                """Its own."""
                return 7

            with self.assertWarns(velodrome.IncompleteWarning):
                self.assertEqual((test_nothing(), test_nothing.__doc__), (7, "Its own."))
            with self.assertRaises(ValueError):
                with velodrome.watched(incomplete="Fail"):
                    self.fail("it began")
        finally:
            del os.environ["VELODROME_LOGS"]
        self.assertIn("lost.vlog", os.listdir(folder))


if __name__ == "__main__":
    unittest.main()
