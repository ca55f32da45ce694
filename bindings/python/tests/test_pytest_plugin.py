"""The plugin, by pytest's own runner of runs. `python -m pytest -p velodrome.pytest_plugin` where the wheel is not installed."""
import pathlib

import pytest

pytest_plugins = ["pytester"]

LOST = """
    import threading, time, velodrome

    class Account:
        balance = velodrome.field(0)

        @velodrome.atomic
        def deposit(self, amount):
            before = self.balance
            other.wait(30)
            self.balance = before + amount

    def two(deposit):
        threads = [threading.Thread(target=deposit, args=(n,)) for n in (1, 2)]
        for thread in threads: thread.start()
        for thread in threads: thread.join()

    other = threading.Barrier(2)
"""


@pytest.fixture(autouse=True)
def environment(monkeypatch):
    for name in ("LOGS", "INCOMPLETE", "NOISE", "EVENTS", "SEED"):
        monkeypatch.delenv(f"VELODROME_{name}", raising=False)


@pytest.fixture
def run(pytester):
    """Runs a file, and returns its result."""

    def run(source, *arguments):
        pytester.makepyfile(source)
        loaded = ["-p", "velodrome.pytest_plugin"] if "velodrome" not in installed() else []
        return pytester.runpytest_subprocess(*loaded, *arguments)

    return run


def installed():
    from importlib import metadata

    found = metadata.entry_points()
    group = (
        found.select(group="pytest11") if hasattr(found, "select") else found.get("pytest11", [])
    )
    return {entry.name for entry in group}


def test_an_alarm_fails_its_test(run, pytester):
    result = run(
        LOST
        + """
    def test_lost():
        account = Account()
        two(account.deposit)

    def test_fine():
        assert Account().balance == 0
    """,
        "--velodrome",
    )
    result.assert_outcomes(failed=1, passed=1)
    result.stdout.fnmatch_lines(
        [
            "*not atomic: Account.deposit (test_an_alarm_fails_its_test.py:*)",
            "*velodrome explain */.velodrome/*test_lost.vlog --names *.names --sites *.sites",
        ]
    )
    result.stdout.no_fnmatch_line("*pytest_plugin.py*")
    kept = sorted(path.name for path in pathlib.Path(pytester.path, ".velodrome").iterdir())
    assert kept == [
        f"test_an_alarm_fails_its_test.py..test_lost.vlog{end}" for end in ("", ".names", ".sites")
    ]
    names = pathlib.Path(pytester.path, ".velodrome", kept[1]).read_text()
    assert "variable 0 Account.balance\n" in names


def test_only_what_is_asked_for_is_watched(run):
    source = (
        LOST
        + """
    def test_lost():
        two(Account().deposit)
    """
    )
    run(source).assert_outcomes(passed=1)
    run(
        source.replace(
            "    def test_lost",
            "    import pytest\n    @pytest.mark.velodrome\n    def test_lost",
        )
    ).assert_outcomes(failed=1)


def test_incomplete(run):
    source = """
    import velodrome
    def test_long():
        x = velodrome.Var(0)
        with velodrome.atomic('long'):
            for _ in range(100): x.get()
    """.replace(
        "def test_long",
        "import pytest\n    @pytest.mark.velodrome(events=20)\n    def test_long",
    )
    result = run(source)
    result.assert_outcomes(failed=1)
    result.stdout.fnmatch_lines(
        [
            "*too many events while a block was open*",
            "set --velodrome-incomplete warn, *",
        ]
    )
    result.stdout.no_fnmatch_line("*pytest_plugin.py*")
    result = run(source, "--velodrome-incomplete", "warn")
    result.assert_outcomes(passed=1, warnings=1)
    result.stdout.fnmatch_lines(["*IncompleteWarning: *too many events while a block was open*"])


def test_nothing_was_recorded(run):
    nothing = """
    import pytest, velodrome
    def test_plain():
        assert True
    """
    used = """
    @velodrome.atomic
    def nothing(): pass
    def test_used():
        nothing()
    """
    marked = """
    @pytest.mark.velodrome
    def test_marked():
        assert True
    """
    recorded = """
    def test_recorded():
        velodrome.Var(0).get()
    """
    result = run(nothing + recorded, "--velodrome")
    result.assert_outcomes(passed=2)
    result.stdout.fnmatch_lines(["velodrome: 1 of 2 watched tests used nothing of velodrome, *"])
    assert result.ret == 0
    result = run(nothing, "--velodrome")
    result.assert_outcomes(passed=1)
    assert result.ret == 1
    for source, arguments in (
        (nothing + used, ["--velodrome"]),
        (nothing + marked, []),
    ):
        result = run(source, *arguments)
        result.assert_outcomes(failed=1, passed=1)
        result.stdout.fnmatch_lines(["*nothing was recorded: *"])
        run(source, *arguments, "--velodrome-incomplete", "warn").assert_outcomes(
            passed=2, warnings=1
        )


def test_settings_that_mean_nothing_are_told(run, monkeypatch):
    source = """
    def test_plain():
        assert True
    """
    for name, value in (("EVENTS", "1e6"), ("NOISE", "yes"), ("INCOMPLETE", "Fail")):
        monkeypatch.setenv(f"VELODROME_{name}", value)
        result = run(source, "--velodrome")
        assert result.ret == pytest.ExitCode.USAGE_ERROR
        result.stderr.fnmatch_lines([f"ERROR: VELODROME_{name} is '{value}': it is *"])
        run(source).assert_outcomes(passed=1)
        monkeypatch.delenv(f"VELODROME_{name}")


def test_the_environment_stays(run):
    run(
        """
    import os
    def test_environment():
        assert not [name for name in os.environ if name.startswith('VELODROME')]
    """
    ).assert_outcomes(passed=1)


def test_a_failing_test_keeps_its_own_failure(run):
    result = run(
        LOST
        + """
    def test_lost():
        account = Account()
        two(account.deposit)
        assert account.balance == 3, 'a deposit is lost'
    """,
        "--velodrome",
    )
    result.assert_outcomes(failed=1)
    result.stdout.fnmatch_lines(
        ["*a deposit is lost*", "*velodrome*", "not atomic: Account.deposit*"]
    )


def test_an_alarm_can_be_expected(run):
    run(
        LOST
        + """
    import pytest
    @pytest.mark.xfail(raises=velodrome.Alarm, strict=True)
    def test_lost():
        two(Account().deposit)
    """,
        "--velodrome",
    ).assert_outcomes(xfailed=1)


def test_repeat_until_it_shows(run):
    result = run(
        LOST.replace("other.wait(30)", "other.wait(30) if len(times) == 5 else None")
        + """
    times = []
    def test_lost():
        times.append(1)
        two(Account().deposit) if len(times) == 5 else Account().deposit(1)

    def test_times():
        assert len(times) == 5
    """,
        "--velodrome",
        "--velodrome-repeat",
        "20",
    )
    result.assert_outcomes(failed=1, passed=1)
    result.stdout.fnmatch_lines(["FAILED *::test_lost*"])


def test_fixtures_are_made_anew_for_each_repetition(run):
    result = run(
        LOST.replace("other.wait(30)", "pass")
        + """
    import pytest
    made = {'module': 0, 'function': 0}

    @pytest.fixture(scope='module')
    def bank():
        made['module'] += 1
        yield
        assert made == {'module': 1, 'function': 4}
        print('the bank goes')

    @pytest.fixture
    def account(bank):
        made['function'] += 1
        yield Account()

    @pytest.mark.velodrome(repeat=3)
    def test_deposit(account):
        account.deposit(5)
        assert account.balance == 5

    @pytest.mark.velodrome(repeat=3)
    def test_that_fails(account):
        account.deposit(5)
        assert account.balance == 6
    """.replace(
            "other.wait(30)", "pass"
        ),
        "-s",
    )
    result.assert_outcomes(passed=1, failed=1)
    result.stdout.fnmatch_lines(["*the bank goes*"])


def test_unpatched(run):
    source = """
    import threading, velodrome
    def test_lock():
        assert (threading.Lock is velodrome.Lock) is {}
        assert threading.Thread is not velodrome.Thread or {}
    """
    run(source.format(True, True), "--velodrome").assert_outcomes(passed=1)
    run(source.format(False, False), "--velodrome", "-o", "velodrome_patch=false").assert_outcomes(
        passed=1
    )


def test_unittest_and_fixtures(run):
    run(
        """
    import unittest, pytest, velodrome

    class Case(unittest.TestCase):
        def test_it(self):
            self.x = velodrome.Var(1)
            self.assertEqual(self.x.get(), 1)

    @pytest.fixture
    def x():
        yield velodrome.Var(2)

    @pytest.mark.parametrize('n', [1, 2])
    def test_x(x, n):
        assert x.get() == 2
    """,
        "--velodrome",
    ).assert_outcomes(passed=3)
