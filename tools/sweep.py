"""Runs a program again and again and refuses it one growth each time: the first, the second, and so on until it meets none.

    python3 tools/sweep.py crates/velodrome/out/velodrome check LOG
    python3 tools/sweep.py --tests refused_growth crates/velo_run_tests/out/velo_run_tests_tests
    python3 tools/sweep.py --starts crates/velodrome/out/velodrome run FILE

A run of the program has to end as the one without a refusal, or with status 5 and `out of memory` (for `run` also `seat lost`)
on standard error and nothing on standard output.

With `--tests WORD` the program is the tests of a crate, as `rt test` leaves it. Each test whose name has the word is run by
itself, and each run of it has to succeed.

With `--starts` before all else the start of one thread is refused each time in place of a growth. Then a run has to end with
status 5 and `out of memory`, and at least one start has to be refused.
"""
import os
import subprocess
import sys
import tempfile

HERE = os.path.dirname(os.path.abspath(__file__))


def build_shim(folder):
    shim = os.path.join(folder, "refuse.so")
    source = os.path.join(HERE, "refuse.c")
    subprocess.run(["cc", "-O1", "-shared", "-fPIC", "-o", shim, source, "-ldl"], check=True)
    return shim


def run(refusal, command, number):
    """The status, both outputs, and whether a growth, or the start of a thread, was refused."""
    shim, variable = refusal
    reader, writer = os.pipe()
    environment = dict(os.environ, LD_PRELOAD=shim, REFUSED=str(writer))
    environment[variable] = str(number)
    with subprocess.Popen(
        command,
        env=environment,
        stdin=subprocess.DEVNULL,
        stdout=subprocess.PIPE,
        stderr=subprocess.PIPE,
        pass_fds=(writer,),
    ) as child:
        os.close(writer)
        try:
            out, err = child.communicate(timeout=120)
        except subprocess.TimeoutExpired:
            child.kill()
            out, err = child.communicate()
    told = os.read(reader, 1)
    os.close(reader)
    return child.returncode, out, err, told != b""


def kind_of(got, plain):
    if got[:3] == plain[:3]:
        return "as without"
    if got[0] == 5 and got[1] == b"" and got[2] in (b"out of memory\n", b"seat lost\n"):
        return got[2].decode().strip()
    return "OTHER"


def ends_well(kinds, variable):
    """A run whose thread did not start has to tell of it, by nothing but want of memory: its seat is not lost."""
    if variable == "REFUSE":
        return "OTHER" not in kinds
    return set(kinds) == {"out of memory"}


def sweep(refusal, command):
    plain = run(refusal, command, 0)
    kinds = {}
    number = 0
    while True:
        number += 1
        got = run(refusal, command, number)
        if not got[3]:
            break
        kind = kind_of(got, plain)
        kinds[kind] = kinds.get(kind, 0) + 1
        if kind == "OTHER":
            print(f"number {number}: status {got[0]}, {len(got[1])} bytes out, {got[2][:80]!r}")
    what = "growths" if refusal[1] == "REFUSE" else "starts"
    print(f"{number - 1} {what} refused: {kinds}; without a refusal status {plain[0]}")
    return ends_well(kinds, refusal[1]) and kind_of(got, plain) != "OTHER"


def tests_of(program, word):
    listed = subprocess.run([program, "--list"], check=True, capture_output=True, text=True).stdout
    names = [line.removesuffix(": test") for line in listed.splitlines() if line.endswith(": test")]
    return [name for name in names if word in name]


def sweep_tests(refusal, program, word):
    tests = tests_of(program, word)
    succeed = bool(tests)
    for test in tests:
        print(test, end=": ", flush=True)
        succeed = (
            sweep(refusal, [program, test]) and run(refusal, [program, test], 0)[0] == 0 and succeed
        )
    return succeed


def main():
    command = sys.argv[1:]
    variable = "REFUSE"
    if command[:1] == ["--starts"]:
        variable = "REFUSE_START"
        command = command[1:]
    are_tests = command[:1] == ["--tests"]
    if not command or are_tests and len(command) != 3:
        sys.exit(__doc__)
    with tempfile.TemporaryDirectory() as folder:
        refusal = (build_shim(folder), variable)
        if are_tests:
            sys.exit(0 if sweep_tests(refusal, command[2], command[1]) else 1)
        sys.exit(0 if sweep(refusal, command) else 1)


main()
