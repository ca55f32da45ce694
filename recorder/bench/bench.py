"""What recording costs: python3 bench/bench.py [--compiler gcc] [--other BIN] [--rounds N] [--count N] [--kind KIND]..

Each kind of work runs plainly (-O1 -g), with -fsanitize=thread, and recorded in each mode, in one go, the builds in turn. Of the
rounds the least processor time and wall time count. Times are nanoseconds for each of the work's steps; behind them stands the
processor time as a multiple of ThreadSanitizer's. --other is the folder with the compilers of another recorder, for comparison.
At the end: how fast velodrome-log reads, and how long a record is."""
import argparse
import glob
import os
import re
import resource
import subprocess
import tempfile
import time

HERE = os.path.dirname(os.path.realpath(__file__))
BIN = os.path.join(os.path.dirname(HERE), "out", "bin")
KINDS = {"memory": 2, "reads": 3, "calls": 2, "locks": 2, "atomics": 1}  # events of a step


def build(room, compiler, other):
    made = {"plain": f"{room}/plain", "tsan": f"{room}/tsan", "recorder": f"{room}/recorder"}
    source = f"{HERE}/work.c"
    subprocess.run(
        [compiler, "-O1", "-g", "-w", source, "-o", made["plain"], "-lpthread"], check=True
    )
    subprocess.run(
        [compiler, "-O1", "-g", "-w", "-fsanitize=thread", source, "-o", made["tsan"]], check=True
    )
    environment = dict(os.environ, VELODROME_CC=compiler)
    subprocess.run(
        [f"{BIN}/velodrome-cc", source, "-o", made["recorder"]], check=True, env=environment
    )
    if other:
        made["other"] = f"{room}/other"
        subprocess.run(
            [f"{other}/velodrome-cc", source, "-o", made["other"]], check=True, env=environment
        )
    return made


def run(program, words, **settings):
    before, start = resource.getrusage(resource.RUSAGE_CHILDREN), time.monotonic()
    done = subprocess.run(
        [program, *map(str, words)],
        env=dict(os.environ, **settings),
        capture_output=True,
        text=True,
    )
    wall, after = time.monotonic() - start, resource.getrusage(resource.RUSAGE_CHILDREN)
    run.said = done.stdout
    if done.returncode:
        raise SystemExit(f"{program} {words}: status {done.returncode} {done.stderr}")
    return after.ru_utime + after.ru_stime - before.ru_utime - before.ru_stime, wall


def clear(out):
    for f in glob.glob(f"{out}.*"):
        os.unlink(f)


def variants(made, out, nothing):
    yield "plain", made["plain"], {}
    yield "tsan", made["tsan"], {}
    yield "off", made["recorder"], {}
    for name in ("recorder", "other"):
        for mode in ("free", "exact", "serial") if name in made else ():
            yield (mode if name == "recorder" else f"other {mode}"), made[name], {
                "VELODROME_OUT": out,
                "VELODROME_MODE": mode,
                "VELODROME_MOST": "200000000",
            }
    yield "exact, not listed", made["recorder"], {"VELODROME_OUT": out, "VELODROME_SITES": nothing}


def measure(room, made, rounds, count, kinds):
    out, nothing = f"{room}/trace", f"{room}/nothing"
    with open(nothing, "w", encoding="ascii"):
        pass
    for threads in (1, 4):
        for kind in kinds:
            steps = count // threads // (8 if kind in ("locks", "atomics") else 1)
            least = {}
            for _ in range(rounds):
                for name, program, settings in variants(made, out, nothing):
                    clear(out)
                    seen = run(program, (kind, threads, steps), **settings)
                    least[name] = tuple(map(min, seen, least.get(name, seen)))
            total = steps * threads
            print(
                f"{kind}, {threads} thread{'s' * (threads > 1)}, {KINDS[kind]} event{'s' * (KINDS[kind] > 1)} a step"
            )
            for name, (cpu, wall) in least.items():
                print(
                    f"    {name:18} processor {cpu * 1e9 / total:7.1f}   wall {wall * 1e9 / total:7.1f}   {cpu / max(least['tsan'][0], 1e-9):5.1f} x tsan",
                    flush=True,
                )


def reading(room, made):
    out = f"{room}/trace"
    clear(out)
    run(made["recorder"], ("memory", 4, 2000000), VELODROME_OUT=out, VELODROME_MOST="100000000")
    trace = [f for f in glob.glob(f"{out}.*") if re.search(r"\.\d+$", f)][0]
    cpu, wall = run(f"{BIN}/velodrome-log", (trace, f"{room}/log"))
    records = int(re.search(r"records (\d+)", run.said)[1])
    print(
        f"velodrome-log: {records} records of {os.path.getsize(trace) / records:.1f} bytes, {records / cpu / 1e6:.1f} million a second of processor, {records / wall / 1e6:.1f} of wall"
    )


def main():
    words = argparse.ArgumentParser(
        description=__doc__, formatter_class=argparse.RawDescriptionHelpFormatter
    )
    words.add_argument("--compiler", default="gcc")
    words.add_argument("--other")
    words.add_argument("--rounds", type=int, default=3)
    words.add_argument("--count", type=int, default=4000000)
    words.add_argument("--kind", action="append", choices=KINDS)
    options = words.parse_args()
    with tempfile.TemporaryDirectory() as room:
        made = build(room, options.compiler, options.other)
        print(f"load {os.getloadavg()[0]:.1f}, {os.cpu_count()} processors, {options.compiler}")
        measure(room, made, options.rounds, options.count, options.kind or KINDS)
        reading(room, made)


main()
