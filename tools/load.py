"""Runs random workloads of many threads with `velodrome run`, one after another, and checks each log again.

    python3 tools/load.py PROGRAM [--seconds N] [--threads N] [--rounds N] [--seed N]

A workload has variables, locks that are acquired alone or shared, and nested blocks; in about half of them each block keeps to
two phases of locking, so that no alarm can come. Each run has to end by itself within two minutes with status 0 or 3, and
`check` of its log has to come to the same counts, verdict, transaction and blamed blocks. The last line is what was seen; the
status is 0 where all agreed.
"""
import argparse
import os
import random
import subprocess
import tempfile
import time

LIMITS = ["--events", "16777216", "--nodes", "4096"]
NESTED, VARIABLES, LOCKS, LABELS = 4, 12, 6, 20


def block(some, depth, held, kept):
    """The lines of a block: locks are taken in the order of their numbers, so that no thread waits for itself in a circle."""
    lines = [f"begin l{some.randrange(LABELS)}"]
    mine = sorted(some.sample(range(LOCKS), some.randrange(3)))
    mine = [lock for lock in mine if not held or lock > max(held)]
    shared = {lock: some.random() < 0.6 for lock in mine}
    lines += [("share" if shared[lock] else "acquire") + f" m{lock}" for lock in mine]
    now = {**held, **shared}
    for _ in range(some.randrange(1, 4)):
        lines += accesses(some, now, kept)
    if depth < NESTED and some.random() < 0.4:
        lines += block(some, depth + 1, now, kept)
    lines += [("unshare" if shared[lock] else "release") + f" m{lock}" for lock in reversed(mine)]
    return lines + ["end"]


def accesses(some, held, kept):
    """One access. Where locking is kept to, variable x is guarded by lock x modulo the locks, and read where that is shared."""
    if not kept:
        return [some.choice(["read", "write"]) + f" x{some.randrange(VARIABLES)}"]
    if not held:
        return ["add 1"]
    lock = some.choice(sorted(held))
    word = "read" if held[lock] else some.choice(["read", "write"])
    return [f"{word} x{some.choice(range(lock, VARIABLES, LOCKS))}"]


def flat(lines):
    """The same with all releases behind the last access: the inner blocks keep their locks to the end of the outermost one."""
    back = [line for line in lines if line.split()[0] in ("release", "unshare")]
    rest = [line for line in lines if line.split()[0] not in ("release", "unshare")]
    return rest[:-1] + back + rest[-1:]


def workload(some, threads, rounds):
    kept = some.random() < 0.5
    lines = [f"var x{k}" for k in range(VARIABLES)] + [f"lock m{k}" for k in range(LOCKS)]
    lines += ["thread t0"] + [f"fork t{k}" for k in range(1, threads)]
    for k in range(threads):
        if k:
            lines.append(f"thread t{k}")
        lines.append(f"repeat {rounds}")
        for _ in range(some.randrange(1, 4)):
            one = block(some, 1, {}, kept)
            lines += flat(one) if kept else one
        lines.append("done")
        if not k:
            lines += [f"join t{other}" for other in range(1, threads)]
    return kept, "\n".join(lines) + "\n"


def numbered(text, report):
    """The report of a workload with the numbers of its labels in place of their names, as a log's report has them."""
    numbers = {}
    for line in text.split("\n"):
        if line.startswith("begin "):
            numbers.setdefault(line.split()[1], str(len(numbers)))
    out = []
    for line in report.split("\n"):
        words = line.split()
        if words[:1] == ["blame"] and len(words) == 3:
            words[2] = numbers[words[2]]
        if words[:1] == ["thread"]:
            del words[2]
        out.append(" ".join(words))
    return sorted(out)


def main():
    words = argparse.ArgumentParser()
    words.add_argument("program")
    words.add_argument("--seconds", type=int, default=300)
    words.add_argument("--threads", type=int, default=64)
    words.add_argument("--rounds", type=int, default=40)
    words.add_argument("--seed", type=int, default=1)
    asked = words.parse_args()
    end, seed, seen, events, longest, wrong = (
        time.time() + asked.seconds,
        asked.seed,
        {0: 0, 3: 0},
        0,
        0.0,
        0,
    )
    with tempfile.TemporaryDirectory() as folder:
        work, log = os.path.join(folder, "it.work"), os.path.join(folder, "it.log")
        while time.time() < end:
            some = random.Random(seed)
            kept, text = workload(some, asked.threads, some.randrange(1, 2 * asked.rounds))
            with open(work, "w") as it:
                it.write(text)
            at = time.time()
            try:
                ran = subprocess.run(
                    [asked.program, "run", work, *LIMITS, "--log", log],
                    capture_output=True,
                    text=True,
                    timeout=120,
                )
            except subprocess.TimeoutExpired:
                print(f"seed {seed}: no end within 120 seconds")
                return 1
            longest = max(longest, time.time() - at)
            again = subprocess.run(
                [asked.program, "check", log, *LIMITS], capture_output=True, text=True, timeout=120
            )
            same = sorted(again.stdout.split("\n")) == numbered(text, ran.stdout)
            if (
                ran.returncode not in seen
                or again.returncode != ran.returncode
                or not same
                or (kept and ran.returncode)
            ):
                print(
                    f"seed {seed}: run {ran.returncode} {ran.stderr.strip()}, check {again.returncode} {again.stderr.strip()}, same {same}, kept {kept}"
                )
                wrong += 1
            else:
                seen[ran.returncode] += 1
                events += int(ran.stdout.split()[1])
            seed += 1
    print(
        f"{sum(seen.values())} runs agree, {wrong} do not: {seen[3]} with an alarm, {seen[0]} without, {events} events, the longest {longest:.1f} s"
    )
    return 1 if wrong else 0


if __name__ == "__main__":
    raise SystemExit(main())
