"""Compares `velodrome explore` with all schedules of small workloads, each run by `velodrome replay`.

    python3 tools/explore.py PROGRAM [COUNT [SEED]]

PROGRAM is the built `velodrome`. COUNT workloads (1,000 at first) are made by chance from SEED (1 at first): two or three
threads, two variables, two locks, blocks, at most 500 interleavings. Each interleaving is replayed. A turn of a thread that
cannot act passes, so these are all schedules that matter. Where `explore` tells an alarm, a deadlock or a refusal, some replay
has to have one, and its own schedule too; where it tells none, no replay may. Each workload that differs is printed. The last line
is `N passed, N failed`; the status is 0 where none failed.
"""
import math
import multiprocessing
import os
import random
import subprocess
import sys
import tempfile

MAX_INTERLEAVINGS = 500


def body(chance, room):
    """Some statements, and how many events they are."""
    lines, depth, held = [], 0, []
    if chance.random() < 0.8:
        lines.append("begin b%d" % chance.randrange(2))
        depth += 1
    while len(lines) < room:
        pick = chance.random()
        if pick < 0.1 and depth:
            lines.append("end")
            depth -= 1
        elif pick < 0.78:
            lines.append("%s %s" % (chance.choice(["read", "write"]), chance.choice("xxxy")))
        elif pick < 0.8:
            lines.append(chance.choice(["release m", "unshare n"]))
        elif held and pick < 0.88:
            lines.append(held.pop())
        else:
            kind, back = chance.choice([("acquire", "release"), ("share", "unshare")])
            lock = chance.choice("mn")
            lines.append("%s %s" % (kind, lock))
            held.append("%s %s" % (back, lock))
    return lines + held[::-1] + ["end"] * depth


def workload(chance):
    """A text, and how many events each of its threads may have, its exit among them."""
    while True:
        others = chance.choice([1, 1, 2])
        bodies = [body(chance, chance.randint(1, 4)) for _ in range(others + 1)]
        names = ["t%d" % i for i in range(others)]
        main = ["fork " + name for name in names] + bodies[0]
        if chance.random() < 0.5:
            main += ["join " + name for name in names]
        threads = [main] + bodies[1:]
        counts = [len(thread) + 1 for thread in threads]
        ways = math.factorial(sum(counts))
        for count in counts:
            ways //= math.factorial(count)
        if ways <= MAX_INTERLEAVINGS:
            break
    text = "var x\nvar y\nlock m\nlock n\n"
    for name, thread in zip(["main"] + names, threads):
        text += "thread %s\n" % name + "".join("  %s\n" % line for line in thread)
    return text, counts


def interleavings(counts):
    """Each order in which so many turns of each thread can come."""
    if not any(counts):
        yield []
    for thread, count in enumerate(counts):
        if count:
            rest = list(counts)
            rest[thread] -= 1
            for others in interleavings(rest):
                yield [thread] + others


def ran(words, folder):
    done = subprocess.run(
        words, cwd=folder, stdin=subprocess.DEVNULL, capture_output=True, text=True, timeout=60
    )
    return done.returncode, done.stdout, done.stderr


def seen(program, folder, option, schedule):
    """Which of alarm, stuck and refused a replay has."""
    _, out, err = ran([program, "replay", "w.work", option, schedule], folder)
    ends = {err.split()[0]} & {"stuck", "refused"} if err else set()
    return ends | ({"alarm"} if "\nverdict alarm" in out else set())


def judged(task):
    """Why the answer for a workload is wrong, or None; and what its replays have."""
    program, number, seed = task
    text, counts = workload(random.Random("%s %s" % (seed, number)))
    with tempfile.TemporaryDirectory() as folder:
        with open(os.path.join(folder, "w.work"), "w", encoding="utf-8") as it:
            it.write(text)
        status, out, err = ran([program, "explore", "w.work"], folder)
        told = dict(
            line.split(" ", 1) if " " in line else (line, "") for line in out.splitlines()[2:5]
        )
        if set(told) != {"alarm", "stuck", "refused"} or "open" in told.values():
            return "%s%s%s(status %d)" % (text, out, err, status), set()
        found = set()
        for order in interleavings(counts):
            found |= seen(program, folder, "--schedule", " ".join(map(str, order)))
        for kind, said in told.items():
            if (said == "none") == (kind in found):
                return "%s%s%s: replays say %s" % (text, out, kind, sorted(found)), found
            if said != "none" and kind not in seen(
                program, folder, "--turns", turns_of(kind, said)
            ):
                return "%s%s%s: its own schedule does not show it" % (text, out, kind), found
    return None, found


def turns_of(kind, said):
    """The schedule behind a word; that of a refusal stands behind its number, its thread and the thread's name."""
    return " ".join(said.split()[4:]) if kind == "refused" else said


def main(words):
    if not words or words[0].startswith("-"):
        print(__doc__)
        return 2
    program = os.path.abspath(words[0])
    count = int(words[1]) if len(words) > 1 else 1000
    seed = words[2] if len(words) > 2 else "1"
    failed, kinds = 0, {}
    with multiprocessing.Pool() as pool:
        for why, found in pool.imap_unordered(
            judged, [(program, number, seed) for number in range(count)]
        ):
            for kind in found or ["none"]:
                kinds[kind] = kinds.get(kind, 0) + 1
            if why:
                failed += 1
                print(why)
    print(", ".join("%s in %d" % it for it in sorted(kinds.items())))
    print(f"{count - failed} passed, {failed} failed")
    return 1 if failed else 0


if __name__ == "__main__":
    sys.exit(main(sys.argv[1:]))
