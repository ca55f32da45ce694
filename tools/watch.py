"""Watches a FIFO and a pipe with `velodrome watch`: the alarm's line comes while the writer still holds its end open.

    python3 tools/watch.py PROGRAM
    python3 tools/watch.py PROGRAM --logs FOLDER
    python3 tools/watch.py PROGRAM --events N

With `--logs` each log of the folder (`.log`, or `.log.xz`) is watched whole, and with `--endless` while 16, 128, 1024 and as
many of its events are kept as by default: what is told has to be the same, but for the limits (refusals 17 and 18).

With `--events` so many events, and then an alarm, are written to `velodrome watch --endless -`, which has to end well with
less than 100 MB.

The last line is what was seen; the status is 0 where all was as it has to be.
"""
import argparse
import lzma
import os
import re
import select
import subprocess
import sys
import tempfile
import threading
import time

FRONT = ["vlog 2 2 1 0", "0 fork 1", "0 begin 7", "0 rd 0 0", "1 wr 0 5", "0 wr 0 1"]
BACK = ["0 end", "1 exit", "0 join 1"]
TOLD = b"alarm 4 blame 1 7\n"
REPORTS = {
    False: b"events 8\nthread 0 6\nthread 1 2\nverdict alarm 4\ntransaction 1\nblame 1 7\n",
    True: b"events 5\nthread 0 4\nthread 1 1\nverdict alarm 4\ntransaction 1\nblame 1 7\n",
}
SECONDS = 20

KEPT = ["16", "128", "1024", None]
LIMIT = re.compile(rb"refused 1[78] at \d+\n")
MOST_BYTES = 100_000_000

# Two blocks under a lock: they leave what they found.
ROUND = b"""0 begin 1
0 acq 0
0 rd 0 0
0 wr 0 1
0 rel 0
0 end
1 begin 2
1 acq 0
1 rd 0 1
1 wr 0 0
1 rel 0
1 end
"""
LOST_UPDATE = b"0 begin 3\n0 rd 0 0\n1 wr 0 5\n0 wr 0 1\n0 end\n"


def answer(out, count):
    """So many bytes of what is told, as they come; fewer where they do not come in time, or the program ends."""
    told = b""
    while len(told) < count and select.select([out], [], [], SECONDS)[0]:
        more = os.read(out.fileno(), count - len(told))
        if not more:
            break
        told += more
    return told


def send(end, lines, single):
    """Sends lines, each in a write of its own or byte by byte."""
    text = "".join(line + "\n" for line in lines).encode()
    pieces = (
        [text[i : i + 1] for i in range(len(text))]
        if single
        else [line.encode() + b"\n" for line in lines]
    )
    for piece in pieces:
        os.write(end, piece)


def watched(words, path, end, stop, single):
    """Watches what is written to this end of a pipe; says what is wrong, or nothing. The end is open until the alarm is told."""
    words = words + [path or "-"] + ["--stop"] * stop
    started = subprocess.Popen(
        words, stdin=end[0] if end else None, stdout=subprocess.PIPE, stderr=subprocess.PIPE
    )
    if end:
        os.close(end[0])
    writer = end[1] if end else os.open(path, os.O_WRONLY)
    try:
        send(writer, FRONT, single)
        first = answer(started.stdout, len(TOLD))
        if not stop:
            send(writer, BACK, single)
        else:
            first += answer(started.stdout, len(REPORTS[True]))
    finally:
        os.close(writer)
    rest, err = started.communicate(timeout=SECONDS)
    wanted = TOLD + REPORTS[stop]
    if not first.startswith(TOLD):
        return f"the line of the alarm did not come before the end of the input: {first!r}"
    if (first + rest, err, started.returncode) != (wanted, b"", 3):
        return f"{first + rest!r}, {err!r}, status {started.returncode}"
    return None


def pipes(program):
    """Watches pipes and FIFOs, with `--endless` and without; so many runs, and so many of them wrong."""
    runs = wrong = 0
    with tempfile.TemporaryDirectory() as folder:
        fifo = os.path.join(folder, "fifo")
        os.mkfifo(fifo)
        for endless in (False, True):
            words = [program, "watch"] + ["--endless"] * endless
            for path in (None, fifo):
                for stop in (False, True):
                    for single in (False, True):
                        said = watched(words, path, None if path else os.pipe(), stop, single)
                        runs += 1
                        if said:
                            wrong += 1
                            print(
                                f"{'FIFO' if path else 'pipe'}{' --endless' * endless}{' --stop' * stop}"
                                f"{' byte by byte' * single}: {said}"
                            )
    return runs, wrong


def told(words, log):
    """What is told of a log, and the status."""
    run = subprocess.run(words, input=log, stdout=subprocess.PIPE, stderr=subprocess.PIPE)
    return run.stdout, run.stderr, run.returncode


def logs_below(folder):
    """The path and the bytes of each log below the folder."""
    for place, _, files in sorted(os.walk(folder)):
        for name in sorted(files):
            path = os.path.join(place, name)
            if name.endswith(".log"):
                with open(path, "rb") as file:
                    yield path, file.read()
            elif name.endswith(".log.xz"):
                with lzma.open(path) as file:
                    yield path, file.read()


def alike(program, folder):
    """Watches each log with `--endless` and without; so many runs, and so many of them wrong."""
    runs = wrong = limited = 0
    for path, log in logs_below(folder):
        for stop in ([], ["--stop"]):
            whole = told([program, "watch", "-"] + stop, log)
            for kept in KEPT:
                words = (
                    [program, "watch", "--endless", "-"]
                    + stop
                    + (["--events", kept] if kept else [])
                )
                cut = told(words, log)
                runs += 1
                if kept and LIMIT.fullmatch(cut[1]) and whole[0].startswith(cut[0]):
                    limited += 1
                elif cut != whole:
                    wrong += 1
                    print(f"{path} {' '.join(words[2:])}: {cut!r} is not {whole!r}")
    print(f"{limited} ended at a limit")
    return runs, wrong


def write_rounds(end, rounds):
    """Writes a log of so many rounds, and an alarm behind them."""
    with os.fdopen(end, "wb", buffering=0) as out:
        out.write(b"vlog 2 2 1 1\n0 fork 1\n")
        many = ROUND * 10_000
        for _ in range(rounds // 10_000):
            out.write(many)
        out.write(ROUND * (rounds % 10_000) + LOST_UPDATE)


def long(program, events):
    """Watches so many events, and an alarm behind them; whether one run was wrong."""
    rounds = -(-events // 12)
    reader, writer = os.pipe()
    started = time.monotonic()
    run = subprocess.Popen(
        [program, "watch", "--endless", "-"], stdin=reader, stdout=subprocess.PIPE
    )
    os.close(reader)
    sender = threading.Thread(target=write_rounds, args=(writer, rounds))
    sender.start()
    said = run.stdout.read()
    _, status, used = os.wait4(run.pid, 0)
    sender.join()
    seconds = time.monotonic() - started
    begin = 1 + rounds * 12
    wanted = (
        f"alarm {begin + 3} blame {begin} 3\nevents {begin + 5}\nthread 0 {rounds * 6 + 5}\nthread 1 {rounds * 6 + 1}\n"
        f"verdict alarm {begin + 3}\ntransaction {begin}\nblame {begin} 3\n"
    ).encode()
    print(f"{begin + 5} events, {seconds:.1f} s, {used.ru_maxrss * 1024 / 1e6:.1f} MB")
    well = (
        said == wanted
        and os.waitstatus_to_exitcode(status) == 3
        and used.ru_maxrss * 1024 < MOST_BYTES
    )
    if not well:
        print(f"{said!r}, status {os.waitstatus_to_exitcode(status)}")
    return 1, 0 if well else 1


def main():
    parser = argparse.ArgumentParser()
    parser.add_argument("program")
    parser.add_argument("--logs")
    parser.add_argument("--events", type=int)
    asked = parser.parse_args()
    program = os.path.abspath(asked.program)
    if asked.logs:
        runs, wrong = alike(program, asked.logs)
    elif asked.events:
        runs, wrong = long(program, asked.events)
    else:
        runs, wrong = pipes(program)
    print(f"{runs - wrong} of {runs} well")
    return 1 if wrong else 0


if __name__ == "__main__":
    sys.exit(main())
