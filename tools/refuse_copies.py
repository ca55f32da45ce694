"""Runs a workload in a program in which no sender can be copied, so that a thread is forked and no worker is told of it.

    python3 tools/refuse_copies.py

No growth stands behind a copy of a sender: it is refused only where the count of its owners is full, which no run comes to. So
over a copy of the repository the call refuses every copy, and `rt try`, which proves nothing, runs the program. It has to end
within a minute, with status 5, `out of memory` on standard error and nothing on standard output. Without the change the same run
has to succeed.
"""
import os
import shutil
import subprocess
import sys
import tempfile

ROOT = os.path.dirname(os.path.dirname(os.path.abspath(__file__)))
SOURCE = "crates/velo_worker/src/growth.rt"
CALL = "match sender.clone() {\n        Ok(copy) => Ok(copy),\n"
REFUSED = "match sender.clone() {\n        Ok(_) => Err(Memory),\n"
ROUNDS = """repeat 1000
acquire m
read x
add 1
write x
release m
done
"""
WORKLOAD = f"var x\nlock m\nthread main\nfork a\n{ROUNDS}join a\nthread a\n{ROUNDS}"


def copy_repository(folder):
    shutil.copytree(
        os.path.join(ROOT, "crates"),
        os.path.join(folder, "crates"),
        ignore=shutil.ignore_patterns("out"),
    )
    for name in ("crates.txt", "HANDLES"):
        shutil.copy(os.path.join(ROOT, name), folder)


def refuse_copies(folder):
    path = os.path.join(folder, SOURCE)
    with open(path, encoding="utf-8") as file:
        text = file.read()
    if text.count(CALL) != 1:
        sys.exit(f"{SOURCE} has no such call any more: {CALL!r}")
    with open(path, "w", encoding="utf-8") as file:
        file.write(text.replace(CALL, REFUSED))


def run(folder):
    """The status, and both outputs; of standard error only what the program wrote."""
    crate = os.path.join(folder, "crates", "velodrome")
    with open(os.path.join(crate, "work"), "w", encoding="utf-8") as file:
        file.write(WORKLOAD)
    command = ["rt", "try", "--", "run", "work"]
    tried = subprocess.run(
        command, cwd=crate, stdin=subprocess.DEVNULL, capture_output=True, text=True, check=False
    )
    return tried.returncode, tried.stdout, tried.stderr


def main():
    with tempfile.TemporaryDirectory() as folder:
        copy_repository(folder)
        plain = run(folder)
        refuse_copies(folder)
        refused = run(folder)
    for name, (status, out, err) in (("as it is", plain), ("no copies", refused)):
        print(f"{name}: status {status}, {len(out)} bytes out, {err.strip().splitlines()[:2]}")
    ends = refused[0] == 5 and refused[1] == "" and "out of memory\n" in refused[2]
    sys.exit(0 if plain[0] == 0 and ends else 1)


main()
