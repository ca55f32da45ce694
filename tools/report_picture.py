"""Makes docs/report.png, the picture of a report in README.md: records README's example, and has Chromium show the page of it.

    python3 tools/report_picture.py PROGRAM

PROGRAM is the built `velodrome`. It needs recorder/out/bin, chromium and a C++ compiler. Look at the picture before you keep it.
"""

import os
import re
import subprocess
import sys
import tempfile

TOP = os.path.dirname(os.path.dirname(os.path.abspath(__file__)))
PICTURE = os.path.join(TOP, "docs", "report.png")
RECORDER = os.path.join(TOP, "recorder", "out", "bin")
SIZE = "1000,460"
EXAMPLE = re.compile(r"^```cpp bank\.cpp\n(.*?)^```$", re.M | re.S)


def main() -> int:
    if len(sys.argv) != 2:
        sys.exit(__doc__)
    with open(os.path.join(TOP, "README.md"), encoding="utf-8") as file:
        example = EXAMPLE.search(file.read())
    if example is None:
        sys.exit("README.md has no bank.cpp")
    path = os.pathsep.join((RECORDER, os.environ["PATH"]))
    environment = dict(os.environ, PATH=path, VELODROME=os.path.abspath(sys.argv[1]))
    with tempfile.TemporaryDirectory() as room:
        folder = os.path.join(room, "work")
        os.mkdir(folder)
        with open(os.path.join(folder, "bank.cpp"), "w", encoding="utf-8") as file:
            file.write(example[1])

        def run(*command: str, statuses: tuple[int, ...] = (0,)) -> None:
            done = subprocess.run(
                command,
                cwd=folder,
                env=environment,
                stdout=subprocess.DEVNULL,
                stderr=subprocess.DEVNULL,
            )
            if done.returncode not in statuses:
                sys.exit(f"{command[0]} ended with {done.returncode}")

        run("velodrome-c++", "bank.cpp", "-o", "bank")
        run("velodrome-record", "-n", "3", "./bank", statuses=(3,))
        run("velodrome-report", "--html", "page.html", statuses=(3,))
        flags = ("--headless", "--no-sandbox", "--disable-gpu", "--hide-scrollbars")
        run("chromium", *flags, f"--window-size={SIZE}", f"--screenshot={PICTURE}", "page.html")
    print(PICTURE)
    return 0


if __name__ == "__main__":
    sys.exit(main())
