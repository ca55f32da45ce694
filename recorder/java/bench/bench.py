"""What the recorder for Java costs: python3 bench/bench.py. A table of processor times, each in times of the plain one: some 10^8
accesses to objects and arrays that one thread alone has, in two threads."""
import os
import subprocess
import sys
import tempfile
from typing import Dict

JAVA = os.path.dirname(os.path.dirname(os.path.realpath(__file__)))
AGENT = os.environ.get("AGENT") or os.path.join(JAVA, "out", "velodrome.jar")
MODES = ("free", "exact")


def times(classes: str, mode: str) -> Dict[str, int]:
    """The nanoseconds of each kernel; an empty mode is plain Java."""
    with tempfile.TemporaryDirectory() as folder:
        env = {**os.environ, "VELODROME_MODE": mode, "VELODROME_OUT": os.path.join(folder, "run")}
        agent = [f"-javaagent:{AGENT}"] if mode else []
        words = ["java", *agent, "-Xbatch", "-cp", classes, "bench.Costs"]
        done = subprocess.run(words, env=env, capture_output=True, text=True, check=True)
    if done.stderr:
        sys.exit(done.stderr)
    return {name: int(nanos) for name, nanos in (line.split() for line in done.stdout.splitlines())}


def main() -> None:
    with tempfile.TemporaryDirectory() as classes:
        source = os.path.join(JAVA, "bench", "Costs.java")
        subprocess.run(["javac", "-d", classes, source], check=True)
        plain = times(classes, "")
        recorded = {mode: times(classes, mode) for mode in MODES}
    plain["all"] = sum(plain.values())
    print("| | plain ns | " + " | ".join(MODES) + " |\n|---|---|" + "---|" * len(MODES))
    for by_name in recorded.values():
        by_name["all"] = sum(by_name.values())
    for name, nanos in plain.items():
        ratios = " | ".join(f"{recorded[mode][name] / nanos:.1f}" for mode in MODES)
        print(f"| {name} | {nanos} | {ratios} |")


if __name__ == "__main__":
    main()
