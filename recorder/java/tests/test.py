"""Tests of the recorder for Java: python3 tests/test.py [-k WORD] [--show] [--long]. The last line is `N passed, N failed`.

VELODROME is the path of the checker; without one, what it would say is not run, and that is told. --show prints what the cases
record, as cases.txt has it, in place of comparing it. --long has Maven do more than tell its version."""
import argparse
import concurrent.futures
import difflib
import glob
import json
import os
import re
import shutil
import subprocess
import sys
import tempfile
import time
from typing import Callable, Dict, List, Optional, Sequence, Set

HERE = os.path.dirname(os.path.realpath(__file__))
JAVA = os.path.dirname(HERE)
AGENT = os.path.join(JAVA, "out", "velodrome.jar")
ATOMIC = os.path.join(JAVA, "out", "velodrome-atomic.jar")
BIN = os.path.join(os.path.dirname(JAVA), "out", "bin")
LOG_MAKER = os.path.join(BIN, "velodrome-log")
RECORD = os.path.join(BIN, "velodrome-record")
CHECKER = os.environ.get("VELODROME") or shutil.which("velodrome")
MODES = ("exact", "free")
LONG = "--long" in sys.argv
AT_ONCE = 2
# Of a virtual machine that lives for a second.
QUICK = ("-XX:TieredStopAtLevel=1", "-XX:+UseSerialGC", "-Xshare:auto")
# What a copy of a collection of the JDK needs.
COPIED = ("--add-exports", "java.base/jdk.internal.util=ALL-UNNAMED")
ASM = ":".join(f"/usr/share/java/{name}.jar" for name in ("asm", "asm-tree", "asm-commons"))
SECONDS_MOST = 120


class Room:
    """A folder with the compiled programs, and one for each run in it."""

    def __init__(self, path: str) -> None:
        self.path = path
        self.classes = os.path.join(path, "classes")
        copier = ["java", *QUICK, "-cp", ASM, f"{HERE}/copier/Copier.java", self.classes]
        subprocess.run(copier, check=True)
        sources = sorted(glob.glob(f"{HERE}/programs/**/*.java", recursive=True))
        quick = [f"-J{option}" for option in QUICK]
        classpath = f"{ATOMIC}:{self.classes}"
        words = ["javac", *quick, "-g", "--release", "11", "-cp", classpath, "-d", self.classes]
        subprocess.run([*words, *sources], check=True)

    def folder(self, name: str) -> str:
        path = os.path.join(self.path, name)
        os.makedirs(path)
        return path


class Run:
    """A program that ran with the agent, and the log of its trace."""

    def __init__(
        self,
        room: Room,
        folder: str,
        words: List[str],
        env: Dict[str, str],
        status: int = 0,
        java: Sequence[str] = (),
    ) -> None:
        self.folder = folder
        self.log = os.path.join(folder, "log")
        options = [f"-javaagent:{AGENT}", *QUICK, *java, "-cp", room.classes]
        settings = {"VELODROME_OUT": os.path.join(folder, "run"), "VELODROME_MOST": "1000000"}
        self.done = subprocess.run(
            ["java", *options, *words],
            env={**os.environ, **settings, **env},
            capture_output=True,
            text=True,
            timeout=SECONDS_MOST,
            check=False,
        )
        if self.done.returncode != status:
            raise RuntimeError(f"{words}: status {self.done.returncode}: {self.done.stderr}")

    def trace(self) -> str:
        found = glob.glob(os.path.join(self.folder, "run.*.maps"))
        if len(found) != 1:
            raise RuntimeError(f"{len(found)} traces: {self.done.stderr}")
        return found[0][: -len(".maps")]

    def make_log(self, *options: str) -> str:
        """Makes the log: what velodrome-log says."""
        words = [LOG_MAKER, self.trace(), self.log, *options]
        return subprocess.run(words, capture_output=True, text=True, check=True).stdout

    def names(self) -> Dict[str, str]:
        """The names by kind and number, as `lock 0`."""
        with open(self.log + ".names", encoding="utf-8") as f:
            words = [line.rstrip("\n").split(" ", 2) for line in f]
        return {f"{w[0]} {w[1]}": w[2] for w in words}

    def events(self) -> List[str]:
        """The log with names in the place of numbers."""
        names = self.names()
        kinds = {"rd": "variable", "wr": "variable", "begin": "label", "fork": "thread"}
        kinds.update(dict.fromkeys(("acq", "rel", "acqs", "rels"), "lock"), join="thread")
        told = []
        with open(self.log, encoding="ascii") as f:
            for line in list(f)[1:]:
                words = line.split()
                thread = names.get(f"thread {words[0]}", words[0])
                about = names.get(f"{kinds.get(words[1])} {words[2]}", "?") if words[2:] else ""
                told.append(f"{thread} {words[1]} {about}".rstrip())
        return told

    def audit(self) -> str:
        """What the checker lists: the labels that are not atomic, and then how many are."""
        assert CHECKER
        words = [CHECKER, "audit", self.log, "--names", self.log + ".names", "--no-witness"]
        done = subprocess.run(words, capture_output=True, text=True, check=False)
        if done.returncode not in (0, 3):
            raise RuntimeError(f"audit: status {done.returncode}: {done.stdout}{done.stderr}")
        return done.stdout


# ---- each kind of hook, by its log
def plain(event: str) -> str:
    return re.sub(r" \(made at [^)]*\)|cases\.|Cases\$", "", event)


def case_names() -> List[str]:
    with open(f"{HERE}/programs/Cases.java", encoding="utf-8") as f:
        return re.findall(r"class (\w+) implements Case", f.read())


def case_events(room: Room, mode: str) -> List[str]:
    """What all cases record, one after the other."""
    folder = room.folder(f"cases-{mode}")
    run = Run(room, folder, ["cases.Cases", *case_names()], {"VELODROME_MODE": mode})
    said_by_maker = run.make_log("--all-variables")
    if "odd 0 late 0 lost 0" not in said_by_maker:
        raise RuntimeError(said_by_maker)
    return by_thread([plain(event) for event in run.events()])


def by_thread(events: List[str]) -> List[str]:
    """One thread after the other: what two threads do with different objects has no order."""
    threads = dict.fromkeys(event.split(" ")[0] for event in events)
    return [event for thread in threads for event in events if event.startswith(thread + " ")]


def cases(room: Room, mode: str) -> Optional[str]:
    with open(f"{HERE}/cases.txt", encoding="utf-8") as f:
        want = [line for line in f.read().splitlines() if line and not line.startswith("#")]
    got = case_events(room, mode)
    if got == want:
        return None
    return "\n".join(difflib.unified_diff(want, got, "cases.txt", mode, lineterm="", n=8))


# ---- planted mistakes, and their repairs
# What is wrong in each program: the methods that the checker lists, and nothing else.
PLANTED = os.path.join(HERE, "mistakes.json")
# What only calls them, and is no block.
CALLERS = os.path.join(HERE, "callers.txt")


def planted(program: str) -> Set[str]:
    with open(PLANTED, encoding="utf-8") as f:
        all_mistakes = json.load(f)
    return {method for m in all_mistakes if m["program"] == program for method in m["methods"]}


def found(room: Room, program: str, how: str, mode: str) -> Set[str]:
    """The methods that the checker lists, of a run of all programs of a file."""
    folder = room.folder(f"{program}-{how}-{mode}")
    words = [f"cases.{program}", how]
    run = Run(room, folder, words, {"VELODROME_MODE": mode}, java=COPIED)
    run.make_log("--not-blocks", CALLERS)
    return set(re.findall(r"^not atomic \d+ (\S+)", run.audit(), re.M))


def mistakes(room: Room, program: str, mode: str) -> Optional[str]:
    """Each planted mistake is found, and nothing else; and nothing once they are repaired."""
    want = planted(program)
    got = found(room, program, "broken", mode)
    if got != want:
        return f"it found {sorted(got)}"
    got = found(room, program, "repaired", mode)
    return f"repaired, it found {sorted(got)}" if got else None


REPORTED = (
    "cases.Mistakes$Cache.refresh is not atomic",
    "Mistakes$Cache.version of Mistakes$Cache#1 (made at Mistakes.java:",
    "begun = true;",
)


def reported(room: Room) -> Optional[str]:
    """velodrome-record prints what the report says, with names and lines of the source."""
    folder = room.folder("reported")
    os.makedirs(os.path.join(folder, "cases"))
    shutil.copy2(f"{HERE}/programs/Mistakes.java", os.path.join(folder, "cases"))
    program = ["java", f"-javaagent:{AGENT}", *QUICK, "-cp", room.classes, "cases.Mistakes"]
    done = subprocess.run(
        [RECORD, *program, "broken"], cwd=folder, capture_output=True, text=True, check=False
    )
    if done.returncode != 3:
        return f"status {done.returncode}: {done.stdout}{done.stderr}"
    missing_words = [word for word in REPORTED if word not in done.stdout]
    return f"no {missing_words} in {done.stdout}" if missing_words else None


# ---- whole programs
def said(run: Run, *words: str) -> Optional[str]:
    """Whether velodrome-log says all of these."""
    out = run.make_log("--all-variables")
    return next((f"`{word}` is not in {out}" for word in words if word not in out), None)


def ends(room: Room, name: str, status: int, *words: str) -> Optional[str]:
    """However the program ends, its status is its own and all is recorded."""
    run = Run(room, room.folder(f"ends-{name}"), ["cases.Ends", name], {}, status)
    return said(run, "odd 0 late 0 lost 0", *words)


def tells_names(room: Room) -> Optional[str]:
    run = Run(room, room.folder("names"), ["cases.Ends", "names"], {})
    run.make_log("--all-variables")
    line = line_of("new Account(), new Account()")
    want = f"Ends$Account.balance of Ends$Account#1 (made at Ends.java:{line})"
    if want not in run.names().values():
        return f"no `{want}` in {run.names()}"
    with open(run.log + ".sites", encoding="utf-8") as f:
        sites = f.read()
    site = f"cases/Ends.java:{line_of('all[1].balance = 2')} cases.Ends.names"
    return None if site in sites else f"no `{site}` in {sites}"


def line_of(text: str) -> int:
    with open(f"{HERE}/programs/Ends.java", encoding="utf-8") as f:
        return next(i for i, line in enumerate(f, 1) if text in line)


def wait_for_name(folder: str, name: bytes) -> None:
    end = time.monotonic() + SECONDS_MOST
    while time.monotonic() < end:
        for path in glob.glob(os.path.join(folder, "run.*.elf")):
            with open(path, "rb") as f:
                if name in f.read():
                    return
        time.sleep(0.1)
    raise RuntimeError(f"no name {name!r}")


def killed(room: Room) -> Optional[str]:
    """A program that is killed leaves its trace, and names that are written as it runs."""
    folder = room.folder("killed")
    java = ["java", f"-javaagent:{AGENT}", *QUICK, "-cp", room.classes, "cases.Ends", "hang"]
    env = {**os.environ, "VELODROME_OUT": os.path.join(folder, "run")}
    with subprocess.Popen(java, env=env, stdout=subprocess.PIPE, text=True) as process:
        try:
            assert process.stdout and process.stdout.readline() == "up\n"
            wait_for_name(folder, b"Ends.shared")
        finally:
            process.kill()
    run = Run.__new__(Run)
    run.folder, run.log = folder, os.path.join(folder, "log")
    run.make_log("--all-variables")
    want = ["main rd Ends.shared", "main wr Ends.shared"]
    got = run.events()
    return None if all(event in got for event in want) else "\n".join(got)


def full(room: Room) -> Optional[str]:
    """A full trace stops the recording, and not the program."""
    run = Run(room, room.folder("full"), ["cases.Ends", "work"], {"VELODROME_MOST": "2000"})
    if run.done.stdout != "1000000\n":
        return f"it printed {run.done.stdout}"
    if "the trace is full (VELODROME_MOST): the recording stops here" not in run.done.stderr:
        return f"it said {run.done.stderr}"
    return said(run, "(stopped)", "odd 0")


def unrecorded(room: Room) -> Optional[str]:
    """Without VELODROME_OUT, or with one that cannot be written, the program runs as always."""
    for out, words in (("", ""), ("/nowhere/run", "velodrome: nothing is recorded: /nowhere/run")):
        folder = room.folder(f"unrecorded{len(out)}")
        run = Run(room, folder, ["cases.Ends", "names"], {"VELODROME_OUT": out})
        if run.done.stdout != "2\n" or not run.done.stderr.startswith(words):
            return f"it printed {run.done.stdout}{run.done.stderr}"
        if not words and run.done.stderr:
            return f"it said {run.done.stderr}"
    return None


def keeps_trace_of_stack(room: Room) -> Optional[str]:
    """An exception has the places that it would have."""
    run = Run(room, room.folder("stack"), ["cases.Ends", "throw"], {}, 1)
    line = line_of("as it was")
    want = f"java.lang.IllegalStateException: as it was\n\tat cases.Ends.main(Ends.java:{line})\n"
    if not run.done.stderr.endswith(want):
        return f"it said {run.done.stderr}"
    return said(run, "odd 0 late 0 lost 0", "threads 2", "locks 1")


def own_methods(room: Room) -> Optional[str]:
    """No hook calls what a thread's class says of itself."""
    run = Run(room, room.folder("own"), ["cases.Ends", "own"], {})
    return run.done.stderr or said(run, "odd 0 late 0 lost 0", "threads 2", "locks 2")


def interrupted(room: Room) -> Optional[str]:
    """A thread that is interrupted is recorded on, and stays interrupted."""
    run = Run(room, room.folder("interrupted"), ["cases.Ends", "interrupted"], {})
    if run.done.stdout != "true\n" or run.done.stderr:
        return f"it printed {run.done.stdout}{run.done.stderr}"
    return said(run, "odd 0 late 0 lost 0", "threads 2")


def left_as_it_is(room: Room) -> Optional[str]:
    """A class that cannot take hooks, since a method gets too long, runs as it was."""
    folder = room.folder("left")
    stores = "".join(f"a[{i % 1000}] = {i};" for i in range(7000))
    with open(f"{folder}/Long.java", "w", encoding="ascii") as f:
        f.write(
            "public class Long { public static void main(String[] s) { int[] a = new int[1000];"
            + stores
            + " System.out.println(a[999]); Short.say(); } } class Short { static int x;"
            + " static void say() { x++; System.out.println(x); } }"
        )
    subprocess.run(["javac", "-d", folder, f"{folder}/Long.java"], check=True)
    run = Run(room, folder, ["-cp", folder, "Long"], {})
    told = "1 classes, 1 left as they are" in run.done.stderr
    return None if run.done.stdout == "6999\n1\n" and told else run.done.stderr


def hidden_hooks(room: Room) -> Optional[str]:
    """A class whose loader does not find the hooks runs as it was."""
    run = Run(room, room.folder("hiding"), ["cases.Ends", "hiding"], {})
    if run.done.stdout != "hidden 1\n" or "1 left as they are" not in run.done.stderr:
        return f"it printed {run.done.stdout}{run.done.stderr}"
    return said(run, "odd 0 late 0 lost 0", "threads 2", "locks 1")


MODULE = """package inside; public class Main { static int x; static synchronized void touch() { x++; }
public static void main(String[] a) throws Exception {
Thread t = new Thread(Main::touch); t.start(); t.join(); touch(); System.out.println(x); } }"""


def module(room: Room) -> Optional[str]:
    """A program that is a module of its own."""
    folder = room.folder("module")
    os.makedirs(f"{folder}/source/inside")
    for name, text in (("module-info", "module inside { }"), ("inside/Main", MODULE)):
        with open(f"{folder}/source/{name}.java", "w", encoding="ascii") as f:
            f.write(text)
    sources = [f"{folder}/source/module-info.java", f"{folder}/source/inside/Main.java"]
    subprocess.run(["javac", "-d", f"{folder}/classes", *sources], check=True)
    run = Run(room, folder, ["-p", f"{folder}/classes", "-m", "inside/inside.Main"], {})
    return said(run, "odd 0 late 0 lost 0", "threads 2", "locks 1", "functions 1")


def write_projects(folder: str) -> None:
    """A project with two parts, which two threads of Maven can look at."""
    ids = (
        "<modelVersion>4.0.0</modelVersion>{}<artifactId>{}</artifactId><packaging>pom</packaging>"
    )
    group = "<groupId>g</groupId><version>1</version>"
    parent = f"<parent>{group}<artifactId>top</artifactId></parent>"
    modules = "<modules><module>a</module><module>b</module></modules>"
    for name, content in (
        ("", ids.format(group, "top") + modules),
        ("a", ids.format(parent, "a")),
        ("b", ids.format(parent, "b")),
    ):
        os.makedirs(os.path.join(folder, name), exist_ok=True)
        with open(os.path.join(folder, name, "pom.xml"), "w", encoding="ascii") as f:
            f.write(f"<project>{content}</project>")


def maven(room: Room, name: str, *words: str) -> Optional[str]:
    """Maven as it is, recorded; its log is one that the checker takes."""
    folder = room.folder(name)
    write_projects(folder)
    options = " ".join([f"-javaagent:{AGENT}", *QUICK])
    env = {**os.environ, "MAVEN_OPTS": options, "VELODROME_OUT": os.path.join(folder, "run")}
    done = subprocess.run(
        ["mvn", *words], env=env, cwd=folder, capture_output=True, text=True, check=False
    )
    run = Run.__new__(Run)
    run.folder, run.log, run.done = folder, os.path.join(folder, "log"), done
    if done.returncode or "Apache Maven 3" not in done.stdout + done.stderr:
        return done.stdout + done.stderr
    wrong = said(run, "odd 0", "lost 0")
    if wrong or not CHECKER:
        return wrong
    checked = subprocess.run([CHECKER, "check", run.log], capture_output=True, check=False)
    return None if checked.returncode in (0, 3) else f"check: status {checked.returncode}"


# ---- all of it
Test = Callable[[], Optional[str]]


def all_tests(room: Room) -> Dict[str, Test]:
    tests: Dict[str, Test] = {}
    for mode in MODES:
        tests[f"cases, {mode}"] = lambda m=mode: cases(room, m)
    for name, status in (("exit", 5), ("halt", 6)):
        tests[f"ends {name}"] = lambda n=name, s=status: ends(room, n, s, "threads 2", "locks 1")
    if CHECKER:
        for program in ("Mistakes", "Classics"):
            tests[f"mistakes {program}"] = lambda p=program: mistakes(room, p, "exact")
        tests["reported"] = lambda: reported(room)
    tests["ends many"] = lambda: ends(room, "many", 0, "threads 121")
    tests["ends deadlock"] = lambda: ends(
        room, "deadlock", 7, "deadlock", "thread 1 first waits for the mutex Object#"
    )
    if LONG and shutil.which("mvn"):
        validate = ("-V", "-o", "-B", "-T", "2", "validate")
        tests["maven validate"] = lambda: maven(room, "validate", *validate)
    elif shutil.which("mvn"):
        tests["maven"] = lambda: maven(room, "version", "-v")
    whole = (
        tells_names,
        killed,
        full,
        unrecorded,
        own_methods,
        interrupted,
        keeps_trace_of_stack,
        left_as_it_is,
        hidden_hooks,
        module,
    )
    for body in whole:
        tests[body.__name__] = lambda b=body: b(room)
    return tests


def outcome(body: Test) -> Optional[str]:
    try:
        return body()
    except (RuntimeError, OSError, subprocess.SubprocessError, AssertionError) as e:
        return repr(e)


def missing() -> Optional[str]:
    """The package that the tests cannot do without."""
    for program, package in (("javac", "openjdk-17-jdk-headless"), ("nm", "binutils")):
        if not shutil.which(program):
            return package
    return None if os.path.exists(LOG_MAKER) else "`make -C recorder`, for velodrome-log,"


def show(room: Room) -> None:
    for event in case_events(room, "exact"):
        begins = re.match(r"\w+ begin \w+\.[fg](, before|$)", event)
        print(("\n" if begins else "") + event)


def main() -> int:
    parser = argparse.ArgumentParser(description=__doc__)
    parser.add_argument("-k", default="")
    parser.add_argument("--show", action="store_true")
    parser.add_argument("--long", action="store_true")
    arguments = parser.parse_args()
    if package := missing():
        print(f"not run: java needs {package}")
        return 0
    if not shutil.which("mvn"):
        print("not run: java needs maven, to record it")
    if not CHECKER:
        print("not run: what the checker says needs VELODROME, its path")
    with tempfile.TemporaryDirectory() as path:
        room = Room(path)
        if arguments.show:
            show(room)
            return 0
        tests = {name: body for name, body in all_tests(room).items() if arguments.k in name}
        with concurrent.futures.ThreadPoolExecutor(AT_ONCE) as pool:
            wrong = dict(zip(tests, pool.map(outcome, tests.values())))
    failed = {name: why for name, why in wrong.items() if why is not None}
    for name, why in failed.items():
        print(f"FAILED {name}: {why}")
    print(f"{len(tests) - len(failed)} passed, {len(failed)} failed")
    return 1 if failed else 0


if __name__ == "__main__":
    sys.exit(main())
