"""Tries the second line of edits, crates/NAME/plants/*.edit: of the crates that are named, or of every crate that has some.

    python3 tools/plants.py [NAME..]
    python3 tools/plants.py --changed [BASE]

With --changed, those of each crate that differs from where this branch left BASE (origin/main). When each was last tried stands in
tools/plants.tsv, a line for each edit: crate, edit, commit, what became of it. A commit that ends in `-dirty` had changes beside it.

Edits of different functions are tried in one check of a copy of the crate, so nothing here changes, and of the edited
functions alone; an edit that no goal refuses there is tried again by itself, and then with the whole crate. The copy has the
libraries that `rt check` built here. Each edit gets a line: `refused` with
what is not proved, `only a name` where a proof file names what the edit took away, so that it says little, `BAD` where it cannot
be applied or compiled, `NOT REFUSED` where the crate is still proved. The status is 1 where one of the last two was printed.
"""
import os
import re
import shutil
import subprocess
import sys
import tempfile

from edits import TOP, parsed, trouble

RECORD = f"{TOP}/tools/plants.tsv"
PARTS = ("src", "specs", "proofs")

# What the prover says of a place, but for advice.
SAID = re.compile(r"(?:note: )?(?:\./)?((?:src|specs|proofs)/[^:\s]+):(\d+):(\d+): (.*)")
# What it says where a proof file names what is no longer there.
OF_NAMES = re.compile(r"has no field|is not in scope|has no `|was not admitted|is no name")


class Function:
    """A function of a file: its name, and its first and last line from 1."""

    def __init__(self, file, name, first, last):
        self.file, self.name, self.first, self.last = file, name, first, last

    def key(self):
        return self.file, self.name, self.first


def functions_of(file, text):
    """The functions of a file that `rt fmt` laid out, those inside others left out."""
    lines, found, after = text.splitlines(), [], 0
    for number, line in enumerate(lines):
        head = re.match(
            r"( *)(?:pub(?:\([^)]*\))? )?(?:const |unsafe |extern \"C\" )*fn (\w+)", line
        )
        if number < after or not head:
            continue
        end = next(
            (
                at
                for at in range(number, len(lines))
                if lines[at] == head[1] + "}" or at > number and lines[at] == head[1] + "{}"
            ),
            number,
        )
        found.append(Function(file, head[2], number + 1, end + 1))
        after = end + 1
    return found


def owner_of(lines, first):
    """What the prover calls the type of the method on this line, with the trait, or "" where it is no method."""
    if not lines[first - 1].startswith(" "):
        return ""
    head = next(
        (
            it
            for it in reversed(lines[: first - 1])
            if re.match(r"(unsafe )?(impl|(pub )?trait)\b", it)
        ),
        "",
    )
    parts = re.match(r"(?:unsafe |pub )*(?:impl|trait)(<.*?>)? ?(.*)", head)
    parameters = re.findall(r"\w+", parts[1] or "") if parts else []
    types = reversed(parts[2].split(" for ")) if parts else []
    return "".join(
        word for it in types for word in re.findall(r"\b[A-Z]\w*", it) if word not in parameters
    )


def path_of(file, name, first, lines):
    """The path of a function, as `rt check --only` takes it."""
    modules = [
        it for it in re.sub(r"^src/|\.rt$", "", file).split("/") if it not in ("lib", "main", "mod")
    ]
    return "::".join([*modules, *filter(None, [owner_of(lines, first)]), name])


class Edit:
    """An edit of a crate that can be applied."""

    def __init__(self, path, folder):
        self.path = path
        self.name = os.path.basename(path).removesuffix(".edit")
        self.file, self.pairs = parsed(path)
        with open(f"{folder}/{self.file}", encoding="utf-8") as source:
            text = source.read()
        functions = functions_of(self.file, text)
        lines = [text.count("\n", 0, text.index(old)) + 1 for old, _ in self.pairs if old in text]
        inside = [[it for it in functions if it.first <= line <= it.last] for line in lines]
        # an edit outside functions, or of what an earlier pair made, is tried alone
        is_alone = len(lines) < len(self.pairs) or not all(inside)
        self.functions = None if is_alone else {it.key() for its in inside for it in its}

    def apply(self, folder):
        with open(f"{folder}/{self.file}", encoding="utf-8") as source:
            text = source.read()
        for old, new in self.pairs:
            if text.count(old) != 1:
                return False
            text = text.replace(old, new)
        with open(f"{folder}/{self.file}", "w", encoding="utf-8") as source:
            source.write(text)
        return True


def batches_of(edits):
    """The edits in as few batches as it takes so that no two of one batch are of one function."""
    batches = []
    for edit in edits:
        fit = next(
            (
                it
                for it in batches
                if edit.functions
                and all(other.functions and not other.functions & edit.functions for other in it)
            ),
            None,
        )
        if fit is None:
            batches.append([edit])
        else:
            fit.append(edit)
    return batches


def told_of(said, names):
    """What was said of functions of these names and files: by their lines in src/, or the folder of their proofs."""
    found = []
    for file, line, _, text in said:
        if file.startswith("proofs/"):
            parts = os.path.dirname(file).split("/")[1:]
            is_of = any(
                parts
                and parts[-1] == name
                and "/".join(parts).startswith(re.sub(r"^src/|\.rt$", "", of))
                for of, name, _, _ in names
            )
        else:
            is_of = any(of == file and first <= int(line) <= last for of, _, first, last in names)
        if is_of:
            found.append(text)
    return found


def verdict_on(texts):
    goals = [it for it in texts if not OF_NAMES.search(it)]
    if goals:
        return "refused", goals[0][:110]
    return ("only a name", texts[0][:110]) if texts else ("", "")


class Copy:
    """A copy of the repository, with what was built of it."""

    def __init__(self):
        self.room = tempfile.mkdtemp(prefix="plants-")
        for name in ("crates.txt", "HANDLES"):
            shutil.copy2(f"{TOP}/{name}", self.room)
        shutil.copytree(
            f"{TOP}/crates",
            f"{self.room}/crates",
            ignore=shutil.ignore_patterns("out", "must-fail"),
        )
        for name in os.listdir(f"{TOP}/crates"):
            built = f"{TOP}/crates/{name}/out/rlib"
            if os.path.isdir(built):
                os.makedirs(f"{self.room}/crates/{name}/out")
                shutil.copytree(built, f"{self.room}/crates/{name}/out/rlib", copy_function=os.link)

    def restored(self, crate):
        """The folder of the crate, with its own text."""
        folder = f"{self.room}/crates/{crate}"
        for part in PARTS:
            if os.path.isdir(f"{TOP}/crates/{crate}/{part}"):
                shutil.rmtree(f"{folder}/{part}")
                shutil.copytree(f"{TOP}/crates/{crate}/{part}", f"{folder}/{part}")
        return folder

    def try_edits(self, crate, batch):
        """What a check with these edits says: its status, its places, and where the edited functions stand."""
        folder = self.restored(crate)
        applied = [it for it in batch if it.apply(folder)]
        places, paths = {}, set()
        for edit in applied:
            with open(f"{folder}/{edit.file}", encoding="utf-8") as source:
                text = source.read()
            names = {name for _, name, _ in edit.functions or ()}
            places[edit] = [
                (it.file, it.name, it.first, it.last)
                for it in functions_of(edit.file, text)
                if it.name in names
            ]
            paths |= {
                path_of(file, name, first, text.splitlines())
                for file, name, first, _ in places[edit]
            }
        is_known = all(places[it] for it in applied)
        ran = checked(folder, sorted(paths) if is_known else [])
        # a path that the prover does not know, or an edit that these functions alone do not refuse
        if paths and is_known and (ran.returncode == 2 or ran.returncode == 0 and len(batch) == 1):
            ran = checked(folder, [])
        said = [SAID.match(line).groups() for line in ran.stdout.splitlines() if SAID.match(line)]
        return ran, said, places


def checked(folder, paths):
    """What a check of the crate says, of these functions or, where none is given, of all."""
    only = [word for path in paths for word in ("--only", path)]
    return subprocess.run(
        ["rt", "check", "--jobs", "1", *only],
        cwd=folder,
        stdin=subprocess.DEVNULL,
        stdout=subprocess.PIPE,
        stderr=subprocess.STDOUT,
        errors="replace",
    )


def judged(copy, crate, batch):
    """What became of each edit of a batch."""
    ran, said, places = copy.try_edits(crate, batch)
    has_judged = (
        re.search(r"^(logic=not-proved|only=\d+ proved=)", ran.stdout, re.MULTILINE)
        or ran.returncode == 0
    )
    if len(batch) == 1:
        edit = batch[0]
        if edit not in places:
            return {edit: ("BAD", "it cannot be applied")}
        if ran.returncode == 0:
            return {edit: ("NOT REFUSED", "the crate is still proved")}
        if not has_judged:
            return {
                edit: (
                    "BAD",
                    next(
                        (line for line in ran.stdout.splitlines() if "error" in line),
                        ran.stdout[-200:],
                    )[:160],
                )
            }
        verdict = verdict_on([text for _, _, _, text in said])
        unproved = next(
            (line for line in ran.stdout.splitlines() if ": no proof" in line),
            "it says nothing of a goal",
        )
        return {edit: verdict if verdict[0] else ("BAD", unproved[:160])}
    if not has_judged:
        # one of them does not compile
        return {it: found for edit in batch for it, found in judged(copy, crate, [edit]).items()}
    found = {edit: verdict_on(told_of(said, places.get(edit, []))) for edit in batch}
    for edit in batch:
        if found[edit][0] != "refused":
            found.update(judged(copy, crate, [edit]))
    return found


def git(*words):
    return subprocess.run(
        ["git", "-C", TOP, *words], check=True, stdout=subprocess.PIPE, text=True
    ).stdout


def has_plants(crate):
    return os.path.isdir(f"{TOP}/crates/{crate}/plants")


def crates_changed(base):
    """The crates with plants that differ from where this branch left the base, with what is not committed or not known to git."""
    left = git("merge-base", base, "HEAD").strip()
    paths = git("diff", "--name-only", "--no-renames", left).splitlines()
    paths += git("ls-files", "--others", "--exclude-standard").splitlines()
    parts = [path.split("/") for path in paths]
    folders = (*PARTS, "plants")
    found = {it[1] for it in parts if it[0] == "crates" and len(it) > 3 and it[2] in folders}
    return sorted(filter(has_plants, found))


def record(crate, lines):
    """Writes down what became of the crate's plants, in the place of what stood there of this crate."""
    kept = []
    if os.path.exists(RECORD):
        with open(RECORD, encoding="utf-8") as file:
            kept = [line for line in file if line.split("\t")[0] != crate]
    commit = git("describe", "--always", "--dirty", "--exclude", "*").strip()
    tried = [f"{crate}\t{edit}\t{commit}\t{what}\n" for what, edit, _ in lines]
    with open(RECORD, "w", encoding="utf-8") as file:
        file.writelines(sorted(kept + tried))


def tried_of(copy, crate):
    """What became of each plant of the crate, its name, and why."""
    folder = f"{TOP}/crates/{crate}"
    paths = sorted(
        f"{folder}/plants/{it}" for it in os.listdir(f"{folder}/plants") if it.endswith(".edit")
    )
    bad = {it: trouble(it) for it in paths}
    lines = [
        ("BAD", os.path.basename(it).removesuffix(".edit"), why) for it, why in bad.items() if why
    ]
    for batch in batches_of([Edit(it, folder) for it in paths if not bad[it]]):
        found = judged(copy, crate, batch)
        lines += [(what, edit.name, why) for edit, (what, why) in found.items()]
    copy.restored(crate)
    return lines


def crates_asked_for(words):
    """The crates whose plants are to be tried, by the words of the command line."""
    if words[:1] == ["--changed"]:
        return crates_changed((words[1:] or ["origin/main"])[0])
    return words or sorted(filter(has_plants, os.listdir(f"{TOP}/crates")))


def main():
    try:
        names = crates_asked_for(sys.argv[1:])
    except subprocess.CalledProcessError as error:
        return error.returncode
    unknown = [it for it in names if not has_plants(it)]
    if unknown:
        print(f"plants: crates/{unknown[0]} has no folder plants", file=sys.stderr)
        return 2
    copy, counts = Copy(), {}
    try:
        for crate in names:
            lines = tried_of(copy, crate)
            record(crate, lines)
            for what, edit, why in lines:
                counts[what] = counts.get(what, 0) + 1
                print(f"{crate}/{edit}: {what}: {why}", flush=True)
    finally:
        shutil.rmtree(copy.room, ignore_errors=True)
    print(", ".join(f"{count} {what}" for what, count in sorted(counts.items())) or "none to try")
    return 1 if counts.get("BAD") or counts.get("NOT REFUSED") else 0


if __name__ == "__main__":
    sys.exit(main())
