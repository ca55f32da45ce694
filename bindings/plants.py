"""plants.py [WORD..]: puts faults of earlier bindings back, one at a time, in a copy: each test that is named must fail then.

It builds over the library that `tools/bindings.sh` takes with --built. With words (such as `rust`, or `fork`) it takes the
faults and tests that have one of them. A test that does not end in a minute has failed: it hangs. First the tests are run
without a fault, and must pass. The last line is `N refused, N passed`; the status is 1 where a test passed, or an edit does not
fit.
"""
from __future__ import annotations

import os
import pathlib
import re
import shutil
import subprocess
import sys
import tempfile
import typing

HERE = pathlib.Path(__file__).resolve().parent
SESSION, HPP = "session/session.c", "cpp/velodrome.hpp"
PYTHON, EXTENSION = "python/src/velodrome/__init__.py", "python/src/_session.c"


class Plant(typing.NamedTuple):
    fault: str
    file: str
    edits: list[tuple[str, str]]
    tests: dict[str, list[str]]


PLANTS = [
    Plant(
        "threads of two monitors are one",
        SESSION,
        [
            ("if (me->seat[i].id == id)", "if (me->seat[i].id)"),
            ("child.who = ++s->born;", "child.who = s->born = s->born ? s->born + 1 : 2;"),
        ],
        {"cpp": ["a_thread_of_another_session_is_itself"]},
    ),
    Plant(
        "a stranger is the opener",
        SESSION,
        [
            ("new_seat(me, s, s->born + 1)", "new_seat(me, s, 1)"),
        ],
        {
            "cpp": ["threads_of_two_sessions_have_their_own_numbers"],
            "session": ["close_waits_for_the_hook"],
            "python": ["test_a_stranger_is_never_the_opener"],
        },
    ),
    Plant(
        "tasks of asyncio are one thread",
        SESSION,
        [
            ("return mine.acting ? mine.acting : &mine.itself;", "return &mine.itself;"),
        ],
        {"session": ["tasks_are_themselves"], "python": ["test_lost_update_between_tasks"]},
    ),
    Plant(
        "a block of a generator is of its runner",
        EXTENSION,
        [
            (
                "suspends = c && c->suspends && !through;",
                "suspends = false;",
            ),
        ],
        {"python": ["test_a_block_of_a_suspended_generator_is_no_block_of_its_consumer"]},
    ),
    Plant(
        "a block of a context manager is of its generator",
        EXTENSION,
        [
            (
                "through = o && o->enters;",
                "(void)o;",
            ),
        ],
        {"python": ["test_a_context_managers_block_is_of_its_with_statement"]},
    ),
    Plant(
        "tasks are one thread",
        EXTENSION,
        [
            (
                "PyObject *object = task_here();",
                "PyObject *object = NULL;",
            ),
        ],
        {"python": ["test_lost_update_between_tasks", "test_a_task_that_is_collected"]},
    ),
    Plant(
        "futures are one thread",
        "rust/velodrome/src/session.rs",
        [
            (
                "let _before = Before(unsafe { sys::vs_switch(self.0) });",
                "let _before = Before(null_mut());",
            ),
        ],
        {"rust": ["futures_of_one_thread"]},
    ),
    Plant(
        "instances that share their dict are two",
        EXTENSION,
        [
            (
                "bool shared = Py_REFCNT(dict) > 2;",
                "bool shared = false;",
            ),
        ],
        {"python": ["test_instances_that_share_their_dict"]},
    ),
    Plant(
        "the locks of the standard library are the program's",
        EXTENSION,
        [
            (
                "bool is = c && c->library;",
                "bool is = false;",
            ),
        ],
        {"python": ["test_locks_of_the_library"]},
    ),
    Plant(
        "nothing was recorded, and it is clean",
        SESSION,
        [
            (
                "else if (over && !s->earlier && !s->events)",
                "else if (false)",
            ),
        ],
        {
            "rust": ["a_run_of_which_nothing_is_recorded"],
            "python": ["test_nothing_was_recorded"],
        },
    ),
    Plant(
        "two objects of a name are one",
        SESSION,
        [
            (
                "if (!w || !add_name(s, &s->variable, w, ++w->met[0])) {",
                "for (uint32_t i = 0; w && i < s->variable.count; i++)\n"
                "    if (s->variable.at[i].word == (uint32_t)(w - s->words)) return claim(s, o, tag, i) ? i : NOT_TOLD;\n"
                "if (!w || !add_name(s, &s->variable, w, ++w->met[0])) {",
            ),
        ],
        {
            "cpp": ["two_objects_of_one_name_are_two"],
            "rust": ["two_objects_of_a_name_are_two"],
            "python": ["test_instances_are_their_own"],
        },
    ),
    Plant(
        "a stranger is thread 0",
        SESSION,
        [
            ("if (me->seat[i].id == id)", "if (me->seat[i].in == slot_of(id))"),
        ],
        {"rust": ["who_opened_an_earlier_session_is_another_thread"]},
    ),
    Plant(
        "numbers are cut: limits",
        "c/velodrome.c",
        [
            (
                "or_default(asked->variables, VELODROME_MAX_VARIABLES)",
                "(uint16_t)or_default(asked->variables, VELODROME_MAX_VARIABLES)",
            ),
        ],
        {"calls": [""]},
    ),
    Plant(
        "numbers are cut: threads",
        "c/velodrome.c",
        [
            (
                "velo_read(monitor, thread, variable, TOLD)",
                "velo_read(monitor, (uint8_t)thread, variable, TOLD)",
            ),
        ],
        {"calls": [""]},
    ),
    Plant(
        "numbers are cut: objects",
        SESSION,
        [
            ("make_room(s, s->variable.count, s->variables);", "(void)s;"),
            ("    if (s->variable.count >= s->variables) {", "    if (false) {"),
            (
                "? number_in(tag) : new_variable(s, o, tag, place);",
                "? (uint16_t)number_in(tag) : (uint16_t)new_variable(s, o, tag, place);",
            ),
        ],
        {"cpp": ["more_objects_than_numbers"]},
    ),
    Plant(
        "numbers are cut: options",
        EXTENSION,
        [
            (
                'if (!number_of(events, "events", 16777216, &e) ||',
                "e = PyLong_AsUnsignedLongLongMask(events);\n    if (PyErr_Occurred() ||",
            ),
        ],
        {"python": ["test_numbers_are_not_cut"]},
    ),
    Plant(
        "a block of a coroutine is empty",
        PYTHON,
        [
            ("if inspect.iscoroutinefunction(function):", "if False:"),
        ],
        {"python": ["test_a_decorated_coroutine_is_a_block_of_its_task"]},
    ),
    Plant(
        "a block of a generator is empty",
        PYTHON,
        [
            (
                "if inspect.isgeneratorfunction(function) or inspect.isasyncgenfunction(function):",
                "if False:",
            ),
        ],
        {"python": ["test_generators_are_refused"]},
    ),
    Plant(
        "a block that ends at once, without a warning",
        HPP,
        [
            (
                "class [[nodiscard]] atomic_block {\npublic:\n    [[nodiscard]] explicit",
                "class atomic_block {\npublic:\n    explicit",
            ),
        ],
        {"discarded": [""]},
    ),
    Plant(
        "a block that ends at once, without a warning",
        "rust/velodrome/src/lib.rs",
        [
            ('#[must_use = "the block ends where this is dropped: `let _block = ..`"]\n', ""),
        ],
        {"rustdoc": ["Block"]},
    ),
    Plant(
        "a thread that is met in a block is its child",
        SESSION,
        [
            (
                "return number ? number : enrol(s, 0, who, NULL);",
                "return number ? number : enrol(s, s->threads > 1 ? 1 : 0, who, NULL);",
            ),
        ],
        {
            "session": ["a_thread_met_in_a_block_is_no_child_of_it"],
            "cpp": ["a_thread_met_in_a_block_is_no_child_of_it"],
            "rust": ["a_thread_met_in_a_block_is_no_child_of_it"],
            "python": ["test_a_thread_met_in_a_block_is_no_child_of_it"],
        },
    ),
    Plant(
        "a refused write is written, and told as not",
        SESSION,
        [
            (
                '        stop(s, "%s", reason(status));\n        return false;',
                "        return false;",
            ),
            (
                '        stop(s, "%s", reason(VELODROME_LOG_FULL));',
                "        end_recording(s);",
            ),
        ],
        {
            "session": ["a_full_log_is_told_and_nothing_else"],
            "cpp": ["locks_work_where_nothing_is_told"],
            "rust": ["a_full_log_changes_nothing"],
            "python": ["test_a_full_log"],
        },
    ),
    Plant(
        "a guard ends the process",
        HPP,
        [
            (
                "            vs_end_block(block_);",
                "            vs_end_block(block_);\n        if (vs_so_far(vs_current()) == VS_INCOMPLETE) throw 1;",
            ),
        ],
        {"cpp": ["a_block_that_is_too_long", "a_thread_full_of_events_ends"]},
    ),
    Plant(
        "a guard of a lock ends the process",
        HPP,
        [
            (
                "tell(object_, VS_RELEASE, at);\n        inner_.unlock();",
                "tell(object_, VS_RELEASE, at);\n"
                "        inner_.unlock();\n"
                "        if (vs_so_far(vs_current()) == VS_INCOMPLETE) throw 1;",
            ),
        ],
        {"cpp": ["a_block_that_is_too_long"]},
    ),
    Plant(
        "a refused lock stays locked",
        HPP,
        [
            (
                "tell(object_, VS_RELEASE, at);\n        inner_.unlock();",
                "tell(object_, VS_RELEASE, at);\n        if (vs_so_far(vs_current()) != VS_INCOMPLETE) inner_.unlock();",
            ),
        ],
        {"cpp": ["locks_work_where_nothing_is_told", "a_block_that_is_too_long"]},
    ),
    Plant(
        "a refused lock stays locked",
        EXTENSION,
        [
            (
                "    lock_given(self, 1);\n    return PyObject_CallObject(self->release, NULL);",
                "    lock_given(self, 1);\n"
                "    if (vs_so_far(vs_current()) == VS_INCOMPLETE) Py_RETURN_NONE;\n"
                "    return PyObject_CallObject(self->release, NULL);",
            ),
        ],
        {"python": ["test_a_full_log"]},
    ),
    Plant(
        "a refused release poisons",
        "rust/velodrome/src/sync/mod.rs",
        [
            (
                "self.object.tell_unplaced(self.release);",
                "self.object.tell_unplaced(self.release);\n"
                "        // SAFETY: numbers alone.\n"
                "        assert!(unsafe { velodrome_sys::vs_recording.load(std::sync::atomic::Ordering::SeqCst) } > 0);",
            ),
        ],
        {"rust": ["a_refused_release_poisons_nothing"]},
    ),
    Plant(
        "a long program ends at its log's limit",
        SESSION,
        [
            (
                "    if (!held)\n        return;",
                "    if (true)\n        return;",
            ),
        ],
        {
            "long": ["", "lost"],
            "cpp": ["a_long_run", "a_long_run_with_locks_held_throughout"],
            "rust": ["a_long_program_ends_with_a_verdict"],
            "python": ["test_a_long_program"],
        },
    ),
    Plant(
        "a cut where a block is open",
        SESSION,
        [
            ("    if (!s->open)\n        renew(s);\n    else if (", "    renew(s);\n    if ("),
        ],
        {"fuzz": ["2000"]},
    ),
    Plant(
        "a cut forgets the locks that are held",
        SESSION,
        [
            (
                "        if (!is_held(h)) {\n",
                "        *h = (hold){0};\n        if (!is_held(h)) {\n",
            ),
        ],
        {"fuzz": ["2000"], "cpp": ["an_alarm_through_a_lock_that_was_held_across_a_cut"]},
    ),
    Plant(
        "a child of fork(2) hangs",
        SESSION,
        [
            ("pthread_atfork(NULL, NULL, child_of_fork) == 0", "true"),
        ],
        {
            "session": ["a_child_of_fork_is_on_its_own"],
            "cpp": ["children_of_fork", "a_fork_within_an_access"],
            "python": ["test_children_of_fork"],
        },
    ),
    Plant(
        "code of the program under the lock",
        SESSION,
        [
            (
                "    if (!is_keeper(s)) {\n        if (!try_lock",
                "    if (true) {\n        if (!try_lock",
            ),
        ],
        {"cpp": ["accesses_within_accesses"]},
    ),
    Plant(
        "code of the program under the lock",
        "rust/velodrome/src/cell.rs",
        [
            (
                "self.with(T::clone)",
                "let hold = self.object.hold();\n        let value = self.with(T::clone);\n        drop(hold);\n        value",
            ),
        ],
        {"rust": ["clone_and_drop_of_the_program_run_without_the_session"]},
    ),
    Plant(
        "code of the program under the lock",
        EXTENSION,
        [
            (
                "    tell(&self->object, VS_WRITE);\n"
                "    PyObject *old = self->value;\n"
                "    self->value = value;\n"
                "    Py_XDECREF(old); /* code of the program may run here */",
                "    unsigned token = vs_before(&self->object, VS_WRITE);\n"
                "    PyObject *old = self->value;\n"
                "    self->value = value;\n"
                "    Py_XDECREF(old);\n"
                "    vs_after(token);",
            ),
        ],
        {"python": ["test_destructors_of_the_program"]},
    ),
    Plant(
        "a second open in a thread",
        SESSION,
        [
            (
                "self()->current = s->outer;",
                "self()->current = 0;",
            ),
        ],
        {"session": ["sessions_nest"], "rust": ["two_runs_of_one_thread"]},
    ),
    Plant(
        "a second open in a thread: for all",
        SESSION,
        [
            (
                "self()->current = s->outer;",
                "self()->current = 0;",
            ),
            (
                "atomic_compare_exchange_strong(&everywhere, &all, s->outer_everywhere);",
                "atomic_compare_exchange_strong(&everywhere, &all, 0);",
            ),
        ],
        {"python": ["test_sessions_nest"]},
    ),
    Plant(
        "a second open in a thread: who it is",
        SESSION,
        [
            (
                "    self()->current = s->id;\n    return s->id;",
                "    self()->current = s->id;\n    self()->seat[0].id = 0;\n    return s->id;",
            ),
        ],
        {"cpp": ["a_thread_that_opens_a_session_stays_who_it_is"]},
    ),
    Plant(
        "the 64th thread ever",
        SESSION,
        [
            (
                "    if (!s->open)\n        renew(s);\n    else\n",
                "    if (s->open)\n",
            ),
            (
                "        if (s->recording && s->crowded && !s->open)\n            renew(s);\n",
                "",
            ),
            ("s->threads >= REUSED_FROM; i++)", "false; i++)"),
        ],
        {
            "long": [""],
            "cpp": ["hundreds_of_threads", "more_objects_than_numbers"],
            "rust": ["many_threads_and_variables_one_after_another"],
            "python": ["test_many_threads_one_after_another"],
        },
    ),
    Plant(
        "the body's exception is replaced",
        EXTENSION,
        [
            (
                "        self->unseen--;\n    Py_RETURN_NONE;",
                "        self->unseen--;\n"
                '    if (vs_so_far(vs_current()) == VS_INCOMPLETE) return PyErr_SetString(PyExc_RuntimeError, "refused"), '
                "NULL;\n"
                "    Py_RETURN_NONE;",
            ),
        ],
        {"python": ["test_the_bodys_exception_is_the_programs"]},
    ),
    Plant(
        "the body's exception is replaced",
        "rust/velodrome/src/lib.rs",
        [
            (
                "                note(&end);\n                resume_unwind(payload)",
                '                drop(payload);\n                panic!("{}", end.report)',
            ),
        ],
        {"rust": ["the_bodys_panic_goes_on"]},
    ),
    Plant(
        "the body's exception is replaced",
        "rust/velodrome/src/lib.rs",
        [
            (
                "        let value = body();",
                '        let value = catch_unwind(AssertUnwindSafe(body)).unwrap_or_else(|_| panic!("refused"));',
            ),
        ],
        {"rust": ["a_panic_is_the_programs_own"]},
    ),
    Plant(
        "what nobody closes stays for ever",
        PYTHON,
        [
            ("    def __del__(self) -> None:\n        self.close()\n", ""),
        ],
        {"python": ["test_sessions_that_nobody_closes"]},
    ),
    Plant(
        "what nobody closes stays for ever",
        "rust/velodrome/src/session.rs",
        [
            (
                "        if self.number != 0 {\n            // SAFETY: a report is not asked for.",
                "        if self.number == 1 {\n            // SAFETY: a report is not asked for.",
            ),
        ],
        {"rust": ["runs_that_panic_are_closed"]},
    ),
    Plant(
        "a lock that is read twice",
        SESSION,
        [
            (
                "    if (own) {\n        own->times++;\n",
                "    if (own && !own->times) {\n        own->times++;\n",
            ),
        ],
        {"cpp": ["the_outermost_share_counts"], "rust": ["a_lock_that_is_read_twice"]},
    ),
    Plant(
        "an uninitialised handle",
        "c/velodrome.c",
        [
            ("    *monitor = NULL;\n", "    velodrome_close(*monitor);\n    *monitor = NULL;\n"),
        ],
        {"calls": [""]},
    ),
    Plant(
        "what a thread raised is lost",
        PYTHON,
        [
            (
                "    try:\n        body()\n    finally:\n        _session.exit(*child)",
                "    with contextlib.suppress(Exception):\n        body()\n    _session.exit(*child)",
            ),
        ],
        {"python": ["test_a_thread_that_raises"]},
    ),
    Plant(
        "the alarm is told to nobody",
        SESSION,
        [
            (
                "finding *found = s->hook ? calloc(1, sizeof *found) : NULL;",
                "finding *found = NULL;",
            ),
        ],
        {"session": ["close_waits_for_the_hook"], "cpp": ["the_hook_gets_both_sides"]},
    ),
    Plant(
        "names that spoil their file",
        SESSION,
        [
            ("        if (*c < 32 || *c == 127)\n", "        if (false)\n"),
        ],
        {"cpp": ["names_of_any_kind"], "python": ["test_names_of_all_kinds"]},
    ),
    Plant(
        "the number of a held lock is given again",
        SESSION,
        [
            ("    s->lock.at[c->lock] = (named){(uint32_t)(w - s->words), c->nth};\n", ""),
        ],
        {"session": ["a_held_lock_keeps_its_number"]},
    ),
    Plant(
        "a block ends by nesting alone",
        SESSION,
        [
            ("    if (block.who == me->id)\n", "    if (true)\n"),
            (
                "        end_own(me, block.nth);",
                "        (void)end_own, me->depth ? end_from(me, me->depth - 1) : (void)0;",
            ),
        ],
        {"session": ["an_end_of_anothers_block_is_not_that_of_ones_own"]},
    ),
    Plant(
        "a block outlives its session",
        SESSION,
        [
            ("b->since < t->since ? IGNORED :", "false ? IGNORED :"),
            ("        forget_old(me, since);", "        (void)forget_old;"),
        ],
        {
            "session": ["a_jump_out_of_a_block"],
            "rust": ["a_forgotten_block_ends_with_its_run"],
        },
    ),
    Plant(
        "tries of std::lock are events",
        SESSION,
        [
            ("i >= 0 && me->tried; i--)", "i >= 0 && false; i--)"),
        ],
        {"session": ["tries_that_back_off_are_no_events"]},
    ),
    Plant(
        "a copy under the session's lock",
        HPP,
        [
            (
                "is_copied_in_hold = std::is_trivially_copyable_v<T>;",
                "is_copied_in_hold = true;",
            ),
        ],
        {"cpp": ["a_copy_may_wait_for_another_thread"]},
    ),
    Plant(
        "nobody waits for room",
        SESSION,
        [
            ("    if (!s->crowded || (t && t->told))\n", "    if (true)\n"),
        ],
        {"session": ["who_is_crowded_waits"]},
    ),
    Plant(
        "a setting that means nothing is not told",
        SESSION,
        [
            ("        any |= is_wrong(i);", "        (void)is_wrong;"),
        ],
        {
            "session": ["wrong_settings_are_told"],
            "cpp": ["settings_of_the_environment"],
        },
    ),
    Plant(
        "the report is not asked",
        SESSION,
        [
            ("        put_finding(text, log);", "        (void)put_finding;"),
        ],
        {"session": ["an_alarm_is_told_by_the_report"]},
    ),
    Plant(
        "a place in the library is told",
        SESSION,
        [
            ("is_of_library(path), path};", "false, path};"),
        ],
        {"cpp": ["calls_of_locks_have_their_place"]},
    ),
    Plant(
        "one lock hides schedules",
        SESSION,
        [
            ("if (drawn % noise == 0)", "if (drawn % noise == noise)"),
        ],
        {"python": ["test_noise_lets_others_run"]},
    ),
]


def call(*words: object, cwd: pathlib.Path | None = None, **environment: str) -> bool:
    """Whether it ends with status 0 within a minute."""
    how = {
        "stdout": subprocess.DEVNULL,
        "stderr": subprocess.DEVNULL,
        "cwd": cwd,
        "env": {**os.environ, **environment},
    }
    try:
        return subprocess.run(list(map(str, words)), timeout=60, **how).returncode == 0
    except subprocess.TimeoutExpired:
        return False


def build(*words: object) -> None:
    subprocess.run(list(map(str, words)), check=True, stdout=subprocess.DEVNULL)


class Copy:
    """The bindings with the edits of a fault, in a folder. Its methods run a test, and tell whether it passes."""

    def __init__(self, folder: pathlib.Path, plant: Plant) -> None:
        self.top, self.archive = folder, folder / "libvelodrome.a"
        self.includes = [f"-I{folder / name}" for name in ("c", "session", "cpp")]
        shutil.copytree(HERE, folder, ignore=shutil.ignore_patterns("out", "target", "__pycache__"))
        text = (folder / plant.file).read_text()
        for old, new in plant.edits:
            if text.count(old) != 1:
                raise SystemExit(
                    f"{plant.fault}: this stands {text.count(old)} times in {plant.file}: {old}"
                )
            text = text.replace(old, new)
        (folder / plant.file).write_text(text)
        self.build_archive()

    def build_archive(self) -> None:
        """As tools/bindings.sh does."""
        shell, layer, whole = (self.top / name for name in ("velodrome.o", "session.o", "calls.o"))
        for source, to in (("c/velodrome.c", shell), (SESSION, layer)):
            build(
                "gcc",
                "-std=gnu11",
                "-O1",
                "-fPIC",
                *self.includes,
                "-c",
                self.top / source,
                "-o",
                to,
            )
        kit = pathlib.Path(shutil.which("rt") or "").resolve().parent.parent
        calls = (
            os.environ.get("VELODROME_CALLS") or HERE.parent / "crates/velo_ffi/out/libvelo_ffi.a"
        )
        build(
            "ld",
            "-r",
            "-o",
            whole,
            shell,
            "--whole-archive",
            calls,
            "--no-whole-archive",
            kit / "c/liblibc_c.a",
        )
        build("objcopy", "-w", "--keep-global-symbol=velodrome_*", whole)
        build("ar", "rcs", self.archive, whole, layer)

    def c_program(self, source: str) -> pathlib.Path:
        program = self.top / "c_program"
        build(
            "gcc",
            "-std=gnu11",
            "-O1",
            *self.includes,
            "-pthread",
            "-o",
            program,
            self.top / source,
            self.archive,
        )
        return program

    def session(self, test: str) -> bool:
        """All of its tests are run, one after another: this one says nothing before the next begins."""
        try:
            said = subprocess.run(
                [self.c_program("session/test.c")], timeout=60, capture_output=True, text=True
            ).stdout
        except subprocess.TimeoutExpired as stuck:
            return (stuck.stdout or b"").decode().split()[-1:] != [test]
        lines = said.split("\n")
        following = lines[lines.index(test) + 1]
        return following != "" and not following.startswith("    line")

    def long(self, word: str) -> bool:
        return call(self.c_program("session/long.c"), *word.split())

    def fuzz(self, runs: str) -> bool:
        return call(self.c_program("session/fuzz.c"), runs)

    def calls(self, _: str) -> bool:
        return call(self.c_program("c/test.c"), self.top / "c/data")

    def cpp(self, test: str) -> bool:
        program = self.top / "cpp_program"
        if not program.exists():
            source = self.top / "cpp/test.cpp"
            build(
                "g++",
                "-std=c++17",
                "-O0",
                "-w",
                *self.includes,
                "-pthread",
                "-o",
                program,
                source,
                self.archive,
            )
        return call(program, test, cwd=self.top)

    def discarded(self, _: str) -> bool:
        """Passes where the compiler warns of it."""
        source = self.top / "cpp/discarded.cpp"
        return not call(
            "g++", "-std=c++17", "-Wall", "-Werror", *self.includes, "-c", "-o", os.devnull, source
        )

    def cargo(self, *words: str) -> bool:
        crate = ("--manifest-path", self.top / "rust/Cargo.toml", "-p", "velodrome")
        folders = {"VELODROME_LIB_DIR": str(self.top), "CARGO_TARGET_DIR": str(scratch / "cargo")}
        return call("cargo", "test", "--offline", "--quiet", *crate, *words, **folders)

    def rust(self, test: str) -> bool:
        programs = [word for name in ("host", "verdict", "attributes") for word in ("--test", name)]
        if not any(self.cargo("--no-run", *programs) for _ in range(3)):
            raise SystemExit("the crates do not build")
        return self.cargo(*programs, test, "--", "--exact")

    def rustdoc(self, words: str) -> bool:
        return self.cargo("--doc", words)

    def python(self, test: str) -> bool:
        package = self.top / "python/src/velodrome"
        if not (package / "_session.abi3.so").exists():
            sys.path.insert(0, str(HERE / "python"))
            import make_wheel

            make_wheel.HERE = self.top / "python"
            make_wheel.compile_extension(self.archive, package)
        path = {"PYTHONPATH": str(package.parent), "PYTHONDONTWRITEBYTECODE": "1"}
        return call(
            sys.executable,
            self.top / "python/tests/test_velodrome.py",
            "-k",
            test,
            cwd=self.top,
            **path,
        )


def chosen(words: list[str]) -> typing.Iterator[tuple[Plant, list[tuple[str, str]]]]:
    """The faults with those of their tests that have one of the words; without words all."""
    for plant in PLANTS:
        tests = [(language, test) for language, names in plant.tests.items() for test in names]
        wanted = [
            t
            for t in tests
            if not words or any(re.search(w, f'{plant.fault}: {" ".join(t)}') for w in words)
        ]
        if wanted:
            yield plant, wanted


def fail_as_they_are(tests: set[tuple[str, str]]) -> list[str]:
    """The tests that fail without a fault, so that they say nothing of one."""
    copy = Copy(scratch / "sound", Plant("none", SESSION, [], {}))
    return [" ".join(test) for test in sorted(tests) if not getattr(copy, test[0])(test[1])]


def main(words: list[str]) -> int:
    faults = list(chosen(words))
    if failing := fail_as_they_are({test for _, tests in faults for test in tests}):
        raise SystemExit(f'these fail as they are: {", ".join(failing)}')
    refused = passed = 0
    for number, (plant, tests) in enumerate(faults):
        copy = Copy(scratch / str(number), plant)
        for language, test in tests:
            passes = getattr(copy, language)(test)
            refused, passed = refused + (not passes), passed + passes
            print(
                "PASSED " if passes else "refused",
                f"{plant.fault}: {language} {test}".rstrip(),
                flush=True,
            )
        shutil.rmtree(copy.top)
    print(f"{refused} refused, {passed} passed")
    return 1 if passed or not refused else 0


if __name__ == "__main__":
    with tempfile.TemporaryDirectory() as folder:
        scratch, sys.dont_write_bytecode = pathlib.Path(folder), True
        sys.exit(main(sys.argv[1:]))
