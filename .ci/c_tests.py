#!/usr/bin/env python3
"""Tests of the C library.

BuildTests: of c/build.sh, of the Rust example's build script and of the Python module's wheel, with small stand-ins for the proved library and for
the kit. What is tried is how archive and shared library are made and found: by which folders, by which words for the compiler, with which names in
them. The stand-in for the proved library has a service of no use, whose calls all answer 0.

InterfaceTests: of the library itself, by programs in C and in Rust, and by the Python module's own tests. `rt ci` proves crates/wakhurmi_c and
leaves no archive, so it is proved once more, over the libraries that the gate has built. Where a kit's gate leaves none, or without a gate before,
these are proved too, as the launchers prove: in some 25 minutes on four processors.
"""

import os
import pathlib
import re
import shlex
import shutil
import subprocess
import sys
import tempfile
import unittest
from typing import Dict, List

TOP = pathlib.Path(__file__).resolve().parent.parent
IN_C, IN_RUST, IN_PYTHON = (TOP / "examples" / f"embedding-in-{language}" for language in ("c", "rust", "python"))
PLAN_IN_C = TOP / "examples/plan-in-c"
MODULE = TOP / "python"
# The program that the gate has built.
LEASES = TOP / "crates/leases/out/leases"

# By these a program's own functions are called in place of the system's.
WRAPS = [f"-Wl,--wrap={name}" for name in ("malloc", "realloc", "calloc", "aligned_alloc")]

# It uses the kit's three functions, as the proved library does.
PROVED = """
#include <stdbool.h>
#include <stddef.h>
#include <stdint.h>
typedef struct { void *at; bool full; } handle;
typedef struct { uint32_t answer; bool wakes; } told;
void *rattle_alloc(size_t size);
void *rattle_realloc(void *at, size_t size);
void rattle_dealloc(void *at);
static told done(void) { return (told){0, false}; }
uint32_t wakhurmi_c_open(uint32_t most, uint32_t locks, bool all, handle *workers, size_t count) {
    (void)most, (void)locks, (void)all;
    for (size_t worker = 0; worker < count; worker++) workers[worker] = (handle){rattle_realloc(rattle_alloc(8), 16), true};
    return 0;
}
told wakhurmi_c_take(handle *worker, const uint32_t *locks, size_t count) { (void)worker, (void)locks, (void)count; return done(); }
told wakhurmi_c_try_take(handle *worker, const uint32_t *locks, size_t count) { return wakhurmi_c_take(worker, locks, count); }
told wakhurmi_c_take_uses(handle *worker, const uint32_t *maxima, size_t of, const uint32_t *services, size_t count) {
    (void)maxima, (void)of;
    return wakhurmi_c_take(worker, services, count);
}
told wakhurmi_c_try_take_uses(handle *worker, const uint32_t *maxima, size_t of, const uint32_t *services, size_t count) {
    return wakhurmi_c_take_uses(worker, maxima, of, services, count);
}
told wakhurmi_c_hand_back(handle *worker) { (void)worker; return done(); }
told wakhurmi_c_enter(handle *worker) { (void)worker; return done(); }
told wakhurmi_c_leave(handle *worker) { (void)worker; return done(); }
uint32_t wakhurmi_c_stop(handle *worker) { (void)worker; return 0; }
uint32_t wakhurmi_c_leases_out(handle *worker, uint32_t *leases) { (void)worker; *leases = 0; return 0; }
uint32_t wakhurmi_c_parked(handle *worker, size_t place, uint32_t *lock) { (void)worker, (void)place, (void)lock; return 6; }
uint32_t wakhurmi_c_close(handle *worker) { rattle_dealloc(worker->at); return 0; }
uint32_t wakhurmi_c_finish(handle *workers, size_t count, handle *book) {
    for (size_t worker = 1; worker < count; worker++) wakhurmi_c_close(&workers[worker]);
    *book = workers[0];
    for (size_t worker = 0; worker < count; worker++) workers[worker] = (handle){0};
    return 0;
}
uint32_t wakhurmi_c_history(handle *book, uint64_t part, uint8_t *buffer, size_t size, size_t *written) {
    (void)book, (void)part, (void)buffer, (void)size;
    *written = 0;
    return 0;
}
uint32_t wakhurmi_c_close_book(handle *book) { return wakhurmi_c_close(book); }
uint32_t wakhurmi_c_take_history(handle *worker, handle *part) { (void)worker, (void)part; return 0; }
uint32_t wakhurmi_c_part(handle *part, uint64_t line, uint8_t *buffer, size_t size, size_t *written) {
    return wakhurmi_c_history(part, line, buffer, size, written);
}
uint32_t wakhurmi_c_empty_part(handle *part) { (void)part; return 0; }
uint32_t wakhurmi_c_close_part(handle *part) { (void)part; return 0; }
typedef struct { uint32_t answer, wakes, wakes_too; bool wakes_all, wakes_takers; } plan_told;
static plan_told told_nobody(void) { return (plan_told){0, UINT32_MAX, UINT32_MAX, false, false}; }
uint32_t wakhurmi_c_make_plan(handle *plan, uint32_t locks) { (void)locks; *plan = (handle){rattle_alloc(8), true}; return 0; }
uint32_t wakhurmi_c_plan_task(handle *plan, uint32_t lock, uint32_t *task) { (void)plan, (void)lock; *task = 0; return 0; }
uint32_t wakhurmi_c_plan_after(handle *plan, uint32_t task, const uint32_t *before, size_t count) {
    (void)plan, (void)task, (void)before, (void)count;
    return 0;
}
uint32_t wakhurmi_c_plan_action(handle *plan, uint32_t task, uint32_t retention, uint32_t items, bool fetch) {
    (void)plan, (void)task, (void)retention, (void)items, (void)fetch;
    return 0;
}
uint32_t wakhurmi_c_close_plan(handle *plan) { rattle_dealloc(plan->at); return 0; }
uint32_t wakhurmi_c_open_plan(handle *plan, uint32_t most, handle *workers, size_t count) {
    (void)plan;
    return wakhurmi_c_open(most, 0, false, workers, count);
}
plan_told wakhurmi_c_next(handle *worker, bool sleeps, void *work) { (void)worker, (void)sleeps, (void)work; return told_nobody(); }
plan_told wakhurmi_c_done(handle *worker, bool sleeps, bool passed, uint64_t number) {
    (void)worker, (void)sleeps, (void)passed, (void)number;
    return told_nobody();
}
plan_told wakhurmi_c_done_next(handle *worker, bool sleeps, bool passed, uint64_t number, void *work) {
    (void)work;
    return wakhurmi_c_done(worker, sleeps, passed, number);
}
plan_told wakhurmi_c_plan_enter(handle *worker) { (void)worker; return told_nobody(); }
plan_told wakhurmi_c_plan_leave(handle *worker, bool sleeps) { (void)worker, (void)sleeps; return told_nobody(); }
uint32_t wakhurmi_c_plan_stop(handle *worker) { (void)worker; return 0; }
plan_told wakhurmi_c_plan_leases_out(handle *worker, uint32_t *leases) { (void)worker; *leases = 0; return told_nobody(); }
uint32_t wakhurmi_c_plan_close(handle *worker) { return wakhurmi_c_close(worker); }
uint32_t wakhurmi_c_plan_finish(handle *workers, size_t count, handle *book) { return wakhurmi_c_finish(workers, count, book); }
uint32_t wakhurmi_c_task_outcome(handle *book, uint32_t task, void *outcome) { (void)book, (void)task, (void)outcome; return 6; }
uint32_t wakhurmi_c_item_outcome(handle *book, uint32_t task, uint32_t action, uint32_t item, void *outcome) {
    (void)book, (void)task, (void)action, (void)item, (void)outcome;
    return 6;
}
"""

KIT = """
#include <stdlib.h>
void *rattle_alloc(size_t size) { return malloc(size); }
void *rattle_realloc(void *at, size_t size) { return realloc(at, size); }
void rattle_dealloc(void *at) { free(at); }
"""

# It has functions of the kit's names too, as where two libraries of the kit are linked.
PROGRAM = """
#include <wakhurmi.h>
void *rattle_alloc(size_t size) { (void)size; return 0; }
void *rattle_realloc(void *at, size_t size) { (void)size; return at; }
void rattle_dealloc(void *at) { (void)at; }
int main(void) {
    wakhurmi_service *service;
    if (wakhurmi_open(2, 1, 1, &service) != WAKHURMI_OK) return 1;
    if (wakhurmi_take(service, 1, 0, 0) != WAKHURMI_OK || wakhurmi_take(service, 2, 0, 0) != WAKHURMI_BAD_NUMBER) return 2;
    if (wakhurmi_finish(service) != WAKHURMI_OK) return 3;
    if (wakhurmi_hand_back(service, 1) != WAKHURMI_MISUSED || wakhurmi_hand_back(service, 2) != WAKHURMI_BAD_NUMBER) return 4;
    wakhurmi_close(service);
    return 0;
}
"""


def run(words: List[str], seconds: int = 60, **how: object) -> subprocess.CompletedProcess:
    streams = {"stdout": subprocess.PIPE, "stderr": subprocess.STDOUT, "errors": "surrogateescape"}
    return subprocess.run(words, timeout=seconds, check=False, **streams, **how)


def names_shown(library: pathlib.Path) -> List[str]:
    told = run(["nm", "-D", "--defined-only", str(library)]).stdout
    return re.findall(r"^[0-9a-f]+ \w (\S+)$", told, re.M)


def names_declared() -> List[str]:
    text = re.sub(r"/\*.*?\*/", "", (TOP / "c/wakhurmi.h").read_text(), flags=re.S)
    return sorted(re.findall(r"\b(wakhurmi_\w+)\(", text))


class BuildTests(unittest.TestCase):
    above: pathlib.Path
    env: Dict[str, str]

    @classmethod
    def setUpClass(cls) -> None:
        cls.above = pathlib.Path(tempfile.mkdtemp(prefix="c-build-"))
        cls.addClassCleanup(shutil.rmtree, cls.above, ignore_errors=True)
        for folder in ("kit/bin", "kit/c"):
            (cls.above / folder).mkdir(parents=True)
        rt = cls.above / "kit/bin/rt"
        rt.write_text("#!/bin/sh\nexit 1\n")
        rt.chmod(0o755)
        cls.make_archive(PROVED, "proved", cls.above / "proved.a")
        cls.make_archive(KIT, "heap", cls.above / "kit/c/liblibc_c.a")
        (cls.above / "program.c").write_text(PROGRAM)
        path = f"{rt.parent}:{os.environ['PATH']}"
        cls.env = {**os.environ, "PATH": path, "WAKHURMI_PROVED": str(cls.above / "proved.a")}
        cls.env.pop("CC", None)

    @classmethod
    def make_archive(cls, text: str, name: str, archive: pathlib.Path) -> None:
        source, made = cls.above / f"{name}.c", cls.above / f"{name}.o"
        source.write_text(text)
        subprocess.run(["cc", "-c", "-fPIC", source, "-o", made], check=True)
        subprocess.run(["ar", "rcs", archive, made], check=True)

    def build(self, folder: str, *flags: str, **env: str) -> subprocess.CompletedProcess:
        return run([str(TOP / "c/build.sh"), folder, *flags], cwd=self.above, env={**self.env, **env})

    def assert_well(self, ran: subprocess.CompletedProcess) -> None:
        self.assertEqual((ran.returncode, ran.stdout), (0, ""))

    def flags_for(self, folder: pathlib.Path) -> List[str]:
        """What pkg-config says, read as a shell would, or, where there is no pkg-config, the same by the file."""
        if shutil.which("pkg-config"):
            ran = run(["pkg-config", "--cflags", "--libs", "wakhurmi"], env={**self.env, "PKG_CONFIG_PATH": str(folder)})
            self.assertEqual(ran.returncode, 0, ran.stdout)
            # It has each byte of a letter beyond ASCII behind a backslash.
            return [os.fsencode(word).decode() for word in shlex.split(ran.stdout)]
        text = (folder / "wakhurmi.pc").read_text()
        at = text.partition("\n")[0].partition("=")[2]
        return shlex.split(" ".join(re.findall(r"^(?:Cflags|Libs): (.*)$", text, re.M)).replace("${folder}", at))

    def test_a_program_is_linked_by_what_pkg_config_says(self) -> None:
        for name in ("plain", "a b", "a&b", "a|b", "it's", "é (1) [2]; \\", "-x", '"quoted"'):
            self.assert_well(self.build(f"folders/{name}"))
            folder = self.above / "folders" / name
            flags = self.flags_for(folder)
            self.assertEqual(flags, [f"-I{folder}", f"-L{folder}", "-lwakhurmi", "-pthread"])
            program = self.above / "program"
            self.assert_well(run(["cc", "-Wall", "-Wextra", str(self.above / "program.c"), "-o", str(program), *flags]))
            self.assertEqual(run([str(program)]).returncode, 0)

    def test_a_folder_whose_name_begins_with_a_hyphen(self) -> None:
        self.assert_well(self.build("-y"))
        self.assertTrue((self.above / "-y/libwakhurmi.a").is_file())

    def test_the_compiler_may_have_words_behind_it(self) -> None:
        self.assert_well(self.build("words", CC="cc -DSOME=1"))
        self.assert_well(self.build("flags", "-g", "-DOTHER=two words"))

    def test_the_whole_program_may_be_optimized_at_once(self) -> None:
        if "Free Software Foundation" not in run(["cc", "--version"]).stdout:
            self.skipTest("cc isn't gcc")
        self.assert_well(self.build("whole", "-flto"))
        program = self.above / "whole/program"
        words = ["cc", "-flto", str(self.above / "program.c"), "-o", str(program), *self.flags_for(self.above / "whole")]
        self.assertEqual(run(words).returncode, 0)
        self.assertEqual(run([str(program)]).returncode, 0)

    def test_a_failing_compiler_fails_the_build(self) -> None:
        for compiler in ("false", "no-such-compiler"):
            self.assertNotEqual(self.build("failing", CC=compiler).returncode, 0)
            self.assertFalse((self.above / "failing/libwakhurmi.a").exists())
            self.assertFalse((self.above / "failing/shared/libwakhurmi.so").exists())

    def test_the_proved_library_may_be_named_from_the_callers_folder(self) -> None:
        self.assert_well(self.build("named", WAKHURMI_PROVED="proved.a", CDPATH="/"))

    def test_the_proved_library_is_built_where_the_sources_changed(self) -> None:
        top, kit = self.above / "a checkout", self.above / "another kit"
        shutil.copytree(self.above / "kit", kit)
        for folder in ("c", "launch"):
            shutil.copytree(TOP / folder, top / folder)
        source = top / "crates/wakhurmi_c/src/lib.rt"
        source.parent.mkdir(parents=True)
        (top / "crates.txt").write_text("wakhurmi_c staticlib:\n")
        builds = self.above / "builds"
        (kit / "bin/rt").write_text(f"#!/bin/sh\necho \"$*\" >>'{builds}'\nmkdir -p out\ncp '{self.above}/proved.a' out/libwakhurmi_c.a\n")
        env = {**self.env, "PATH": f"{kit}/bin:{os.environ['PATH']}"}
        del env["WAKHURMI_PROVED"]
        for text, wanted in (("first", 1), ("first", 1), ("second", 2)):
            source.write_text(text)
            ran = run([str(top / "c/build.sh"), "built"], cwd=self.above, env=env)
            self.assertEqual((ran.returncode, builds.read_text().count("lib ")), (0, wanted), ran.stdout)
        (kit / "bin/rt").write_text("#!/bin/sh\nexit 1\n")
        source.write_text("third")
        ran = run([str(top / "c/build.sh"), "failed"], cwd=self.above, env=env)
        self.assertEqual(ran.returncode, 126, ran.stdout)
        self.assertIn("crate wakhurmi_c is not proved", ran.stdout)
        self.assertFalse((self.above / "failed/libwakhurmi.a").exists())

    def test_all_names_that_are_exported_begin_alike(self) -> None:
        self.assert_well(self.build("names"))
        told = run(["nm", "-g", "--defined-only", str(self.above / "names/libwakhurmi.a")]).stdout
        names = re.findall(r"^[0-9a-f]+ \w (\S+)$", told, re.M)
        self.assertIn("wakhurmi_take", names)
        self.assertEqual([name for name in names if not name.startswith("wakhurmi_")], [])

    def test_the_shared_library_shows_what_the_header_declares(self) -> None:
        for name, flags in (("plain", ()), ("a b", ("-Werror",)), ("whole", ("-flto",)), ("-z", ("-g",))):
            self.assert_well(self.build(f"shared/{name}", *flags))
            library = self.above / "shared" / name / "shared/libwakhurmi.so"
            self.assertEqual(names_shown(library), names_declared())
            program = self.above / "loading"
            self.assert_well(run(["cc", str(self.above / "program.c"), f"-I{TOP / 'c'}", str(library), "-o", str(program)]))
            self.assertEqual(run([str(program)], env={**self.env, "LD_LIBRARY_PATH": str(library.parent)}).returncode, 0)

    def test_the_python_module_is_installed_with_its_library(self) -> None:
        if run([sys.executable, "-m", "pip", "--version"]).returncode != 0:
            self.skipTest("there is no pip")
        self.assert_well(self.build("for Python"))
        source, target = self.above / "python", self.above / "installed"
        shutil.copytree(MODULE, source)
        env = {**self.env, "WAKHURMI": str(self.above / "for Python")}
        for isolation in ([], ["--no-build-isolation"]):
            words = [sys.executable, "-m", "pip", "install", "--no-index", "--upgrade", "--target", str(target), *isolation, str(source)]
            installed = run(words, seconds=600, env=env)
            self.assertEqual(installed.returncode, 0, installed.stdout)
            text = "import wakhurmi\nwith wakhurmi.Service(1, 1) as service: service.take(0)\nprint(wakhurmi._native._library._name)"
            ran = run([sys.executable, "-c", text], env={**self.env, "PYTHONPATH": str(target), "WAKHURMI": ""})
            self.assertEqual(ran.stdout, f"{target / 'wakhurmi/libwakhurmi.so'}\n")
        refused = run(words, seconds=600, env={**env, "WAKHURMI": str(self.above / "kit")})
        self.assertNotEqual(refused.returncode, 0)
        self.assertIn("c/build.sh FOLDER makes it", refused.stdout)

    def test_the_rust_example_watches_what_it_links(self) -> None:
        rustc = shutil.which("rustc")
        if rustc is None:
            self.skipTest("there is no rustc")
        script = self.above / "build-script"
        self.assert_well(run([rustc, "--edition", "2021", str(TOP / "examples/embedding-in-rust/build.rs"), "-o", str(script)]))
        said = run([str(script)], env={**self.env, "WAKHURMI": "some/folder"}).stdout
        for file in ("libwakhurmi.a", "wakhurmi.h"):
            self.assertIn(f"cargo:rerun-if-changed=some/folder/{file}\n", said)


class InterfaceTests(unittest.TestCase):
    folder: pathlib.Path
    made: pathlib.Path

    @classmethod
    def setUpClass(cls) -> None:
        cls.folder = pathlib.Path(tempfile.mkdtemp(prefix="c-interface-"))
        cls.addClassCleanup(shutil.rmtree, cls.folder, ignore_errors=True)
        cls.made = cls.folder / "a b&c|d"
        subprocess.run([TOP / "c/build.sh", cls.made, "-Werror"], check=True)

    def said_by(self, words: List[str], **how: object) -> str:
        ran = run(words, seconds=600, **how)
        self.assertEqual(ran.returncode, 0, ran.stdout[-4000:])
        return ran.stdout

    def program(self, source: pathlib.Path, *more: str) -> str:
        program = str(self.folder / source.stem)
        flags = ["-O2", "-std=gnu11", "-Wall", "-Wextra", "-Werror", f"-I{self.made}", f"-L{self.made}"]
        self.said_by(["cc", *flags, str(source), "-o", program, "-lwakhurmi", "-pthread", *more])
        return program

    def bench_program(self, name: str, *more: str) -> str:
        return self.program(TOP / f"bench/programs/{name}/{name}.c", *more)

    def assert_replayed(self, history: str, *words: str) -> str:
        replayed = self.said_by([str(IN_C / "replay.py"), *words], input=history)
        self.assertRegex(replayed, r"^lawful [0-9]+\n$")
        return replayed

    def assert_lawful(self, history: str, *words: str) -> None:
        """By the replay, and by the program that the gate has built."""
        replayed = self.assert_replayed(history, *words)
        if LEASES.exists():
            self.assertEqual(self.said_by([str(LEASES), "check", "plan.toml"], input=history, cwd=IN_C), replayed)

    def test_answers_to_calls_that_fit_and_to_misuse(self) -> None:
        self.assertEqual(self.said_by([self.bench_program("c_calls")]), "")

    def test_cancelled_threads_keep_nobody_from_a_call(self) -> None:
        self.assert_lawful(self.said_by([self.bench_program("c_cancel"), "10000"]))

    def test_a_history_is_taken_in_parts_or_its_last_entries_are_kept(self) -> None:
        program = self.bench_program("c_history")
        self.assertEqual(self.said_by([program, "calls"]), "")
        self.assert_lawful(self.said_by([program, "parts", "8", "5000"]))
        self.assert_lawful(self.said_by([program, "cancel", "1000"]))

    def test_nothing_is_lost_where_memory_is_refused(self) -> None:
        self.assertEqual(self.said_by([self.bench_program("c_refused", *WRAPS)]), "")

    def test_threads_have_leases_and_locks_as_promised(self) -> None:
        self.assert_lawful(self.said_by([self.bench_program("c_rounds"), "check", "4", "5000"]))
        self.assert_lawful(self.said_by([self.program(IN_C / "eight.c")]))

    def test_all_projects_without_a_plan(self) -> None:
        program = self.bench_program("c_options")
        self.assertEqual(self.said_by([program, "calls"]), "")
        self.assert_lawful(self.said_by([program, "all", "8", "3000"]), "--all-projects")

    def test_uses_of_shared_services(self) -> None:
        self.assert_replayed(self.said_by([self.bench_program("c_options"), "uses", "8", "3000"]))

    def test_who_is_woken_step_by_step(self) -> None:
        self.assertEqual(self.said_by([self.bench_program("c_steps")]), "")

    def test_as_many_workers_as_may_be(self) -> None:
        """Their histories are beyond what the program reads."""
        program = self.bench_program("c_many")
        self.assert_replayed(self.said_by([program, "apart", "256", "40"]))
        self.assert_replayed(self.said_by([program, "meeting", "256", "60", "10"]))

    def test_plans_on_threads(self) -> None:
        program = self.bench_program("c_plan")
        for words in (["calls"], ["run", "300", "0"], ["run", "100", "32"], ["stop", "200"]):
            self.assertEqual(self.said_by([program, *words]), "")
        self.assertRegex(self.said_by([program, "tasks", "256", "5000"]), "a task\n$")
        self.assertEqual(self.said_by([self.program(PLAN_IN_C / "squares.c")]), "570\n")

    def test_each_entry_of_a_plan_is_the_one_that_the_rules_give(self) -> None:
        """On 1 to 32 threads. The program that the gate has built is asked of some."""
        folder, plans = self.folder / "plans", 200
        folder.mkdir()
        text = self.said_by([self.bench_program("c_plan"), "history", str(plans), "0"])
        told = self.said_by([str(PLAN_IN_C / "replay.py"), "--toml", str(folder)], input=text)
        self.assertRegex(told, rf"^{plans} histories, [0-9]+ entries: lawful\n$")
        for number in range(0, plans, 5) if LEASES.exists() else ():
            lines = (folder / f"{number}.txt").read_text()
            said = self.said_by([str(LEASES), "check", f"{number}.toml"], input=lines, cwd=folder)
            self.assertEqual(said, f"lawful {lines.count(chr(10)) - 3}\n")

    def test_a_plan_is_as_it_was_where_memory_is_refused(self) -> None:
        self.assertEqual(self.said_by([self.bench_program("c_plan_refused", *WRAPS)]), "")

    def test_the_build_tool(self) -> None:
        """JSON, since Python reads TOML from 3.11 on alone."""
        tool, project = TOP / "examples/build-tool", self.folder / "project"
        env = {**os.environ, "WAKHURMI": str(self.made), "PYTHONPATH": str(MODULE), "PYTHONDONTWRITEBYTECODE": "1", "CFLAGS": "-O0"}
        rows = self.said_by([str(tool / "build_file.py"), "--json", "generate", str(project), "6"], env=env)
        (project / "build.json").write_text(rows)
        words = [str(tool / "build.py"), str(project / "build.json"), "-j3"]
        self.assertEqual(self.said_by([*words, f"--history={self.folder / 'built'}"], env=env), "tasks: 7 passed; commands run: 7\n")
        self.assertIn(b" end 6 | task 6 running passed, ", (self.folder / "built").read_bytes())
        self.assertRegex(self.said_by([str(project / "out/program")]), r"^[0-9]+\n$")
        self.assertEqual(self.said_by(words, env=env), "nothing is to be done\n")
        source = project / "src/part_of_0002.c"
        text = source.read_text()
        source.write_text(text + "#error as it has to be\n")
        failed = run([*words, "--keep-going"], env=env)
        self.assertEqual(failed.returncode, 1)
        self.assertRegex(failed.stdout, r"^out/src/part_of_0002\.o failed: status 1\n\$ .*\n(.*\n)*.*as it has to be")
        self.assertIn("tasks: 5 passed, 1 failed, 1 skipped; commands run: 1\n", failed.stdout)
        source.write_text(text)
        self.assertEqual(self.said_by(words, env=env), "tasks: 7 passed; commands run: 2\n")
        self.assertEqual(list(project.glob(".*")), [])

    def test_the_rust_example(self) -> None:
        if shutil.which("cargo") is None:
            self.skipTest("there is no cargo")
        how = {"cwd": IN_RUST, "env": {**os.environ, "WAKHURMI": str(self.made), "CARGO_TARGET_DIR": str(self.folder / "target")}}
        self.said_by(["cargo", "test", "-q", "--offline"], **how)
        self.assert_lawful(self.said_by(["cargo", "run", "-q", "--offline"], **how))

    def test_the_python_module(self) -> None:
        env = {**os.environ, "WAKHURMI": str(self.made), "PYTHONPATH": str(MODULE), "PYTHONDONTWRITEBYTECODE": "1"}
        self.said_by([sys.executable, "-m", "unittest", "discover", "-s", str(MODULE / "tests")], env=env)
        self.assert_lawful(self.said_by([str(IN_PYTHON / "eight.py")], env=env))

    def test_all_names_that_are_exported_begin_alike(self) -> None:
        self.assertEqual(names_shown(self.made / "shared/libwakhurmi.so"), names_declared())
        archive = str(self.made / "libwakhurmi.a")
        names = re.findall(r"^[0-9a-f]+ \w (\S+)$", self.said_by(["nm", "-g", "--defined-only", archive]), re.M)
        self.assertIn("wakhurmi_take_until", names)
        self.assertEqual([name for name in names if not name.startswith("wakhurmi_")], [])


if __name__ == "__main__":
    unittest.main()
