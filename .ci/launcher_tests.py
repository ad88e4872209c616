#!/usr/bin/env python3
"""Tests of the launchers `leases` and `picture`, on small checkouts with a stand-in for `rt`, which builds a program in no time, and a few with
the kit's `rt`.

The stand-in's program prints the text of crates/leases/src/main.rt and its words, and ends with the status that its
first word names. Each call of the stand-in leaves a line in the file `calls`. What it does beside that a test says by
the file `instead`, a shell script that is run in its place, with the words of the call.
"""

import fcntl
import os
import pathlib
import re
import shutil
import signal
import subprocess
import sys
import tempfile
import time
import unittest

TOP = pathlib.Path(__file__).resolve().parent.parent
LAUNCHER = TOP / "leases"

NOBODY = 65534

RT = """#!/bin/sh
here=$(dirname "$0")
echo "$*" >>"$here/calls"
[ ! -e "$here/instead" ] || . "$here/instead"
case $1 in
lib) printf 'fn %s::f: proved\\n' "$(basename "$PWD")" ;;
run)
    program=$(basename "$PWD")
    mkdir -p out
    { echo '#!/bin/sh'; printf "echo '%s' \\"\\$@\\"\\nexit \\${1:-0}\\n" "$(cat src/main.rt)"; } >"out/$program"
    chmod +x "out/$program"
    exit 2 ;;
esac
"""

# How a file of the kit's language begins.
HEAD = "//! A test.\n#![tactic(auto)]\n\n"

# A build that waits until the test lets it go on, and notes where another works beside it.
WAITS = """
mkdir "$here/working" || touch "$here/beside"
touch "$here/running"
while [ ! -e "$here/go" ]; do sleep 0.05; done
rmdir "$here/working"
"""


class Checkout:
    """A checkout of two crates in a folder of its own, with a stand-in for `rt` beside it."""

    # How long a call may take.
    seconds = 60

    def __init__(self, name: str = "checkout") -> None:
        self.above = pathlib.Path(tempfile.mkdtemp(prefix="launcher-"))
        self.above.chmod(0o755)
        self.top = self.above / name
        self.bin = self.above / "bin"
        self.bin.mkdir()
        self.write_stand_in("rt", RT)
        for crate, file in (("base", "lib.rt"), ("leases", "main.rt")):
            folder = self.top / "crates" / crate / "src"
            folder.mkdir(parents=True)
            (folder / file).write_text("first\n")
        (self.top / "crates.txt").write_text("# crates\nbase:\nleases: base\n")
        shutil.copy(LAUNCHER, self.top / "leases")
        shutil.copytree(TOP / "launch", self.top / "launch", ignore=shutil.ignore_patterns("__pycache__"))
        self.main = self.top / "crates/leases/src/main.rt"

    def write_stand_in(self, name: str, text: str) -> None:
        file = self.bin / name
        file.write_text(text)
        file.chmod(0o755)

    def instead(self, script: str) -> None:
        (self.bin / "instead").write_text(script)

    def as_usual(self) -> None:
        (self.bin / "instead").unlink()

    def how(self, **more: object) -> dict:
        path = f"{self.bin}:{os.environ['PATH']}"
        env = {**os.environ, "PATH": path, **more.pop("env", {})}
        return {"cwd": self.above, "env": env, "text": True, "stdout": subprocess.PIPE, "stderr": subprocess.PIPE, **more}

    def call(self, *words: str, launcher: object = None, **more: object) -> subprocess.CompletedProcess:
        return subprocess.run([str(launcher or self.top / "leases"), *words], timeout=self.seconds, check=False, **self.how(**more))

    def start(self, *words: str, **more: object) -> subprocess.Popen:
        return subprocess.Popen([str(self.top / "leases"), *words], **self.how(**more))

    def kill_launchers(self) -> None:
        """Kills the processes that run the launcher's script, and no other."""
        words = os.fsencode(self.top / "leases")
        for process in pathlib.Path("/proc").glob("[0-9]*"):
            try:
                if words in (process / "cmdline").read_bytes().split(b"\0"):
                    os.kill(int(process.name), signal.SIGKILL)
            except (FileNotFoundError, ProcessLookupError):
                pass

    def build(self, *words: str) -> None:
        subprocess.run([sys.executable, "-B", self.top / "launch/build.py", *words], timeout=self.seconds, check=True, **self.how())

    def builds(self) -> int:
        calls = self.bin / "calls"
        return len(re.findall("^run ", calls.read_text(), re.M)) if calls.exists() else 0

    def wait_for(self, file: str) -> None:
        for _ in range(1000):
            if (self.bin / file).exists():
                return
            time.sleep(0.01)
        raise AssertionError(f"{file} didn't come")


class LauncherTests(unittest.TestCase):
    def checkout(self, name: str = "checkout") -> Checkout:
        made = Checkout(name)
        self.addCleanup(shutil.rmtree, made.above, ignore_errors=True)
        return made

    def assert_ran(self, ran: subprocess.CompletedProcess, printed: str) -> None:
        self.assertEqual((ran.returncode, ran.stdout), (0, printed), ran.stderr)

    def test_builds_once_and_runs_in_the_callers_folder(self) -> None:
        it = self.checkout()
        self.assert_ran(it.call("0", "a b"), "first 0 a b\n")
        self.assert_ran(it.call(), "first\n")
        self.assertEqual(it.builds(), 1)

    def test_tells_how_far_it_is_on_standard_error(self) -> None:
        said = self.checkout().call().stderr
        self.assertIn("2 crates", said)
        self.assertIn("crate 1 of 2 is proved, base", said)
        self.assertIn("crate 2 of 2 is proved, leases", said)

    def test_the_programs_status_is_its_own(self) -> None:
        it = self.checkout()
        self.assertEqual([it.call(str(status)).returncode for status in (0, 1, 9)], [0, 1, 9])

    def test_is_found_through_links(self) -> None:
        it = self.checkout()
        links = it.above / "links"
        links.mkdir()
        (links / "first").symlink_to("../checkout/leases")
        (links / "second").symlink_to(links / "first")
        for link in ("first", "second"):
            self.assert_ran(it.call(launcher=links / link), "first\n")
        self.assert_ran(it.call(launcher="links/first"), "first\n")

    def test_a_failed_build_ends_with_126_and_takes_nothing_away(self) -> None:
        it = self.checkout()
        for failing in ("exit 1", '[ "$1" = lib ] || exit 1', '[ "$1" = lib ] || exit 2'):
            it.instead(failing)
            ran = it.call()
            self.assertEqual((ran.returncode, ran.stdout), (126, ""))
        it.as_usual()
        it.call()
        program = it.top / "out/leases"
        before = program.read_text()
        it.main.write_text("second\n")
        it.instead("exit 1")
        self.assertEqual(it.call().returncode, 126)
        self.assertEqual(program.read_text(), before)
        it.as_usual()
        self.assert_ran(it.call(), "second\n")

    def test_no_rt_ends_with_127(self) -> None:
        it = self.checkout()
        bare = it.above / "bare"
        bare.mkdir()
        for tool in "readlink find sort xargs sha256sum cat mkdir awk flock".split():
            (bare / tool).symlink_to(shutil.which(tool))
        ran = it.call(env={"PATH": str(bare)})
        self.assertEqual((ran.returncode, ran.stdout), (127, ""), ran.stderr)

    def test_sources_that_are_not_there_end_with_126(self) -> None:
        it = self.checkout()
        shutil.rmtree(it.top / "crates")
        self.assertEqual(it.call().returncode, 126)

    def test_an_interrupted_build_takes_nothing_away(self) -> None:
        it = self.checkout()
        it.call()
        it.main.write_text("second\n")
        it.instead('[ "$1" = lib ] || { touch "$here/running"; exec sleep 60; }')
        building = it.start(start_new_session=True)
        it.wait_for("running")
        # What was built before can be started meanwhile, as a running program does for its worker processes.
        program = str(it.top / "out/leases")
        self.assertEqual(subprocess.run([program], text=True, stdout=subprocess.PIPE, check=True).stdout, "first\n")
        os.killpg(building.pid, signal.SIGINT)
        building.communicate(timeout=60)
        self.assertNotEqual(building.returncode, 0)
        self.assertEqual(subprocess.run([program], text=True, stdout=subprocess.PIPE, check=True).stdout, "first\n")
        it.as_usual()
        self.assert_ran(it.call(), "second\n")

    def test_of_two_first_calls_one_builds(self) -> None:
        it = self.checkout()
        it.instead('[ "$1" = lib ] && { touch "$here/running"; while [ ! -e "$here/go" ]; do sleep 0.05; done; }')
        first = it.start()
        it.wait_for("running")
        second = it.start()
        said = second.stderr.readline()
        self.assertIn("another call builds", said)
        (it.bin / "go").touch()
        for call in (first, second):
            printed, _ = call.communicate(timeout=60)
            self.assertEqual((call.returncode, printed), (0, "first\n"))
        self.assertEqual(it.builds(), 1)

    def test_a_source_that_is_edited_during_the_build_is_built(self) -> None:
        it = self.checkout()
        it.instead('[ "$1" = lib ] && echo later >../base/src/lib.rt')
        it.call()
        it.as_usual()
        it.call()
        self.assertEqual(it.builds(), 2)
        it.call()
        self.assertEqual(it.builds(), 2)

    def test_a_source_that_is_taken_away_or_renamed_is_noticed(self) -> None:
        it = self.checkout()
        more = it.top / "crates/base/src/more.rt"
        more.write_text("more\n")
        it.call()
        more.rename(more.with_name("other.rt"))
        it.call()
        self.assertEqual(it.builds(), 2)
        more.with_name("other.rt").unlink()
        it.call()
        self.assertEqual(it.builds(), 3)

    def test_dates_say_nothing(self) -> None:
        it = self.checkout()
        future = time.time() + 1_000_000
        os.utime(it.main, (future, future))
        it.call()
        it.call()
        self.assertEqual(it.builds(), 1)
        it.main.write_text("other\n")
        os.utime(it.main, (1, 1))
        self.assert_ran(it.call(), "other\n")

    def test_an_old_program_in_a_folder_that_cannot_be_written_is_not_run(self) -> None:
        it = self.checkout()
        it.call()
        others = {"user": NOBODY, "group": NOBODY} if os.geteuid() == 0 else {}
        folders = [it.top, it.top / "out"]
        for folder in folders:
            folder.chmod(0o555)
        (it.top / "out/lock").chmod(0o444)
        self.assert_ran(it.call(**others), "first\n")
        it.main.write_text("second\n")
        ran = it.call(**others)
        self.assertEqual((ran.returncode, ran.stdout), (126, ""))
        self.assertIn("can't be written", ran.stderr)
        for folder in folders:
            folder.chmod(0o755)

    def test_names_and_variables_that_shells_read_otherwise(self) -> None:
        for name in ("-x", "a b", "line's end\n", "*"):
            it = self.checkout(name)
            self.assert_ran(it.call(launcher=f"{name}/leases"), "first\n")
            self.assert_ran(it.call(launcher="leases", env={"PATH": f"{name}:{it.bin}:{os.environ['PATH']}"}), "first\n")
            self.assertEqual(it.builds(), 1)
        it = self.checkout()
        (it.above / "crates").mkdir()
        self.assert_ran(it.call(env={"CDPATH": f"{it.above}:."}), "first\n")

    def test_the_callers_locale_says_nothing(self) -> None:
        it = self.checkout()
        it.call()
        # As some locales' `sort` does.
        sort = shutil.which("sort")
        it.write_stand_in("sort", f'#!/bin/sh\n[ "${{LC_ALL:-}}" = C ] && exec {sort} "$@"\nexec {sort} -r "$@"\n')
        for locale in ({}, {"LC_ALL": "some"}, {"LC_COLLATE": "some"}):
            self.assert_ran(it.call(env=locale), "first\n")
        self.assertEqual(it.builds(), 1)

    def test_a_call_with_a_short_path_finds_the_rt_of_the_last_build(self) -> None:
        it = self.checkout()
        path = {"PATH": os.environ["PATH"]}
        if shutil.which("rt", path=path["PATH"]):
            path["PATH"] = ":".join(at for at in path["PATH"].split(":") if not os.path.exists(f"{at}/rt"))
        ran = it.call(env=path)
        self.assertEqual((ran.returncode, ran.stdout), (127, ""), ran.stderr)
        self.assertIn("no command rt on the path, which is", ran.stderr)
        it.call()
        self.assert_ran(it.call(env=path), "first\n")
        it.main.write_text("second\n")
        self.assert_ran(it.call(env=path), "second\n")
        self.assertEqual(it.builds(), 2)

    def test_a_current_program_needs_no_rt(self) -> None:
        it = self.checkout()
        it.call()
        shutil.rmtree(it.bin)
        self.assert_ran(it.call(), "first\n")

    def test_a_source_that_cannot_be_read_ends_with_126_and_is_named_as_the_cause(self) -> None:
        it = self.checkout()
        it.call()
        for tool in ("find", "sha256sum"):
            it.write_stand_in(tool, "#!/bin/sh\nexit 1\n")
            ran = it.call()
            self.assertEqual((ran.returncode, ran.stdout), (126, ""))
            self.assertIn("the sources can't be read", ran.stderr)
            (it.bin / tool).unlink()
        # `find` says by its status alone that one of many can't be read.
        (it.top / "crates/base/src/more.rt").write_text("more\n")
        tool = shutil.which("sha256sum")
        it.write_stand_in("sha256sum", f'#!/bin/sh\n{tool} "$@" || exit\ncase "$*" in *more.rt*) exit 1; esac\n')
        ran = it.call()
        self.assertEqual((ran.returncode, ran.stdout), (126, ""))
        self.assertIn("the sources can't be read", ran.stderr)

    def test_the_repository_may_be_the_root_of_a_file_system(self) -> None:
        it = self.checkout()
        root = it.above / "root"
        shutil.copytree(it.top, root)
        shutil.copytree(it.bin, root / "stand-in")
        folders = [name for name in ("bin", "dev", "etc", "lib", "lib64", "proc", "root", "tmp", "usr") if os.path.isdir(f"/{name}")]
        binds = [f"mkdir -p {root}/{name} && mount --rbind /{name} {root}/{name}" for name in folders]
        path = f"/stand-in:{os.environ['PATH']}"
        call = "cd /usr && /leases 0 'a b' && echo second >/crates/leases/src/main.rt && /leases"
        script = " && ".join(["mount --make-rprivate /", *binds, f'PATH={path} exec chroot {root} sh -c "{call}"'])
        user = [] if os.geteuid() == 0 else ["--map-root-user"]
        if subprocess.run(["unshare", *user, "--mount", "sh", "-c", "mount --make-rprivate /"], stderr=subprocess.DEVNULL, check=False).returncode:
            self.skipTest("no file system can be mounted here")
        ran = subprocess.run(["unshare", *user, "--mount", "sh", "-c", script], timeout=60, check=False, **it.how())
        self.assert_ran(ran, "first 0 a b\nsecond\n")

    def test_a_build_whose_launcher_is_killed_keeps_the_lock(self) -> None:
        it = self.checkout()
        it.instead(WAITS)
        first = it.start()
        it.wait_for("running")
        it.kill_launchers()
        first.wait()
        second = it.start()
        self.assertIn("another call builds", second.stderr.readline())
        (it.bin / "go").touch()
        printed, _ = second.communicate(timeout=60)
        first.communicate()
        self.assertEqual((second.returncode, printed), (0, "first\n"))
        self.assertFalse((it.bin / "beside").exists())
        self.assertEqual(it.builds(), 1)

    def test_a_build_that_is_killed_leaves_none_that_works_without_the_lock(self) -> None:
        it = self.checkout()
        it.instead(WAITS)
        first = it.start()
        it.wait_for("running")
        below = pathlib.Path(f"/proc/{first.pid}/task/{first.pid}/children").read_text().split()
        self.assertEqual(len(below), 1)
        os.kill(int(below[0]), signal.SIGKILL)
        first.communicate(timeout=60)
        self.assertEqual(first.returncode, 126)
        # The stand-in itself was ended, and its `mkdir` stays.
        (it.bin / "working").rmdir()
        (it.bin / "go").touch()
        self.assert_ran(it.call(), "first\n")
        self.assertFalse((it.bin / "beside").exists())
        self.assertEqual(it.builds(), 1)

    def test_a_crate_that_is_not_proved_is_shown_with_its_errors(self) -> None:
        it = self.checkout()
        it.instead("[ \"$1\" = lib ] && { echo 'src/lib.rt:1:2: error[some]: why'; echo 'fn base::f: not proved'; echo other; exit 1; }")
        ran = it.call()
        self.assertEqual((ran.returncode, ran.stdout, it.builds()), (126, "", 0))
        for said in ("crate base is not proved", "error[some]: why", "fn base::f: not proved", "out/leases.log says why"):
            self.assertIn(said, ran.stderr)
        self.assertNotIn("other", ran.stderr)
        self.assertIn("other", (it.top / "out/leases.log").read_text())

    def test_a_build_for_another_processor_takes_the_programs_place(self) -> None:
        it = self.checkout()
        it.call()
        it.instead('[ "$1" = lib ] || echo "for $5" >src/main.rt')
        it.build("--cpu", "x86-64-v3", "leases", "leases")
        it.main.write_text("first\n")
        self.assert_ran(it.call(), "for x86-64-v3\n")
        self.assertEqual(it.builds(), 2)

    def test_a_build_by_hand_waits_for_the_lock(self) -> None:
        it = self.checkout()
        it.call()
        with open(it.top / "out/lock") as held:
            fcntl.flock(held, fcntl.LOCK_EX)
            building = subprocess.Popen([sys.executable, "-B", it.top / "launch/build.py", "--prove", "base"], **it.how())
            with self.assertRaises(subprocess.TimeoutExpired):
                building.wait(timeout=1)
        building.communicate(timeout=60)
        self.assertEqual(building.returncode, 0)

    def test_a_crate_that_the_program_does_not_stand_on_is_left_alone(self) -> None:
        it = self.checkout()
        folder = it.top / "crates/other/src"
        folder.mkdir(parents=True)
        (folder / "lib.rt").write_text("other\n")
        (it.top / "crates.txt").write_text("base:\nleases: base\nother: base\n")
        it.instead('[ "$(basename "$PWD")" = other ] && exit 1')
        self.assert_ran(it.call(), "first\n")
        (folder / "lib.rt").write_text("other still\n")
        self.assert_ran(it.call(), "first\n")
        self.assertEqual(it.builds(), 1)


class PictureTests(unittest.TestCase):
    """Tests of the launcher `picture`, which is the launcher `leases` for another program in the same folder."""

    def checkout(self) -> Checkout:
        made = Checkout()
        self.addCleanup(shutil.rmtree, made.above, ignore_errors=True)
        folder = made.top / "crates/leases_picture/src"
        folder.mkdir(parents=True)
        (folder / "main.rt").write_text("drawn\n")
        (made.top / "crates.txt").write_text("# crates\nbase:\nleases: base\nleases_picture: base\n")
        shutil.copy(LAUNCHER.with_name("picture"), made.top / "picture")
        return made

    def draw(self, it: Checkout, *words: str) -> tuple:
        ran = it.call(*words, launcher=it.top / "picture")
        return ran.returncode, ran.stdout

    def test_builds_once_and_runs_its_own_program(self) -> None:
        it = self.checkout()
        self.assertEqual(self.draw(it, "0", "a b"), (0, "drawn 0 a b\n"))
        self.assertEqual(self.draw(it, "9"), (9, "drawn 9\n"))
        self.assertEqual(it.builds(), 1)

    def test_builds_again_where_the_sources_changed(self) -> None:
        it = self.checkout()
        self.draw(it)
        (it.top / "crates/leases_picture/src/main.rt").write_text("drawn anew\n")
        self.assertEqual(self.draw(it), (0, "drawn anew\n"))
        self.assertEqual(it.builds(), 2)

    def test_each_launcher_leaves_the_others_program_alone(self) -> None:
        it = self.checkout()
        self.draw(it)
        self.assertEqual(it.call().stdout, "first\n")
        self.assertEqual((self.draw(it), it.call().stdout), ((0, "drawn\n"), "first\n"))
        self.assertEqual(it.builds(), 2)

    def test_a_failed_build_ends_with_126_and_takes_nothing_away(self) -> None:
        it = self.checkout()
        self.draw(it)
        (it.top / "crates/base/src/lib.rt").write_text("second\n")
        it.instead("exit 1")
        self.assertEqual(self.draw(it), (126, ""))
        it.as_usual()
        self.assertEqual(self.draw(it), (0, "drawn\n"))


KIT = shutil.which("rt")
CAUGHT = {"text": True, "stdin": subprocess.DEVNULL, "stdout": subprocess.PIPE, "stderr": subprocess.STDOUT}

# In a crate's folder: the sign that it is built for the launchers.
STATEMENTS = "out/rlib/statements/stamp"


@unittest.skipIf(KIT is None, "there is no rt on the path")
class KitTests(unittest.TestCase):
    """Tests with the kit's own `rt`, on a checkout of two crates that are proved in seconds."""

    def checkout(self) -> Checkout:
        made = Checkout()
        self.addCleanup(shutil.rmtree, made.above, ignore_errors=True)
        made.seconds = 600
        (made.bin / "rt").unlink()
        (made.top / "HANDLES").write_text("Handles allowed: none.\n")
        self.base = made.top / "crates/base"
        self.write(3)
        made.main.write_text(f"{HEAD}fn main() {{\n    let _ = base::number();\n}}\n")
        return made

    def write(self, number: int) -> None:
        (self.base / "src/lib.rt").write_text(f"{HEAD}/// A number.\npub fn number() -> u8 {{\n    {number}\n}}\n")

    def proofs(self, it: Checkout, name: str) -> int:
        return (it.top / f"out/{name}.log").read_text().count("logic=proved")

    def test_proves_as_the_gate_does_and_what_changed_again(self) -> None:
        it = self.checkout()
        self.assert_ran(it.call())
        self.assertTrue((self.base / STATEMENTS).exists())
        self.assertFalse((self.base / "out/rlib/stamp").exists())
        self.assertEqual(self.proofs(it, "leases"), 2)
        self.assertNotIn("incremental=trusted", (it.top / "out/leases.log").read_text())
        # With the program's text alone changed, what is built below it serves again.
        it.main.write_text(it.main.read_text() + "// The end.\n")
        self.assert_ran(it.call())
        self.assertEqual(self.proofs(it, "leases"), 1)
        self.write(4)
        for wanted in (1, 0):
            it.build("--prove", "base")
            self.assertEqual(self.proofs(it, "base"), wanted)
        # What it leaves is in no other command's way.
        ran = subprocess.run(["rt", "verdict"], cwd=self.base, check=False, **CAUGHT)
        self.assertEqual((ran.returncode, ran.stdout.count("logic=proved")), (0, 1), ran.stdout)

    def test_a_crate_that_is_not_proved_is_shown(self) -> None:
        it = self.checkout()
        self.write(300)
        ran = it.call()
        self.assertEqual(ran.returncode, 126)
        self.assertIn("crate base is not proved", ran.stderr)
        self.assertFalse((self.base / STATEMENTS).exists())

    def test_goes_on_from_what_checks_kept(self) -> None:
        it = self.checkout()
        it.build("--prove", "leases", "--keep")
        self.assertTrue((self.base / "out/rlib/stamp").exists())
        self.write(4)
        self.assert_ran(it.call())
        self.assertIn("incremental=trusted", (it.top / "out/leases.log").read_text())
        self.assertFalse((self.base / STATEMENTS).exists())

    def assert_ran(self, ran: subprocess.CompletedProcess) -> None:
        self.assertEqual((ran.returncode, ran.stdout), (0, ""), ran.stderr)


class ProgramTests(unittest.TestCase):
    """Tests of the programs that the gate built just before, if it is there."""

    def test_the_name_by_which_a_program_is_called_says_nothing(self) -> None:
        for name, words in (("leases", ["run", "no-such-plan.toml"]), ("leases_picture", [])):
            program = TOP / "crates" / name / "out" / name
            if not program.is_file():
                continue
            how = {"stdin": subprocess.DEVNULL, "stdout": subprocess.PIPE, "executable": program, "timeout": 60, "check": False}
            runs = [subprocess.run([called, *words], **how) for called in (name, b"\xff/leases", "")]
            self.assertEqual({(ran.returncode, ran.stdout) for ran in runs}, {(runs[0].returncode, runs[0].stdout)})


if __name__ == "__main__":
    # Who runs in a shell's background ignores this signal, and so would all that is called here.
    signal.signal(signal.SIGINT, signal.default_int_handler)
    unittest.main()
