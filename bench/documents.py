#!/usr/bin/env python3
"""Holds the documents against the repository: what they name is there, and what they show is what is printed.

* Each file that README.md, CONTRIBUTING.md, CHANGELOG.md and docs/ name is there, and each link leads to one.
* In docs/ARCHITECTURE.md each crate of crates.txt stands in the map and no other, and each name in "Where is it?" stands in its crate.
* README.md has at most 120 lines, and all together have at most 95,000 bytes.
* With a PROGRAM: each command of README.md, docs/USAGE.md and examples/ that needs no build prints what stands there, with that status; the plan of
  docs/USAGE.md is accepted. A PICTURE program draws the pictures of examples/picture again.

Ends with status 1 where something differs. Not part of the gate.

    bench/documents.py [PROGRAM [PICTURE]]
"""

import pathlib
import re
import shutil
import subprocess
import sys
import tempfile

TOP = pathlib.Path(__file__).resolve().parent.parent
PAGES = [TOP / "README.md", TOP / "CHANGELOG.md", TOP / "CONTRIBUTING.md", *sorted((TOP / "docs").glob("*.md"))]
SUFFIXES = (".rt", ".antt", ".py", ".md", ".sh", ".svg", ".c", ".h")

# Examples whose commands need a build or another machine.
NEED_A_BUILD = {"build-tool", "plan-in-c", "embedding", "embedding-in-c", "embedding-in-rust", "shared-connections", "budgeted-daemons", "far-worker"}

faults: list[str] = []


def say(fault: str) -> None:
    faults.append(fault)
    print(fault)


def source_files() -> list[pathlib.Path]:
    listed = subprocess.run(["git", "ls-files", "-co", "--exclude-standard"], cwd=TOP, capture_output=True, text=True, check=True)
    return [pathlib.Path(name) for name in listed.stdout.splitlines() if (TOP / name).exists()]


def is_there(name: str, page: pathlib.Path, files: list[pathlib.Path]) -> bool:
    """Whether a name in a page is that of a file: from the top, beside the page, or as the end of a file's path."""
    if (TOP / name).exists() or (page.parent / name).exists():
        return True
    return any(str(file) == name or str(file).endswith("/" + name) for file in files)


def look_at_names(files: list[pathlib.Path]) -> None:
    for page in PAGES:
        text = page.read_text()
        for link in re.findall(r"\]\(([^)#]+)\)", text):
            if not (page.parent / link).exists():
                say(f"{page.name}: no file for the link {link}")
        for name in re.findall(r"`([\w./-]+)`", text):
            of_source = name.endswith(SUFFIXES) or name.startswith(("crates/", "bench/", "examples/", "docs/", "c/", ".ci/"))
            if of_source and not is_there(name, page, files):
                say(f"{page.name}: no file {name}")


def crates_listed() -> list[str]:
    lines = [line.split("#")[0] for line in (TOP / "crates.txt").read_text().splitlines()]
    return [line.split(":")[0].split()[0] for line in lines if ":" in line]


def rows_of(title: str) -> list[list[str]]:
    """The rows of the first table under a title of docs/ARCHITECTURE.md."""
    part = (TOP / "docs/ARCHITECTURE.md").read_text().split(f"## {title}\n")[1].split("\n## ")[0]
    rows = [line.strip().strip("|").split("|") for line in part.splitlines() if line.startswith("|")]
    return [[cell.strip() for cell in row] for row in rows[2:]]


def look_at_map() -> None:
    named = [name for row in rows_of("The map") for name in re.findall(r"`(\w+)`", row[1])]
    listed = crates_listed()
    for name in sorted(set(listed) ^ set(named)):
        say(f"ARCHITECTURE.md: the map and crates.txt differ by {name}")


def look_at_places() -> None:
    listed = set(crates_listed())
    for row in rows_of("Where is it?"):
        if len(row) < 3 or not row[1]:
            continue
        crate = ""
        for name in re.findall(r"`([^`]+)`", row[1] + " " + row[2]):
            if name in listed:
                crate = name
                continue
            folder = TOP / "crates" / crate
            if name.endswith((".rt", ".antt", "/")):
                if not ((folder / "src" / name).exists() or (folder / name).exists()):
                    say(f"ARCHITECTURE.md: {crate} has no {name}")
                continue
            word = name.split("::")[-1]
            texts = (file.read_text() for part in ("src", "specs") for file in (folder / part).rglob("*.*"))
            if not any(re.search(rf"\b{word}\b", text) for text in texts):
                say(f"ARCHITECTURE.md: {crate} has no name {name}")


def look_at_sizes() -> None:
    lines = len((TOP / "README.md").read_text().splitlines())
    size = sum(len(page.read_bytes()) for page in PAGES)
    print(f"README.md has {lines} lines, and all documents have {size} bytes")
    if lines > 120 or size > 95_000:
        say("that is too much")


class Trials:
    """A folder with the examples, in which `leases` is the program."""

    def __init__(self, program: pathlib.Path) -> None:
        self.top = pathlib.Path(tempfile.mkdtemp(prefix="documents-"))
        shutil.copytree(TOP / "examples", self.top / "examples")
        (self.top / "leases").symlink_to(program)

    def run(self, folder: pathlib.Path, script: str) -> tuple[str, int]:
        path = f"PATH={self.top}:$PATH; export PATH; "
        ran = subprocess.run(["sh", "-c", path + script], cwd=folder, capture_output=True, text=True, timeout=60, stdin=subprocess.DEVNULL)
        return ran.stdout, ran.returncode

    def compare(self, what: str, folder: pathlib.Path, script: str, wanted: str, status: int | None) -> None:
        printed, ended = self.run(folder, script)
        if printed.strip("\n") != wanted.strip("\n") or status not in (None, ended):
            say(f"{what}: `{script.strip()}` printed, with status {ended}:\n{printed}")

    def try_example(self, name: str) -> None:
        folder = self.top / "examples" / name
        for block in (folder / "README.md").read_text().split("```sh\n")[1:]:
            script, after = block.split("```\n", 1)
            texts = re.findall(r"```text\n(.*?)```", after, re.S)
            inline = re.search(r"It prints `([^`]+)`", after)
            wanted = "".join(texts) if texts else inline.group(1) if inline else ""
            status = re.search(r"ends with status (\d+)", after)
            self.compare(f"examples/{name}", folder, script, wanted, int(status.group(1)) if status else None)

    def try_readme(self) -> None:
        text = (TOP / "README.md").read_text()
        script = next(line for line in text.splitlines() if "../../leases run" in line)
        self.compare("README.md", self.top, script, indented(text, "task count passed"), 0)

    def try_usage(self) -> None:
        text = (TOP / "docs/USAGE.md").read_text()
        folder = self.top / "usage"
        (folder / "app").mkdir(parents=True)
        (folder / "plan.toml").write_text(indented(text, "[[project]]"))
        (folder / "list.txt").write_text("one\nfifteen\n")
        (folder / "app/log.txt").write_text("error\nan error, and an error\n")
        self.compare("USAGE.md", folder, "leases run plan.toml", indented(text, "task app:list passed"), 0)
        for status, example in re.findall(r"^\| (\d+) \|.*\| `(leases[^`]*)` \|$", text, re.M):
            _, ended = self.run(folder, example)
            if ended != int(status):
                say(f"USAGE.md: `{example}` ended with status {ended}")


def indented(text: str, first: str) -> str:
    """The indented block that begins with a line."""
    lines = text.splitlines()
    start = lines.index("    " + first)
    block = []
    for line in lines[start:]:
        if line and not line.startswith("    "):
            break
        block.append(line[4:])
    return "\n".join(block).strip("\n") + "\n"


def draw_again(picture: pathlib.Path) -> None:
    folder = TOP / "examples/picture"
    for history in sorted(folder.glob("*.txt")):
        drawn = subprocess.run([picture], stdin=history.open(), capture_output=True, check=False)
        if drawn.stdout != history.with_suffix(".svg").read_bytes():
            say(f"examples/picture: {history.name} has another picture")


def main() -> int:
    look_at_names(source_files())
    look_at_map()
    look_at_places()
    look_at_sizes()
    if len(sys.argv) > 1:
        trials = Trials(pathlib.Path(sys.argv[1]).resolve())
        trials.try_readme()
        trials.try_usage()
        for folder in sorted((trials.top / "examples").iterdir()):
            if folder.name not in NEED_A_BUILD:
                trials.try_example(folder.name)
        shutil.rmtree(trials.top)
    if len(sys.argv) > 2:
        draw_again(pathlib.Path(sys.argv[2]).resolve())
    print("something differs" if faults else "nothing differs")
    return 1 if faults else 0


if __name__ == "__main__":
    sys.exit(main())
