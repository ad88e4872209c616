#!/usr/bin/env python3
"""Prints a table of what the program doesn't call: the public functions of the library crates that `leases` doesn't come to. They are there for
whoever embeds the crates.

It goes from what crates/leases names through the functions that the built libraries call (by the file mir.json in each, in which
every call has its whole name), so the crates that the program stands on have to be built: by `./leases`, or in another clone
of the same sources, FOLDER. A function counts as called where a function that counts names it, and all functions of an impl of a
trait where one that counts names the impl. What is generic is followed once, for all its types.
Not part of the gate.

    bench/uncalled.py [FOLDER]
"""

import collections
import json
import pathlib
import re
import sys
from typing import Dict, Iterator, List, Set

TOP = pathlib.Path(__file__).resolve().parent.parent
sys.dont_write_bytecode = True
sys.path.insert(0, str(TOP / "launch"))
import schedule  # noqa: E402

PROGRAM = "leases"

# Crates that are no library for whoever embeds.
OTHERS = re.compile(r"_tests$|^(leases|leases_picture|embedding|shared_connections|budgeted_daemons|case_files|gate_cases|wakhurmi_c)$")

EXPORT = re.compile(r"^pub use ([^;]*);", re.M)
IMPL = re.compile(r"^impl\b(?:<[^{]*?>)? ?(?P<name>\w+)[^{]*?\{", re.M)
FUNCTION = re.compile(r"^(?P<indent> {0,4})pub fn (?P<name>\w+)", re.M)
TRAIT = re.compile(r"^(?:pub(?:\([^)]*\))? )?trait (\w+)", re.M)
# A law is a function that takes nothing and gives nothing: only its contract says something.
LAW = re.compile(r"(?:<[^(]*>)?\(\)(?! ->)")
ITEM = re.compile(r"^(?:pub(?:\([^)]*\))? )?(?:impl|trait|struct|enum|fn|mod|const)\b[^\n]*", re.M)


class Function:
    """A public function: its name as a caller writes it, and how it is named in mir.json."""

    def __init__(self, crate: str, owner: str, name: str) -> None:
        self.crate, self.owner, self.name = crate, owner, name
        self.shown = f"{owner}::{name}" if owner else name
        # Behind a type stand the arguments of an impl that doesn't hold for all, each after a +.
        self.whole = re.compile(rf"{crate}::(?:\w+::)*" + (rf"{owner}(?:\+[^:]*)?::{name}" if owner else name))

    def is_named(self, whole: str) -> bool:
        return self.whole.fullmatch(whole) is not None


def exported(crate: str) -> Set[str]:
    """The names that a crate's root passes on."""
    text = (TOP / "crates" / crate / "src/lib.rt").read_text()
    return {word for line in EXPORT.findall(text) for word in re.findall(r"\w+", line)}


def public_functions(crate: str) -> Iterator[Function]:
    """The public functions of a crate, and of the types that it exports."""
    names = exported(crate)
    for file in sorted((TOP / "crates" / crate / "src").rglob("*.rt")):
        text = file.read_text()
        for found in FUNCTION.finditer(text):
            if LAW.match(text, found.end()):
                continue
            if not found["indent"]:
                if found["name"] in names or file.name == "lib.rt":
                    yield Function(crate, "", found["name"])
                continue
            above = [item for item in ITEM.finditer(text, 0, found.start()) if not item.group().startswith(" ")]
            impl = IMPL.match(text, above[-1].start()) if above else None
            if impl is not None and " for " not in impl.group() and impl["name"] in names:
                yield Function(crate, impl["name"], found["name"])


def names_in(body: object) -> Iterator[str]:
    """What a function's code names: functions, and impls of traits with :: behind."""
    if isinstance(body, dict):
        for kind, value in body.items():
            if kind == "Fn" and isinstance(value, list) and isinstance(value[0], str):
                yield value[0]
            elif kind == "Impl" and isinstance(value, list) and isinstance(value[0], str):
                yield f"{value[0]}::"
            yield from names_in(value)
    elif isinstance(body, list):
        for value in body:
            yield from names_in(value)


def read_calls(crates: List[str], top: pathlib.Path) -> Dict[str, Set[str]]:
    """By function of these crates, what it names."""
    calls: Dict[str, Set[str]] = {}
    for crate in crates:
        # The launcher keeps what it builds in a folder of its own, but where checks by `rt` came before.
        paths = [top / "crates" / crate / folder / f"{crate}.rlib/toolchain/mir.json" for folder in ("out/rlib", "out/rlib/statements")]
        built = [file for file in paths if file.is_file()]
        if not built:
            sys.exit(f"uncalled: {crate} is not built in {top}: call ./leases there first")
        newest = max(built, key=lambda file: file.stat().st_mtime)
        for name, body in json.loads(newest.read_text()):
            calls[name] = set(names_in(body))
    return calls


def reached(calls: Dict[str, Set[str]], roots: List[str]) -> Set[str]:
    """The functions that those at the roots come to."""
    of_impls: Dict[str, List[str]] = collections.defaultdict(list)
    for name in calls:
        of_impls[name.rpartition("::")[0] + "::"].append(name)
    found: Set[str] = set()
    waiting = list(roots)
    while waiting:
        name = waiting.pop()
        if name in found:
            continue
        found.add(name)
        waiting += of_impls[name] if name.endswith("::") else calls.get(name, ())
    return found


def traits(crates: List[str]) -> Set[str]:
    sources = (file.read_text() for crate in crates for file in (TOP / "crates" / crate / "src").rglob("*.rt"))
    return {name for text in sources for name in TRAIT.findall(text)}


def program_roots(calls: Dict[str, Set[str]], named: List[Function]) -> List[str]:
    """What the program's own source names: public functions, and the impls of traits by the types that it hands down."""
    text = " ".join(file.read_text() for file in (TOP / "crates" / PROGRAM / "src").rglob("*.rt"))
    words = set(re.findall(r"\w+", text))
    types = {name for it in named for name in exported(it.crate) if name in words and name[0].isupper()}
    functions = [it for it in named if it.name in words and (not it.owner or it.owner in words)]
    roots = [whole for it in functions for whole in calls if it.is_named(whole)]
    with_bodies = traits(sorted({name.split("::")[0] for name in calls}))
    for above in {name.rpartition("::")[0] for name in calls}:
        owner = above.rpartition("::")[2]
        # The impl of a trait has the name of the type and that of the trait behind it. A trait's own functions are called by its impls.
        is_impl = any(owner.startswith(name) and owner[len(name) :][:1].isupper() for name in types)
        roots += [f"{above}::"] if is_impl or owner in with_bodies else []
    return roots


def main() -> None:
    top = pathlib.Path(sys.argv[1]).resolve() if len(sys.argv) > 1 else TOP
    uses = schedule.read_uses((TOP / "crates.txt").read_text())
    below = [name for name in schedule.needed(uses, PROGRAM) if name != PROGRAM]
    calls = read_calls(below, top)
    functions = {crate: list(public_functions(crate)) for crate in uses if not OTHERS.search(crate)}
    named = [function for crate in uses[PROGRAM] for function in functions[crate]]
    found = reached(calls, program_roots(calls, named))
    print("| Crate | Calls |\n|---|---|")
    whole_crates = []
    for crate, public in functions.items():
        known = [(it, [whole for whole in calls if it.is_named(whole)]) for it in public]
        uncalled = list(dict.fromkeys(it.shown for it, wholes in known if wholes and not found.intersection(wholes)))
        if crate not in below or len(uncalled) == len({it.shown for it, wholes in known if wholes}):
            whole_crates += [crate] if public else []
        elif uncalled:
            print(f"| {crate} | {', '.join(f'`{name}`' for name in uncalled)} |")
    print(f"\nNo call of these crates: {', '.join(whole_crates)}.")


if __name__ == "__main__":
    main()
