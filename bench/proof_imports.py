#!/usr/bin/env python3
"""Counts what a crate's proofs import of the proofs of another crate here, and ends with 1 where there is any.

A caller should need no proof file of another crate: what it needs is a public law, a definition in `specs/`, or a lemma that the
other crate hands out in `proofs/lemmas`. Imports of the kit's crates aren't counted.
Not part of the gate.

    bench/proof_imports.py [--files]
"""

import collections
import pathlib
import re
import sys

CRATES = pathlib.Path(__file__).resolve().parent.parent / "crates"
IMPORT = re.compile(r"\buse Rattle\.(\w+)\.proofs\.([A-Za-z_.]+?)\.?[{\s]")


def imports(path: pathlib.Path) -> list[tuple[str, str]]:
    """The crate and the module of each import of a proof in the file, but for those of lemmas that are handed out."""
    found = IMPORT.findall(path.read_text())
    return [(crate, module) for crate, module in found if not module.startswith("lemmas.")]


def main() -> int:
    here = {path.name for path in CRATES.iterdir() if path.is_dir()}
    counts: collections.Counter[tuple[str, str, str]] = collections.Counter()
    for path in sorted(CRATES.glob("*/**/*")):
        if path.suffix not in (".rt", ".antt") or "out" in path.parts:
            continue
        user = path.relative_to(CRATES).parts[0]
        for crate, module in imports(path):
            if crate in here and crate != user:
                counts[user, crate, module] += 1
                if "--files" in sys.argv[1:]:
                    print(f"{path.relative_to(CRATES)}: {crate}.{module}")
    for (user, crate, module), count in sorted(counts.items()):
        print(f"{count:4} {user}: {crate}.{module}")
    print(f"{sum(counts.values()):4} in all")
    return 1 if counts else 0


if __name__ == "__main__":
    sys.exit(main())
