#!/usr/bin/env python3
"""Runs the kit's command `rt` in one crate's folder, so that others can run beside it in the same repository.

    launch/beside.py PARENT [--statements] RT WORD..

`rt` keeps others out of a crate's folder, and out of those of all crates below it, until it ends. So two crates over the same
library would be proved one after the other. Here the folders below are shared with others that only read them, and the
crate's own is kept to itself. It is for whoever starts a crate when those below it are built.

With --statements it proves as the gate does: a crate from nothing, and what is built of it has its statements and not its proofs.
That takes less time, most of all with several jobs, and no part of a proof is kept for a later check. What is built so lies in a
folder of its own, where no other command of `rt` looks, since it fits only the libraries that it was built over.

It ends when the process PARENT, which started it, does, and all that `rt` started ends with it. A `rt` that isn't the script which this
knows is run as it is, and one that can't keep statements alone keeps proofs: the result is the same, and takes longer.
"""

import ctypes
import fcntl
import importlib.machinery
import importlib.util
import inspect
import os
import pathlib
import shutil
import signal
import sys
import types
from typing import List, Optional

PR_SET_PDEATHSIG = 1

# In a crate's folder: what is built of it with its statements alone. Elsewhere in out/ than in rlib, `rt` takes its files for strays, and stops.
STATEMENTS = "out/rlib/statements"

# What a proof that keeps statements needs of the script's module for crates.
NEEDED = ("help_of", "sum_of", "text_of", "KEPT", "RATTLE", "Crate")


def end_with(parent: int) -> None:
    """Has the system kill this process when the one that started it ends."""
    ctypes.CDLL(None).prctl(PR_SET_PDEATHSIG, signal.SIGKILL)
    if os.getppid() != parent:
        sys.exit(1)


def load(file: str) -> Optional[types.ModuleType]:
    """The script `rt` as a module, or None where it is another program, or another version that doesn't have what this needs."""
    with open(file, "rb") as script:
        if b'if __name__ == "__main__":' not in script.read():
            return None
    loader = importlib.machinery.SourceFileLoader("rt", file)
    spec = importlib.util.spec_from_loader("rt", loader)
    if spec is None:
        return None
    found = importlib.util.module_from_spec(spec)
    loader.exec_module(found)
    return found if hasattr(found, "main") and hasattr(getattr(found, "rtlib", None), "lock") else None


def lock(crates: list) -> List[int]:
    """As the kit's own `lock`, but that the folders of the crates below the last are shared."""
    own = os.path.realpath(crates[-1].folder)
    held = []
    for folder in sorted({os.path.realpath(crate.folder) for crate in crates}):
        held.append(os.open(folder, os.O_RDONLY))
        try:
            fcntl.flock(held[-1], fcntl.LOCK_EX if folder == own else fcntl.LOCK_SH)
        except OSError:
            # Some file systems have no locks.
            pass
    return held


def has_statements(rt: types.ModuleType) -> bool:
    """Whether this `rt` and its compiler have what a proof that keeps statements needs."""
    kit = rt.rtlib
    if not all(hasattr(kit, name) for name in NEEDED) or not hasattr(rt, "share_work"):
        return False
    return "keeps" in inspect.signature(kit.Crate.words).parameters and "--statements" in kit.help_of("build")


def build_statements(rt: types.ModuleType) -> None:
    """Has `rt` prove each crate from nothing, and keep its statements."""
    kit, made = rt.rtlib, rt.rtlib.Crate.__init__

    def make(crate, *given, **named) -> None:
        made(crate, *given, **named)
        crate.rlib = f"{crate.folder}/{STATEMENTS}/{crate.name}.rlib"

    def stamp(crate) -> str:
        """A sum of what the crate is made from, and of what is built of the crates below it."""
        return " ".join([crate.stamp(), *(kit.sum_of(f"{it.rlib}/format") for it in crate.below())])

    def is_built(crate) -> bool:
        return os.path.isdir(crate.rlib) and kit.text_of(f"{crate.folder}/{STATEMENTS}/stamp") == stamp(crate)

    def build_rlib(crate, flags: List[str], anew: bool) -> int:
        if is_built(crate):
            return 0
        folder, before = pathlib.Path(crate.folder, STATEMENTS), stamp(crate)
        shutil.rmtree(folder, ignore_errors=True)
        folder.mkdir(parents=True)
        status = crate.call(kit.RATTLE, "build", *crate.words(flags, keeps=False), "--statements", "-o", crate.rlib)
        if status == 0 and stamp(crate) == before:
            (folder / "stamp").write_text(before)
        return status

    kit.Crate.__init__, kit.Crate.is_built, kit.Crate.build_rlib = make, is_built, build_rlib
    kit.Crate.has_kept = lambda crate: False
    kit.KEPT = []
    # Other checkouts take nothing of what is built so, and it takes nothing of theirs.
    rt.share_work = lambda is_alone: None


def main() -> None:
    parent, words = int(sys.argv[1]), sys.argv[2:]
    for_statements = words[0] == "--statements"
    file, *words = words[for_statements:]
    end_with(parent)
    rt = load(file)
    if rt is None:
        os.execv(file, [file, *words])
    rt.rtlib.lock = lock
    if for_statements and has_statements(rt):
        build_statements(rt)
    sys.argv = [file, *words]
    sys.exit(rt.main(words))


if __name__ == "__main__":
    main()
