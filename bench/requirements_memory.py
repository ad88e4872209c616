#!/usr/bin/env python3
"""Measures how much memory requirements take that many items name.

The plan has as many items as a plan may have. All of them run in worker processes and name one set of requirements: without lists, with
64 arguments of 255 bytes, and with 64 properties and variables besides, of names and values as long. In one run of each the program's
own worker answers. In the other each worker process ends at once, so each item is a fault and the next one starts another process.

Not part of the gate. Skips, with status 0, where GNU time is missing.

    bench/requirements_memory.py [PROGRAM]

Measured: 8,192 items of one set of 64 arguments, properties and variables of 255 bytes take 19.8 MB with one worker process for all, and
21.7 MB where each item starts one (goal 100 MB). A plan without lists takes 19.5 and 21.3.
"""

import pathlib
import sys
import tempfile

import measure

ITEMS = 8192
ITEMS_AN_ACTION = 1024
LISTED = 64
TEXT_BYTES = 255
LISTS = {"no lists": (0, 0), "64 arguments": (LISTED, 0), "64 arguments, properties and variables": (LISTED, LISTED)}
NAME = "one-set-of-requirements-for-all-items-of-this-plan"
# The goal: what a run takes at most.
MOST_MEGABYTES = 100


def text_of(number: int) -> str:
    return f"a{number:0{TEXT_BYTES - 1}}"


def plan_text(executable: str, arguments: int, pairs: int) -> str:
    args = ", ".join(f'"{text_of(number)}"' for number in range(arguments))
    table = ", ".join(f'"{text_of(number)}" = "{text_of(number)}"' for number in range(pairs))
    item = f'{{ do = "lines", file = "a.txt", isolation = "process", requirements = "{NAME}" }}'
    action = f'{{ wait = "retain", item = [{", ".join([item] * ITEMS_AN_ACTION)}] }}'
    tasks = [
        f'{{ name = "t{number}", project = "app", action = [{action}] }}' for number in range(ITEMS // ITEMS_AN_ACTION)
    ]
    return (
        'project = [{ name = "app" }]\n'
        f'requirements = [{{ name = "{NAME}", executable = "{executable}", args = [{args}], '
        f"properties = {{ {table} }}, variables = {{ {table} }} }}]\n"
        f"task = [{', '.join(tasks)}]\n"
    )


def main() -> None:
    measure.skip_without("time")
    program = measure.leases_program()
    most = 0.0
    with tempfile.TemporaryDirectory() as name:
        folder = pathlib.Path(name)
        (folder / "a.txt").write_bytes(b"one\ntwo\nthree\n")
        for what, executable, status in (("one worker for all", "self", 0), ("a worker that ends at once for each", "true", 1)):
            for lists, counts in LISTS.items():
                text = plan_text(executable, *counts)
                (folder / "plan.toml").write_text(text)
                used = measure.usage_of([program, "run", "plan.toml", "--summary"], folder)
                if used.status != status:
                    sys.exit(f"{what}: status {used.status}")
                megabytes = used.kilobytes / 1024
                most = max(most, megabytes)
                print(f"{len(text):,} bytes, {lists}, {what}: {megabytes:.1f} MB, {used.seconds:.1f} s", flush=True)
    if most > MOST_MEGABYTES:
        sys.exit(f"more than {MOST_MEGABYTES} MB")


if __name__ == "__main__":
    main()
