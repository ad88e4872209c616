#!/usr/bin/env python3
"""Writes a file of tasks for build.py: TOML, or JSON where --json stands.

    build_file.py make FOLDER [WORD..]       of what `make -C FOLDER -nB WORD..` would do: compilers, ar and ranlib
    build_file.py glob PROGRAM PATTERN..     of C files, each compiled by CC with CFLAGS, and linked to one program
    build_file.py generate FOLDER COUNT      makes a project of so many C files there first, with a makefile that gives the same commands
"""

from __future__ import annotations

import glob
import json
import os
import pathlib
import re
import shlex
import subprocess
import sys
from typing import Any, Dict, List, Optional

Row = Dict[str, Any]
COMPILERS = re.compile(r"(.*/)?(\w+-)*(cc|gcc|clang|c99|tcc)(-\d+)?")


def headers_of(words: List[str], folder: pathlib.Path) -> List[str]:
    """The files of one's own that a compilation reads, as the compiler itself says."""
    asked = [word for number, word in enumerate(words) if word not in ("-c", "-o") and words[number - 1] != "-o"]
    said = subprocess.run([*asked, "-MM"], cwd=folder, stdout=subprocess.PIPE, check=True, text=True).stdout
    return said.replace("\\\n", " ").partition(": ")[2].split()


def compilation(words: List[str], folder: pathlib.Path) -> Row:
    sources = [word for word in words[1:] if word.endswith((".c", ".S"))]
    output = words[words.index("-o") + 1] if "-o" in words else pathlib.Path(sources[0]).stem + ".o"
    return {"name": output, "command": shlex.join(words), "inputs": headers_of(words, folder), "outputs": [output]}


def linking(words: List[str]) -> Row:
    output = words[words.index("-o") + 1]
    inputs = [word for word in words[1:] if word.endswith((".o", ".a"))]
    return {"name": output, "command": shlex.join(words), "inputs": inputs, "outputs": [output]}


def row_of(words: List[str], folder: pathlib.Path, rows: List[Row]) -> Optional[Row]:
    """The task of a command, or None where it is none. What follows on an archive becomes part of its task."""
    if COMPILERS.fullmatch(words[0]):
        return compilation(words, folder) if "-c" in words else linking(words)
    if words[0] == "ar":
        return {"name": words[2], "command": shlex.join(words), "inputs": words[3:], "outputs": [words[2]]}
    if words[0] == "ranlib":
        row = next(row for row in rows if row["name"] == words[1])
        row["command"] += " && " + shlex.join(words)
    elif words[0] not in ("echo", "make", "true", ":") and not words[0].startswith("make["):
        print(f"left out: {shlex.join(words)}", file=sys.stderr)
    return None


def rows_of_makefile(folder: pathlib.Path, words: List[str]) -> List[Row]:
    """The commands have to be of one folder, that of the makefile."""
    said = subprocess.run(["make", "-C", str(folder), "--no-print-directory", "-nB", *words], stdout=subprocess.PIPE, check=True, text=True).stdout
    rows: List[Row] = []
    for line in said.replace("\\\n", " ").splitlines():
        command = shlex.split(line)
        row = row_of(command, folder, rows) if command else None
        if row is not None and row not in rows:
            rows.append(row)
    return rows


def rows_of_files(program: str, files: List[str], folder: pathlib.Path) -> List[Row]:
    compiler, flags = shlex.split(os.environ.get("CC", "cc")), shlex.split(os.environ.get("CFLAGS", "-O2"))
    rows = [compilation([*compiler, *flags, "-c", file, "-o", f"out/{file[:-2]}.o"], folder) for file in files]
    return [*rows, linking([*compiler, "-o", program, *(row["name"] for row in rows), *shlex.split(os.environ.get("LDLIBS", ""))])]


SOURCE = """#include "part_{part}.h"
#include <stdio.h>
#include <string.h>
{functions}
unsigned part_of_{number}(unsigned seed) {{ return {calls}; }}
"""
FUNCTION = """static unsigned step_{number}_{step}(unsigned seed) {{
    unsigned table[64];
    for (unsigned i = 0; i < 64; i++) table[i] = seed * {factor}u + i * MIXED_{part};
    for (unsigned round = 0; round < 16; round++) {{
        for (unsigned i = 0; i < 63; i++) table[i] ^= (table[i + 1] >> (round & 7)) + strlen(WORDS_{part}) * i;
    }}
    char text[32];
    return (unsigned)snprintf(text, sizeof text, "%u %u", table[seed & 63], seed) + table[(seed >> 6) & 63];
}}
"""
MAKEFILE = """# The same commands as in the file of tasks.
CC ?= cc
CFLAGS ?= -O2
OBJECTS = $(patsubst src/%.c,out/src/%.o,$(sort $(wildcard src/*.c)))
out/program: $(OBJECTS)
	$(CC) -o $@ $^
out/src/%.o: src/%.c $(wildcard src/*.h)
	@mkdir -p out/src
	$(CC) $(CFLAGS) -c $< -o $@
"""


def write_project(folder: pathlib.Path, count: int) -> None:
    source = folder / "src"
    source.mkdir(parents=True, exist_ok=True)
    parts = max(1, count // 30)
    for part in range(parts):
        declared = "".join(f"unsigned part_of_{number}(unsigned seed);\n" for number in range(part, count, parts))
        text = f'#ifndef PART_{part}\n#define PART_{part}\n#define MIXED_{part} {2 * part + 3}u\n#define WORDS_{part} "part {part}"\n{declared}#endif\n'
        (source / f"part_{part}.h").write_text(text)
    for number in range(count - 1):
        part, steps = number % parts, range(4 + number % 5)
        functions = "".join(FUNCTION.format(number=number, step=step, part=part, factor=2 * (number + step) + 1) for step in steps)
        calls = " ^ ".join(f"step_{number}_{step}(seed + {step})" for step in steps)
        (source / f"part_of_{number:04}.c").write_text(SOURCE.format(number=number, part=part, functions=functions, calls=calls))
    included = "".join(f'#include "part_{part}.h"\n' for part in range(parts))
    sums = "".join(f"    sum = sum * 31 + part_of_{number}(sum);\n" for number in range(count - 1))
    (source / "main.c").write_text(f'{included}#include <stdio.h>\nint main(void) {{\n    unsigned sum = 1;\n{sums}    printf("%u\\n", sum);\n}}\n')
    (folder / "Makefile").write_text(MAKEFILE)


def toml_of(rows: List[Row]) -> str:
    tables = ["[[task]]\n" + "".join(f"{key} = {json.dumps(value, ensure_ascii=False)}\n" for key, value in row.items()) for row in rows]
    return "\n".join(tables)


def main(words: List[str]) -> None:
    as_json = "--json" in words
    words = [word for word in words if word != "--json"]
    how, first = words[:2] if len(words) >= 3 or words[:1] == ["make"] and len(words) == 2 else ("", "")
    if how == "make":
        rows = rows_of_makefile(pathlib.Path(first), words[2:])
    elif how == "glob":
        files = sorted(file for pattern in words[2:] for file in glob.glob(pattern, recursive=True))
        rows = rows_of_files(first, files, pathlib.Path("."))
    elif how == "generate":
        folder = pathlib.Path(first)
        write_project(folder, int(words[2]))
        rows = rows_of_files("out/program", sorted(str(file.relative_to(folder)) for file in folder.glob("src/*.c")), folder)
    else:
        sys.exit(__doc__)
    print(json.dumps({"task": rows}, indent=1) if as_json else toml_of(rows))


if __name__ == "__main__":
    main(sys.argv[1:])
