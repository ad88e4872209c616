#!/usr/bin/env python3
"""Times requests to `leases worker` over pipes, and counts their instructions and system calls.

Each request asks for the lines of a file of 14 bytes. What comes with one request more is what many requests take beyond
what few take, so that the start falls out. Not part of the gate. Without valgrind the instructions aren't counted, and
without strace the system calls aren't.

    bench/worker.py [PROGRAM [REQUESTS]]

Measured: a request takes 12.2 microseconds there and back (goal 20), 3.6 where all are sent at once, 6,297 instructions (goal 10,000) and
four system calls for its file. 3,900 of the instructions clear a buffer in the kit's opening of a file.
"""

import os
import pathlib
import shutil
import statistics
import subprocess
import sys
import tempfile
import threading
import time

import measure

FILE = "a.txt"
FILE_BYTES = b"one\ntwo\nthree\n"
# Unit 7, the lines of the file, and the reply.
REQUEST = b"\x01\0\0\0\x0c\0\0\0\x07\x01\0\x05a.txt"
REPLY = b"\x02\0\0\0\x0d\0\0\0\x07\x01\0\0\0\0\0\0\0\x03"
STOP = b"\x03\0\0\0\0"
RUNS = 9
REQUESTS = 5_000
FEW, MANY = 100, 1_100

# The goals of a request: microseconds with its way through the pipes, instructions, and system calls for its file.
MOST_MICROSECONDS = 20
MOST_INSTRUCTIONS = 10_000
MOST_CALLS_FOR_A_FILE = 4


class Worker:
    """A process that answers requests, and the folder of its file."""

    def __init__(self, words: measure.Words, folder: pathlib.Path, requests: int) -> None:
        self.words = words
        self.folder = folder
        self.requests = requests

    def start(self) -> subprocess.Popen[bytes]:
        return subprocess.Popen(self.words, cwd=self.folder, stdin=subprocess.PIPE, stdout=subprocess.PIPE, bufsize=0)

    def end(self, child: subprocess.Popen[bytes]) -> None:
        child.stdin.write(STOP)
        child.stdin.close()
        if child.stdout.read() != b"" or child.wait() != 0:
            sys.exit(f"the worker didn't end well: {child.returncode}")

    def one_at_a_time(self) -> float:
        """Microseconds a request where each is sent when the reply before has come."""
        child = self.start()
        source, sink = child.stdout.fileno(), child.stdin.fileno()
        start = time.perf_counter()
        for _ in range(self.requests):
            os.write(sink, REQUEST)
            if os.read(source, 64) != REPLY:
                sys.exit("a reply isn't right")
        passed = time.perf_counter() - start
        self.end(child)
        return passed * 1e6 / self.requests

    def all_at_once(self) -> float:
        """Microseconds a request where all are sent at once."""
        child = self.start()
        writer = threading.Thread(target=write_all, args=(child.stdin.fileno(), REQUEST * self.requests))
        start = time.perf_counter()
        writer.start()
        replies = read_all(child.stdout.fileno(), len(REPLY) * self.requests)
        passed = time.perf_counter() - start
        writer.join()
        self.end(child)
        if replies != REPLY * self.requests:
            sys.exit("a reply isn't right")
        return passed * 1e6 / self.requests

    def stream(self, requests: int) -> dict[str, object]:
        """What a tool that counts is told of a run with so many requests."""
        return {"folder": self.folder, "given": REQUEST * requests + STOP, "expected": REPLY * requests}

    def instructions(self, settings: dict[str, str]) -> float:
        few, many = (
            measure.count_instructions(self.words, settings=settings, **self.stream(requests))[0]
            for requests in (FEW, MANY)
        )
        return (many - few) / (MANY - FEW)

    def system_calls(self) -> dict[str, float]:
        few, many = (measure.count_system_calls(self.words, **self.stream(requests)) for requests in (FEW, MANY))
        more = {name: (many[name] - few.get(name, 0)) / (MANY - FEW) for name in many}
        return {name: count for name, count in more.items() if count != 0}


def write_all(sink: int, piece: bytes) -> None:
    while piece:
        piece = piece[os.write(sink, piece) :]


def read_all(source: int, most: int) -> bytes:
    pieces = []
    while most > 0:
        piece = os.read(source, most)
        if not piece:
            break
        pieces.append(piece)
        most -= len(piece)
    return b"".join(pieces)


def report(worker: Worker) -> None:
    for name, run in (("one at a time", worker.one_at_a_time), ("all at once", worker.all_at_once)):
        times = [run() for _ in range(RUNS)]
        median, best = statistics.median(times), min(times)
        print(f"{name}: {median:.1f} microseconds a request, at best {best:.1f} (goal {MOST_MICROSECONDS})")
    if shutil.which("valgrind") is None:
        print("the instructions weren't counted: there is no valgrind here")
    else:
        counted, stepwise = worker.instructions({}), worker.instructions(measure.STEPWISE)
        print(
            f"instructions a request: {counted:.0f} (goal {MOST_INSTRUCTIONS}),"
            f" and {stepwise:.0f} where clearing and copying aren't counted byte by byte"
        )
    if shutil.which("strace") is None:
        print("the system calls weren't counted: there is no strace here")
    else:
        calls = worker.system_calls()
        # Two reads of the request's head and body, and the write of its reply, aren't for the file.
        for_a_file = sum(calls.values()) - 3
        named = ", ".join(f"{name} {count:g}" for name, count in sorted(calls.items()))
        print(f"system calls a request: {named}; {for_a_file:g} for the file (goal {MOST_CALLS_FOR_A_FILE})")


def main() -> None:
    program = measure.leases_program()
    requests = int(sys.argv[2]) if len(sys.argv) > 2 else REQUESTS
    with tempfile.TemporaryDirectory() as name:
        folder = pathlib.Path(name)
        (folder / FILE).write_bytes(FILE_BYTES)
        report(Worker([program, "worker"], folder, requests))


if __name__ == "__main__":
    main()
