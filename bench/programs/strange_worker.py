#!/usr/bin/env python3
"""A worker of the bench daemons.py, which answers requests as its first argument behind `worker` says.

    strange_worker.py worker MODE [NUMBER] ...

What stands behind is not looked at: it marks the process, so that the bench finds it among others.
"""

import os
import struct
import sys
import time

IN, OUT = 0, 1
REQUEST, REPLY, STOP = 1, 2, 3
NUMBER = 1


def take(count: int) -> bytes:
    pieces = b""
    while len(pieces) < count:
        piece = os.read(IN, count - len(pieces))
        if not piece:
            sys.exit(0)
        pieces += piece
    return pieces


def put(piece: bytes) -> None:
    while piece:
        piece = piece[os.write(OUT, piece) :]


def next_unit(hears_stop: bool) -> int:
    """The unit of the next request. At a Stop, if it is heard, and at the end of the input the process ends."""
    while True:
        tag, length = struct.unpack(">BI", take(5))
        body = take(length)
        if tag == REQUEST:
            return struct.unpack(">I", body[:4])[0]
        if hears_stop:
            sys.exit(0)


def reply_for(unit: int) -> bytes:
    """The reply that says 3."""
    return struct.pack(">BIIBQ", REPLY, 13, unit, NUMBER, 3)


def answer(mode: str, number: int, unit: int) -> None:
    if mode == "cut":
        put(reply_for(unit)[:number])
        sys.exit(0)
    elif mode == "killed":
        put(reply_for(unit)[:number])
        os.kill(os.getpid(), 9)
    elif mode == "nonsense":
        put(b"\xff" * 64)
    elif mode == "much":
        put(struct.pack(">BI", REPLY, 2**32 - 1) + bytes(100_000))
    elif mode == "other":
        put(reply_for(unit + 1))
    elif mode == "closes":
        os.close(OUT)
    elif mode == "slow":
        time.sleep(number / 1000)
        put(reply_for(unit))
    else:
        put(reply_for(unit))


def main() -> None:
    mode = sys.argv[2]
    number = int(sys.argv[3]) if sys.argv[3:] and sys.argv[3].isdigit() else 0
    if mode == "gone":
        sys.exit(0)
    while True:
        answer(mode, number, next_unit(mode != "deaf"))


try:
    main()
except BrokenPipeError:
    # The program was killed, and nobody reads the reply.
    sys.exit(0)
