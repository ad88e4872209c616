#!/usr/bin/env python3
"""Counts instructions of the reading of frames.

Copies the crates into a temporary folder, and adds a small program, which is proved and built there as the gate builds.
It reads streams of requests with short and with long names, of replies with numbers and with digests, and of all
frames mixed: in one piece, in pieces of 4,096 and of 64 bytes, and byte by byte. What is counted is `feed` and the
release of the frames that it gives. Printed are the instructions a byte and a frame, and how many times as many there are
for a stream eight times as long. At the end stand frames of version 1 and 2 side by side, in streams of 32 KiB in one piece:
their decoding, and their encoding with the release of the bytes, by a second program. Not part of the gate. Skips, with
status 0, where valgrind or rt is missing.

    bench/frames.py [KIB]

Measured: instructions a byte in one piece: requests with names of 5 bytes 37.3, of 60 bytes 19.0, replies 5.4 and 2.6, all kinds 15.5; by
pieces of 4,096 bytes 31.8, 18.0, 5.8, 3.1, 16.7; byte by byte 122 to 153. Eight times the stream takes 7.2 to 8.4 times as many. Version 2
takes 2.3 to 8.0 instructions a frame more to decode and 11.8 to 13.0 more to encode (goal 2).

All 13.0 are the program's own: of a reply 113 in version 1 and 126 in version 2, and memory takes 147 in both. Of 706 instructions that a
request with a name of 5 bytes takes to decode, about 240 take memory, 110 give it back, 125 are the name's form, 75 UTF-8, and most others copy
frames, whose list grows by doubling. An unproved build with other inlining takes 3.0 more to encode any frame of version 2, 5.0 more to
decode a request, and 11 fewer to decode a reply. Tried in it: the mode's byte as a number, so that both modes are written by one call; that
takes 6.0 more.
"""

import pathlib
import random
import struct
import sys
import tempfile

import measure

BELOW = ["item_actions", "daemon_protocol", "frame_decoder"]
PROGRAM = "frame_probe"
ENCODER = "encode_probe"

# The goal: the most instructions a byte in large pieces.
MOST_A_BYTE = 20.0
# The longer stream, and how many times as many instructions it may take.
TIMES = 8
MOST_GROWTH = 8.8
# The goal: the most instructions that a frame of version 2 takes more than one of version 1, and the streams' bytes.
MOST_MORE = 2.0
SIDE_BY_SIDE = 32 << 10

SIZES = {"one piece": 1 << 30, "4,096": 4096, "64": 64, "1": 1}
LARGE = ("one piece", "4,096")

SHORT_NAME = b"a.txt"
LONG_NAME = b"src/main/java/org/example/project/module/ClassNumber%03d.java"


def frame(tag: int, body: bytes) -> bytes:
    return struct.pack(">BI", tag, len(body)) + body


def request(unit: int, action: bytes, name: bytes) -> bytes:
    return frame(1, struct.pack(">I", unit) + action + struct.pack(">H", len(name)) + name)


def reply(unit: int, outcome: bytes) -> bytes:
    return frame(2, struct.pack(">I", unit) + outcome)


def in_mode(make):
    """The same frame of version 2, in the mode `session`."""

    def made(unit: int) -> bytes:
        first = make(unit)
        return first if first[0] == 3 else frame(0x10 + first[0], first[5:9] + b"\x01" + first[9:])

    return made


def short_request(unit: int) -> bytes:
    return request(unit, b"\x01", SHORT_NAME)


def long_request(unit: int) -> bytes:
    return request(unit, b"\x06", LONG_NAME % (unit % 1000))


def number_reply(unit: int) -> bytes:
    return reply(unit, b"\x01" + struct.pack(">Q", unit * 1000))


def digest_reply(unit: int) -> bytes:
    return reply(unit, b"\x02" + random.Random(unit).randbytes(32))


def any_frame(unit: int) -> bytes:
    kinds = [
        lambda: request(unit, bytes([1 + unit // 8 % 4]), SHORT_NAME),
        lambda: long_request(unit),
        lambda: request(unit, b"\x05\x03the", b"src/text-%d.txt" % unit),
        lambda: number_reply(unit),
        lambda: digest_reply(unit),
        lambda: reply(unit, bytes([3 + unit // 8 % 4])),
        lambda: number_reply(unit),
        lambda: frame(3, b""),
    ]
    return kinds[unit % len(kinds)]()


VERSION_2 = ", version 2"

KINDS = {
    "short names": short_request,
    "long names": long_request,
    "numbers": number_reply,
    "digests": digest_reply,
    "mixed": any_frame,
}

STREAMS = KINDS | {name + VERSION_2: in_mode(make) for name, make in KINDS.items()}


def stream_of(make, size: int) -> tuple[bytes, int]:
    """Whole frames of about so many bytes, and their number."""
    frames, made = [], 0
    while made < size:
        frames.append(make(len(frames)))
        made += len(frames[-1])
    return b"".join(frames), len(frames)


def instructions(program: str, size: int, file: pathlib.Path, frames: int) -> int:
    """Those of one round: of a run with it, less one without."""
    with_it, without = (
        measure.count_instructions(
            [program, str(rounds), str(size), str(file)], f"{frames} 0\n".encode() * rounds, settings=measure.STEPWISE
        )[0]
        for rounds in (1, 0)
    )
    return with_it - without


def measure_stream(program: str, folder: pathlib.Path, name: str, bytes_wanted: int) -> bool:
    good = True
    shorter, few = stream_of(STREAMS[name], bytes_wanted // TIMES)
    longer, many = shorter * TIMES, few * TIMES
    short_file, long_file = folder / "shorter", folder / "longer"
    short_file.write_bytes(shorter)
    long_file.write_bytes(longer)
    for what, size in SIZES.items():
        less = instructions(program, size, short_file, few)
        more = instructions(program, size, long_file, many)
        a_byte, growth = more / len(longer), more / less
        goal = f" (goal {MOST_A_BYTE:.0f})" if what in LARGE else ""
        print(
            f"{name:22} {what:>9}: {a_byte:6.1f} instructions a byte{goal}, {more / many:7.1f} a frame of"
            f" {len(longer) / many:4.1f} bytes, growth {growth:.2f}"
        )
        good = good and growth <= MOST_GROWTH and (what not in LARGE or a_byte <= MOST_A_BYTE)
    return good


def encoding(program: str, file: pathlib.Path, bytes_in: int) -> int:
    """The instructions of one round of encoding the frames of a file: of a run with two, less one with one."""
    two, one = (
        measure.count_instructions(
            [program, str(rounds), str(file)], f"{bytes_in}\n".encode() * rounds, settings=measure.STEPWISE
        )[0]
        for rounds in (2, 1)
    )
    return two - one


def measure_versions(decoder: str, encoder: str, folder: pathlib.Path) -> bool:
    good = True
    for name in KINDS:
        counts = []
        for version in (name, name + VERSION_2):
            stream, number = stream_of(STREAMS[version], SIDE_BY_SIDE)
            file = folder / "stream"
            file.write_bytes(stream)
            decoded = instructions(decoder, 1 << 30, file, number) / number
            counts.append((decoded, encoding(encoder, file, len(stream)) / number))
        for what, (first, second) in zip(("decoding", "encoding"), zip(*counts)):
            more = second - first
            print(
                f"{name:22} {what}: {first:7.1f} instructions a frame in version 1, {second:7.1f} in version 2:"
                f" {more:+6.1f} (goal {MOST_MORE:.0f})"
            )
            good = good and more <= MOST_MORE
    return good


def main() -> None:
    measure.skip_without("valgrind", "rt")
    bytes_wanted = (int(sys.argv[1]) if len(sys.argv) > 1 else 512) << 10
    with tempfile.TemporaryDirectory() as name:
        folder = pathlib.Path(name)
        workshop = measure.Workshop(folder, BELOW)
        workshop.add(PROGRAM, *BELOW, "anyhow")
        workshop.add(ENCODER, *BELOW, "anyhow")
        program = workshop.build(PROGRAM)
        encoder = workshop.build(ENCODER)
        results = [measure_stream(program, folder, stream, bytes_wanted) for stream in STREAMS]
        results.append(measure_versions(program, encoder, folder))
    sys.exit(0 if all(results) else 1)


if __name__ == "__main__":
    main()
