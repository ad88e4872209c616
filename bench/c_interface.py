#!/usr/bin/env python3
"""Builds the C interface, tests it under tools that find mistakes of memory and of threads, and times it.

The archive is made by c/build.sh, which needs the command rt and proves crates/wakhurmi_c where that is still to be done. Then

* examples/embedding-in-c runs, and examples/embedding-in-rust where cargo is there; the history of the first is replayed, and checked
  by the program `leases` against a plan of three projects without tasks;
* bench/programs/c_calls compares answers with those that are known beforehand: to misuse, in the child of a fork, at deadlines, after stops;
* bench/programs/c_cancel cancels 10,000 threads at random moments; the history is replayed and checked;
* bench/programs/c_history has histories taken in parts, by threads that are cancelled too, and services keep their last entries; parts that
  stand behind each other are replayed and checked. bench/programs/c_refused refuses memory to each allocation of that;
* bench/programs/c_rounds checks four threads over 400,000 rounds, while a fifth asks for the leases: never more at work than may be, one
  owner a lock; the history is replayed and checked;
* bench/programs/c_options opens services with the all-projects lock, and with the maxima of shared services; eight threads take them, never beside each
  other's and never more than may be, and their histories are replayed;
* bench/programs/c_steps makes the steps of calls that wait in one thread, and compares whom they wake with what is known beforehand;
* bench/programs/c_many has 256 workers that take locks of their own, or share eight locks and fewer leases; their histories are replayed;
* bench/programs/c_plan runs plans that are made by numbers on 1 to 32 threads, compares each outcome with a reckoning of its own, and stops some;
  histories are replayed by examples/plan-in-c/replay.py. bench/programs/c_plan_refused refuses memory to each allocation of a plan;
* bench/programs/c_turns has threads want the same locks all the time, and bench/programs/c_taking takes histories, and keeps last entries, beside
  threads that work.
  All of these run under memcheck and helgrind too, and built with the compiler's sanitizers, with less to do. Helgrind and the sanitizer of
  threads follow no lock of the proved library, so for them its calls are made one at a time under a mutex;
* a take and a hand-back are timed in processor time, by one thread and by four, beside a plain mutex with a counter.

Tools that aren't there are passed over, and said so; so is `leases`, which is the script's first word, or the program that `./leases`
builds. Not part of the gate.

    bench/c_interface.py [PROGRAM]

Measured: a take and a hand-back of a lease take 221 to 290 ns of a processor alone, 5.8 times the plain mutex by the medians (goal 4), and 367 to
473 ns with four threads, 0.5 times (goal 2.5); 783 instructions, and 28 bytes of history an entry. Where four threads work 5 or 20
microseconds between calls the mean of a call is at most 1.0 microseconds, and 999 in 1,000 take at most 80.
"""

import os
import pathlib
import shlex
import shutil
import statistics
import subprocess
import sys
import tempfile

import measure

TOP = measure.TOP
EXAMPLE, PLANS = TOP / "examples/embedding-in-c", TOP / "examples/plan-in-c"
LEASES = pathlib.Path(sys.argv[1]).resolve() if len(sys.argv) > 1 else TOP / "out/leases"
NAMES = ("c_rounds", "c_options", "c_calls", "c_steps", "c_cancel", "c_history", "c_refused", "c_turns", "c_taking", "c_many", "c_plan", "c_plan_refused")
PROGRAMS = [TOP / f"bench/programs/{name}/{name}.c" for name in NAMES] + [EXAMPLE / "eight.c"]
# Programs that refuse memory have calls of these from the archive come to functions of their own.
WRAPS = [f"-Wl,--wrap={name}" for name in ("malloc", "realloc", "calloc", "aligned_alloc")]
ROUNDS, FEWER_ROUNDS, FEW_ROUNDS = 100_000, 10_000, 2_000
CANCELLED, FEWER_CANCELLED, FEW_CANCELLED = 10_000, 2_000, 400
TIMED_ROUNDS = 400_000
TURNS = 9

# The goals: how many times as long as a plain mutex with a counter a take and a hand-back take together.
MOST_ALONE = 4.0
MOST_CONTENDED = 2.5

ONE_AT_A_TIME = "-DWAKHURMI_ONE_AT_A_TIME"
SANITIZERS = {
    "threads": ["-fsanitize=thread", ONE_AT_A_TIME],
    "addresses and of what isn't defined": ["-fsanitize=address,undefined", "-fno-sanitize-recover=all"],
}
# Where a thread is cancelled, the sanitizer of addresses takes what it does itself with the thread's stack for a mistake.
SETTINGS = {**os.environ, "ASAN_OPTIONS": "use_sigaltstack=0"}
VALGRIND = ["valgrind", "-q", "--error-exitcode=9"]
# Without a fair schedule one thread may run for minutes while another is to be woken.
HELGRIND = ["--tool=helgrind", "--fair-sched=yes"]
# The system's own wait may signal the condition that it waits for, without the mutex. Helgrind takes that for a program's mistake.
SUPPRESSED = """{
   a signal of the system's own
   Helgrind:Misc
   obj:*/vgpreload_helgrind-*.so
   fun:__pthread_cond_wait_common
   ...
}
"""
# What is measured elsewhere, and only tried here.
TRIED = ("c_turns leaving 8 1 20000 1", "c_turns service 8 2 1000000 1", "c_turns several 5 4 1500000 1", "c_turns all 5 4 1500000 1",
         "c_turns uses 5 4 1500000 1", "c_taking memory 8 {rounds} 1000", "c_taking kept 8 {rounds} 1000", "c_taking waits 8 1 1000",
         "c_taking hold 1000")


def call(words: list[str], **more: object) -> str:
    run = subprocess.run(words, capture_output=True, text=True, **more)
    if run.returncode:
        sys.exit(f"{' '.join(words)} ended with status {run.returncode}\n{run.stdout[-2000:]}{run.stderr[-4000:]}")
    return run.stdout


def build(folder: pathlib.Path, name: str, *flags: str) -> pathlib.Path:
    """The folder with an archive that was built with these flags, beside the programs."""
    made = folder / name
    call([str(TOP / "c/build.sh"), str(made), *flags])
    settings = {**os.environ, "PKG_CONFIG_PATH": str(made)}
    words = shlex.split(call(["pkg-config", "--cflags", "--libs", "wakhurmi"], env=settings)) if shutil.which("pkg-config") else [
        f"-I{made}", f"-L{made}", "-lwakhurmi", "-pthread"
    ]
    for source in PROGRAMS:
        more = WRAPS if source.stem.endswith("_refused") else []
        call(["cc", "-O2", "-g", "-Wall", "-Wextra", "-Werror", *flags, str(source), "-o", str(made / source.stem), *words, *more])
    return made


def replayed_of(history: str, *words: str) -> str:
    return call([str(EXAMPLE / "replay.py"), *words], input=history).strip()


def judged(history: str, *words: str) -> str:
    """What the replay and `leases check` say of a history. Where one of them refuses it, the bench ends."""
    replayed = replayed_of(history, *words)
    if not os.access(LEASES, os.X_OK):
        return f"replayed: {replayed}; leases check: passed over, there is no {LEASES.name}"
    checked = call([str(LEASES), "check", "plan.toml"], input=history, cwd=EXAMPLE).strip()
    if checked != replayed:
        sys.exit(f"the replay says {replayed}, and leases check says {checked}")
    return f"replayed and checked: {checked}"


def check_plans(program: pathlib.Path, rounds: int, tool: list[str], what: str) -> None:
    call([*tool, str(program), "run", str(rounds // 10), "0"], env=SETTINGS)
    call([*tool, str(program), "stop", str(rounds // 100)], env=SETTINGS)
    print(f"{what}: {rounds // 10} plans on 1 to 32 threads came to their outcomes, and {rounds // 100} were stopped", flush=True)
    histories = call([*tool, str(program), "history", str(rounds // 100), "0"], env=SETTINGS)
    print(f"{what}: {call([str(PLANS / 'replay.py')], input=histories).strip()}", flush=True)


def check(made: pathlib.Path, rounds: int, cancelled: int, tool: list[str], what: str) -> None:
    call([*tool, str(made / "c_calls")], env=SETTINGS)
    call([*tool, str(made / "c_steps")], env=SETTINGS)
    call([*tool, str(made / "c_history"), "calls"], env=SETTINGS)
    call([*tool, str(made / "c_options"), "calls"], env=SETTINGS)
    call([*tool, str(made / "c_refused")], env=SETTINGS)
    call([*tool, str(made / "c_plan"), "calls"], env=SETTINGS)
    call([*tool, str(made / "c_plan_refused")], env=SETTINGS)
    print(f"{what}: all answers are those known beforehand", flush=True)
    history = call([*tool, str(made / "c_history"), "parts", "8", str(rounds // 4)], env=SETTINGS)
    print(f"{what}: eight threads, {2 * rounds} rounds, the history taken in parts: {judged(history)}", flush=True)
    history = call([*tool, str(made / "c_history"), "cancel", str(cancelled // 10)], env=SETTINGS)
    print(f"{what}: {cancelled // 10} threads that took the history were cancelled: {judged(history)}", flush=True)
    history = call([*tool, str(made / "c_cancel"), str(cancelled)], env=SETTINGS)
    print(f"{what}: {cancelled} threads were cancelled: {judged(history)}", flush=True)
    history = call([*tool, str(made / "c_options"), "all", "8", str(rounds // 10)], env=SETTINGS)
    print(f"{what}: eight threads with the all-projects lock: {judged(history, '--all-projects')}", flush=True)
    history = call([*tool, str(made / "c_options"), "uses", "8", str(rounds // 10)], env=SETTINGS)
    print(f"{what}: eight threads with uses of shared services: {replayed_of(history)}", flush=True)
    meetings = [["meeting", "256", leases, str(rounds // 1_000)] for leases in ("60", "4")]
    for words in (["apart", "256", str(rounds // 250)], *meetings):
        history = call([*tool, str(made / "c_many"), *words], env=SETTINGS)
        print(f"{what}: 256 threads, {' '.join(words)}: {replayed_of(history)}", flush=True)
    history = call([*tool, str(made / "c_rounds"), "check", "4", str(rounds)], env=SETTINGS)
    print(f"{what}: four threads, {4 * rounds} rounds: {judged(history)}", flush=True)
    check_plans(made / "c_plan", rounds, tool, what)
    for tried in TRIED:
        program, *words = tried.format(rounds=rounds).split()
        call([*tool, str(made / program), *words], env=SETTINGS)
    print(f"{what}: no complaint about threads that want the same, nor about histories that are taken meanwhile", flush=True)


def try_in_rust(made: pathlib.Path, folder: pathlib.Path) -> None:
    if shutil.which("cargo") is None:
        print("in Rust: passed over, there is no cargo")
        return
    settings = {**os.environ, "WAKHURMI": str(made), "CARGO_TARGET_DIR": str(folder / "target")}
    example = TOP / "examples/embedding-in-rust"
    call(["cargo", "test", "-q", "--offline", "--release"], cwd=example, env=settings)
    print("in Rust:", judged(call(["cargo", "run", "-q", "--offline", "--release"], cwd=example, env=settings)))


def time_rounds(made: pathlib.Path, threads: int, most: float) -> None:
    program = str(made / "c_rounds")
    turn = lambda kind: float(call([program, kind, str(threads), str(TIMED_ROUNDS)]))
    turns = [(turn("time"), turn("plain")) for _ in range(TURNS)]
    ours, plain = (statistics.median(side) for side in zip(*turns))
    met = "yes" if ours <= most * plain else "no"
    print(f"{threads} threads: {ours:.1f} ns, plain {plain:.1f} ns, {ours / plain:.1f} times as long, goal {most}, met: {met}")


def main() -> None:
    measure.skip_without("rt", "cc", "ar")
    with tempfile.TemporaryDirectory() as name:
        folder = pathlib.Path(name)
        made = build(folder, "plain")
        print("in C:", judged(call([str(made / "eight")])))
        try_in_rust(made, folder)
        check(made, ROUNDS, CANCELLED, [], "as it is")
        for what, flags in SANITIZERS.items():
            check(build(folder, what, "-g", *flags), FEWER_ROUNDS, FEWER_CANCELLED, [], f"sanitizer of {what}")
        if shutil.which("valgrind"):
            check(made, FEW_ROUNDS, FEW_CANCELLED, [*VALGRIND, "--leak-check=full"], "memcheck")
            single = build(folder, "single", "-g", ONE_AT_A_TIME)
            (folder / "suppressed").write_text(SUPPRESSED)
            check(single, FEW_ROUNDS, FEW_CANCELLED, [*VALGRIND, *HELGRIND, f"--suppressions={folder}/suppressed"], "helgrind")
        else:
            print("memcheck, helgrind: passed over, there is no valgrind")
        time_rounds(made, 1, MOST_ALONE)
        time_rounds(made, 4, MOST_CONTENDED)


main()
