#!/usr/bin/env python3
"""Tries examples/far-worker with an ssh server of its own on the loopback address, and breaks the connection in each way of its table.

A run asks 400 items of a far worker, and one of them is a named pipe in the far folder: the far worker opens it and waits, so it is
broken off in the middle of the run, at a known item. The next items are asked of a new one. Not part of the gate. It starts an
sshd with keys and a configuration of its own in a temporary folder, as the user who runs it, and stops it at the end.

    bench/far_worker.py [PROGRAM]
"""

import collections
import contextlib
import os
import pathlib
import shutil
import signal
import socket
import subprocess
import sys
import tempfile
import time

import measure

SCRIPT = measure.TOP / "examples/far-worker/far.sh"
ITEMS = 400
HERE, FAR = b"one\n", b"one\ntwo\n"
RIGHT = "2"
# The keep-alive of far.sh gives a silent connection up after 15 seconds, and a run that waits for ever waits longer.
MOST_SECONDS = 30
LONG = 20

SERVER = """Port {port}
ListenAddress 127.0.0.1
HostKey {folder}/host
PidFile {folder}/pid
AuthorizedKeysFile {folder}/user.pub
StrictModes no
UsePAM no
PasswordAuthentication no
"""
CLIENT = """Host far
HostName 127.0.0.1
Port {port}
User {user}
IdentityFile {folder}/user
UserKnownHostsFile {folder}/known
StrictHostKeyChecking accept-new
Host closed
HostName 127.0.0.1
Port 1
"""
HEAD = '[[project]]\nname = "p"\n\n[[requirements]]\nname = "far"\nexecutable = "./far.sh"\nargs = ["{}", "{}", "{}"]\n'
TASK = '\n[[task]]\nname = "t"\nproject = "p"\n\n[[task.action]]\nwait = "release"\n'
ITEM = '\n[[task.action.item]]\ndo = "lines"\nfile = "{}"\nisolation = "process"\nrequirements = "far"\n'


def free_port() -> int:
    with socket.socket() as taken:
        taken.bind(("127.0.0.1", 0))
        return taken.getsockname()[1]


class Place:
    """A folder with a server, a folder for the run, and one for the far worker."""

    def __init__(self, folder: pathlib.Path, leases: str) -> None:
        self.folder, self.leases = folder, leases
        self.here, self.there = folder / "here", folder / "far folder"
        for place, text in [(self.here, HERE), (self.there, FAR)]:
            place.mkdir()
            (place / "a.txt").write_bytes(text)
        # As far.sh is, with this server's configuration, and with a word in its log of what it started.
        script = SCRIPT.read_text().replace("exec ssh ", f"exec ssh -F '{folder}/client' ")
        (self.here / "far.sh").write_text(script)
        (self.here / "far.sh").chmod(0o755)
        self.program = folder / "far leases"
        shutil.copy(leases, self.program)
        for name in ("host", "user"):
            subprocess.run(["ssh-keygen", "-q", "-t", "ed25519", "-N", "", "-f", folder / name], check=True)
        names = {"port": free_port(), "folder": folder, "user": os.environ.get("USER") or subprocess.getoutput("id -un")}
        (folder / "server").write_text(SERVER.format(**names))
        (folder / "client").write_text(CLIENT.format(**names))
        if os.geteuid() == 0:
            os.makedirs("/run/sshd", exist_ok=True)
        sshd = shutil.which("sshd", path=os.environ["PATH"] + ":/usr/sbin:/sbin")
        self.server = subprocess.Popen([sshd, "-D", "-f", folder / "server", "-E", folder / "log"])
        time.sleep(1)

    def script_there(self, name: str, text: str) -> str:
        """A program in the far folder: a script."""
        path = self.folder / name
        path.write_text("#!/bin/sh\n" + text)
        path.chmod(0o755)
        return str(path)

    def start(self, files: list[str], host: str = "far", where: str = "", program: str = "") -> subprocess.Popen:
        words = HEAD.format(host, where or self.there, program or self.program)
        (self.here / "plan.toml").write_text(words + TASK + "".join(ITEM.format(file) for file in files))
        run = [self.leases, "run", "plan.toml", "--threads", "1"]
        return subprocess.Popen(run, cwd=self.here, stdout=subprocess.PIPE, stderr=subprocess.PIPE, text=True)

    def start_with_pipe(self, program: str = "") -> tuple[subprocess.Popen, int]:
        """A run whose far worker stands at a named pipe, and the pipe's end here."""
        pipe = self.there / "pipe"
        pipe.unlink(missing_ok=True)
        os.mkfifo(pipe)
        files = ["a.txt"] * ITEMS
        files[ITEMS // 2] = "pipe"
        run = self.start(files, program=program)
        for _ in range(MOST_SECONDS * 20):
            with contextlib.suppress(OSError):
                return run, os.open(pipe, os.O_WRONLY | os.O_NONBLOCK)
            time.sleep(0.05)
        run.kill()
        raise TimeoutError("no far worker opened the pipe")

    def workers(self) -> list[int]:
        """The far workers: the processes of the far program that stand in the far folder."""
        found = []
        for entry in pathlib.Path("/proc").iterdir():
            with contextlib.suppress(OSError, ValueError):
                if os.readlink(entry / "exe") == str(self.program) and os.readlink(entry / "cwd") == str(self.there):
                    found.append(int(entry.name))
        return found


def parent(process: int) -> int:
    return int(pathlib.Path(f"/proc/{process}/stat").read_text().rsplit(")", 1)[1].split()[1])


def outcomes(run: subprocess.Popen) -> str:
    """How often each outcome came, the status, and what stood on standard error."""
    out, err = run.communicate(timeout=MOST_SECONDS)
    values = collections.Counter(line.split()[-1] for line in out.splitlines() if line.startswith("  lines "))
    counted = ", ".join(f"{count} {'right' if value == RIGHT else value}" for value, count in sorted(values.items()))
    said = f"; on standard error: {err.strip().splitlines()[-1]}" if err.strip() else ""
    return f"{counted}; status {run.returncode}{said}"


def demand(name: str, found: str, *wanted: str) -> None:
    well = all(part in found for part in wanted)
    print(f"{'ok' if well else 'WRONG'}: {name}: {found}")
    demand.failed += not well


demand.failed = 0


def broken_at_once(place: Place) -> None:
    demand("all is well", outcomes(place.start(["a.txt"] * 3)), "3 right; status 0")
    demand("port closed", outcomes(place.start(["a.txt"] * 3, host="closed")), "3 fault; status 1", "Connection refused")
    demand("no such folder", outcomes(place.start(["a.txt"] * 3, where="/no/folder")), "3 fault; status 1", "/no/folder")
    demand("no such program", outcomes(place.start(["a.txt"] * 3, program="/no/program")), "3 fault; status 1", "/no/program")
    noisy = place.script_there("noisy", f"echo Welcome\nexec '{place.program}' worker\n")
    demand("words before a reply", outcomes(place.start(["a.txt"] * 3, program=noisy)), "3 fault; status 1")


def broken_in_mid_run(place: Place, name: str, whom: str, what: signal.Signals, least: float) -> None:
    """Sends a signal to the far worker, to its session there, or to ssh here, while the far worker stands at the pipe."""
    run, end = place.start_with_pipe()
    worker = place.workers()[0]
    ssh = int(subprocess.check_output(["pgrep", "-P", str(run.pid)]).split()[0])
    victim = {"worker": worker, "session": parent(worker), "ssh": ssh}[whom]
    began = time.monotonic()
    os.kill(victim, what)
    found = outcomes(run)
    took = time.monotonic() - began
    with contextlib.suppress(OSError):
        os.kill(victim, signal.SIGKILL)
    os.close(end)
    demand(f"{name}, after {took:.1f} s", found, f"{ITEMS - 1} right, 1 fault; status 1" if took >= least else "too soon")


def far_worker_frozen(place: Place) -> None:
    run, end = place.start_with_pipe()
    worker = place.workers()[0]
    os.kill(worker, signal.SIGSTOP)
    time.sleep(LONG)
    waits = "waits" if run.poll() is None else "has ended"
    os.kill(worker, signal.SIGCONT)
    os.write(end, FAR)
    os.close(end)
    demand(f"far worker frozen for {LONG} s", f"{waits}; once it goes on: {outcomes(run)}", "waits", f"{ITEMS} right; status 0")
    limited = place.script_there("limited", f"exec timeout 3 '{place.program}' worker\n")
    run, end = place.start_with_pipe(program=limited)
    worker = place.workers()[0]
    os.kill(worker, signal.SIGSTOP)
    demand("far worker frozen, with a timeout there", outcomes(run), f"{ITEMS - 1} right, 1 fault; status 1")
    os.close(end)


def run_killed(place: Place) -> None:
    run, end = place.start_with_pipe()
    run.kill()
    run.wait()
    os.close(end)
    time.sleep(1)
    demand("the run killed by signal 9", f"{len(place.workers())} far workers a second later", "0 far workers")


def time_items(place: Place) -> None:
    """What an item takes, with the start of the connection spread over the items."""
    began = time.monotonic()
    said = outcomes(place.start(["a.txt"] * 2 * ITEMS))
    demand("time", f"{(time.monotonic() - began) / (2 * ITEMS) * 1e6:.0f} microseconds an item, {said}", "status 0")


def main() -> None:
    measure.skip_without("ssh", "ssh-keygen", "timeout")
    if shutil.which("sshd", path=os.environ["PATH"] + ":/usr/sbin:/sbin") is None:
        print("skipped: there is no sshd here")
        return
    with tempfile.TemporaryDirectory() as name:
        place = Place(pathlib.Path(name), measure.leases_program())
        try:
            broken_at_once(place)
            broken_in_mid_run(place, "far worker killed", "worker", signal.SIGKILL, 0)
            broken_in_mid_run(place, "connection killed there", "session", signal.SIGKILL, 0)
            broken_in_mid_run(place, "connection killed here", "ssh", signal.SIGKILL, 0)
            broken_in_mid_run(place, "connection frozen", "session", signal.SIGSTOP, 5)
            far_worker_frozen(place)
            run_killed(place)
            time_items(place)
        finally:
            place.server.terminate()
            place.server.wait()
    sys.exit(1 if demand.failed else 0)


main()
