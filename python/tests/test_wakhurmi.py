"""Tests of the Python module, over the library that WAKHURMI or the loader names. In the folder above: python3 -m unittest discover tests"""

import copy
import ctypes
import gc
import math
import os
import pathlib
import re
import signal
import subprocess
import sys
import textwrap
import threading
import time
import unittest
import weakref
from typing import Callable, Dict, Iterable, List, Tuple, Type

PYTHON = pathlib.Path(__file__).resolve().parent.parent
sys.path.insert(0, str(PYTHON))

import wakhurmi  # noqa: E402
from wakhurmi import BadNumber, Busy, Misused, NoMemory, Part, Service, Stopped, TimedOut, _errors, _native  # noqa: E402

HEADER = PYTHON.parent / "c/wakhurmi.h"
REPLAY = PYTHON.parent / "examples/embedding-in-c/replay.py"
HEAD = b"history 2\nworkers %d max %d parallel yes locks %d\n"
# Where a wait is sure to have begun, and where it is sure to have ended.
A_WHILE, LONG = 0.05, 60.0


def in_thread(call: Callable[..., object], *arguments: object) -> "Thread":
    thread = Thread(call, arguments)
    thread.start()
    return thread


class Thread(threading.Thread):
    """A thread whose call's error its `outcome` tells."""

    def __init__(self, call: Callable[..., object], arguments: Tuple[object, ...]) -> None:
        super().__init__(daemon=True)
        self.call, self.arguments, self.error = call, arguments, None

    def run(self) -> None:
        try:
            self.call(*self.arguments)
        except Exception as error:  # pylint: disable=broad-except
            self.error = error

    def outcome(self) -> object:
        self.join(LONG)
        assert not self.is_alive(), "it waits"
        return self.error


def in_thread_raises(call: Callable[..., object], *arguments: object) -> Callable[[], None]:
    """What raises here the error that the call raises in another thread."""

    def make() -> None:
        error = in_thread(call, *arguments).outcome()
        if isinstance(error, Exception):
            raise error

    return make


def run_python(text: str, *arguments: str) -> subprocess.Popen:
    words = [sys.executable, "-W", "ignore", "-c", textwrap.dedent(text), *arguments]
    how = {"stdin": subprocess.PIPE, "stdout": subprocess.PIPE, "stderr": subprocess.STDOUT, "universal_newlines": True}
    return subprocess.Popen(words, env={**os.environ, "PYTHONPATH": str(PYTHON)}, **how)


def rest_of(child: subprocess.Popen) -> str:
    """What it says yet, once it has ended. What was read before may have been read ahead of."""
    timer = threading.Timer(4 * LONG, child.kill)
    timer.start()
    with child:
        said = child.stdout.read()
    timer.cancel()
    return said


class Case(unittest.TestCase):
    def service(self, workers: int = 3, max_leases: int = 2, locks: int = 3, **how: int) -> Service:
        service = Service(workers, max_leases, locks, **how)
        self.addCleanup(service.close)
        return service

    def assert_refused(self, error: Type[Exception], calls: Iterable[Callable[[], object]]) -> None:
        for number, call in enumerate(calls):
            with self.subTest(number), self.assertRaises(error):
                call()

    def entries(self, service: Service) -> List[bytes]:
        """Those of the ended service, without their numbers."""
        return [line.rstrip(b"\n").partition(b" ")[2] for line in list(service.history())[2:-1]]

    def assert_lawful(self, text: bytes, *words: str) -> int:
        ran = subprocess.run([sys.executable, str(REPLAY), *words], input=text, stdout=subprocess.PIPE, stderr=subprocess.STDOUT, check=False)
        self.assertEqual(ran.returncode, 0, ran.stdout)
        return int(ran.stdout.split()[1])


class HeaderTests(unittest.TestCase):
    KINDS = {
        "uint32_t": ctypes.c_uint32,
        "uint64_t": ctypes.c_uint64,
        "size_t": ctypes.c_size_t,
        "char *": ctypes.c_char_p,
        "wakhurmi_service *": ctypes.c_void_p,
        "wakhurmi_part *": ctypes.c_void_p,
        "wakhurmi_service **": ctypes.POINTER(ctypes.c_void_p),
        "wakhurmi_part **": ctypes.POINTER(ctypes.c_void_p),
        "uint32_t *": ctypes.POINTER(ctypes.c_uint32),
        "uint64_t *": ctypes.POINTER(ctypes.c_uint64),
        "size_t *": ctypes.POINTER(ctypes.c_size_t),
        "struct timespec *": ctypes.POINTER(_native._Time),
        "wakhurmi_options *": ctypes.POINTER(_native._Options),
        "wakhurmi_plan *": ctypes.c_void_p,
        "wakhurmi_plan **": ctypes.POINTER(ctypes.c_void_p),
        "wakhurmi_retention": ctypes.c_uint,
        "wakhurmi_work *": ctypes.POINTER(_native._Work),
        "wakhurmi_outcome *": ctypes.POINTER(ctypes.c_uint),
        "wakhurmi_do": ctypes.c_void_p,
        "void *": ctypes.c_void_p,
        "bool": ctypes.c_bool,
    }

    def kind_of(self, parameter: str) -> object:
        found = re.fullmatch(r"(?:const )?(.*?)\w+", " ".join(parameter.split()))
        assert found is not None
        return self.KINDS[found[1].strip()]

    def test_each_function_of_the_header_is_called_as_it_is_declared(self) -> None:
        text = re.sub(r"/\*.*?\*/", "", HEADER.read_text(), flags=re.S)
        declared: Dict[str, Tuple[object, ...]] = {}
        for answer, name, parameters in re.findall(r"^(wakhurmi_answer|void) (\w+)\((.*?)\);", text, re.M | re.S):
            declared[name] = tuple(self.kind_of(parameter) for parameter in parameters.split(","))
            function = getattr(_native._library, name)
            self.assertEqual(function.restype, None if answer == "void" else ctypes.c_uint, name)
            self.assertEqual(function.argtypes, declared[name], name)
        self.assertEqual(set(declared), set(_native._SIGNATURES))

    def test_each_answer_of_the_header_is_an_error(self) -> None:
        answers = {int(number): name for name, number in re.findall(r"WAKHURMI_(\w+) = (\d+)", HEADER.read_text())}
        self.assertEqual(answers.pop(0), "OK")
        named = {number: error.__name__.upper() for number, error in _errors._ERRORS.items()}
        self.assertEqual({number: name.replace("_", "") for number, name in answers.items()}, named)
        for error in _errors._ERRORS.values():
            self.assertTrue(issubclass(error, wakhurmi.Error) and error.__name__ in wakhurmi.__all__)
        for error, builtin in ((TimedOut, TimeoutError), (NoMemory, MemoryError), (BadNumber, ValueError), (Misused, RuntimeError)):
            self.assertTrue(issubclass(error, builtin))


class CallTests(Case):
    def test_a_history_is_what_the_calls_did(self) -> None:
        service = self.service()
        service.take(0, 0, 2)
        service.take(0, 1)
        service.enter(0)
        service.leave(0, deadline=time.monotonic() + LONG)
        with self.assertRaises(Busy):
            service.try_take(1, 0)
        service.try_take(1)
        self.assertEqual(service.leases_out(), 2)
        service.hand_back(1)
        service.hand_back(0)
        service.finish()
        changes = [
            b"w0 acquire | lock 0, lock 2, take",
            b"w0 acquire | lock 1",
            b"w0 block - | unlock 0, unlock 1, unlock 2, give, park 0, park 1, park 2, enter",
            b"w0 unblock - | leave, unpark 2, lock 2, unpark 1, lock 1, unpark 0, lock 0, take",
            b"w1 acquire | failed",
            b"w1 acquire | take",
            b"w1 handback | give",
            b"w0 handback | unlock 0, unlock 1, unlock 2, give",
        ]
        found = self.entries(service)
        self.assertEqual([set(re.split(b"[|,] ?", line)) for line in found], [set(re.split(b"[|,] ?", line)) for line in changes], found)
        lines = list(service.history())
        self.assertEqual(b"".join(lines[:2]), HEAD % (3, 2, 3))
        self.assertEqual(lines[-1], b"end 8\n")
        self.assertEqual(self.assert_lawful(b"".join(lines)), 8)

    def test_numbers_out_of_range(self) -> None:
        opened = [(0, 1, 1), (257, 1, 1), (1, 0, 1), (1, 257, 1), (1, 1, 65537), (-1, 1, 1), (2**32 + 1, 1, 1), (1, 2**32 + 1, 1), (1, 1, 2**32)]
        self.assert_refused(BadNumber, [lambda numbers=numbers: Service(*numbers) for numbers in opened])
        self.assert_refused(BadNumber, [lambda: Service(1, 1, keeping=-1), lambda: Service(1, 1, keeping=2**64)])
        service = self.service()
        for worker in (3, -1, 2**32, 2**64, -(2**32)):
            calls: List[Callable[..., object]] = [service.take, service.try_take, service.hand_back, service.enter, service.leave]
            self.assert_refused(BadNumber, [lambda call=call, worker=worker: call(worker) for call in calls])
        for locks in ((3,), (-1,), (2**32,), (2**32, 1), (1, 0), (1, 1), (0, 1, 2, 3), tuple(range(5000))):
            self.assert_refused(BadNumber, [lambda locks=locks: service.take(0, *locks), lambda locks=locks: service.try_take(0, *locks)])
        self.assert_refused(BadNumber, [lambda: service.take(0, deadline=math.nan)])
        for wrong in ("0", 0.5, None):
            with self.assertRaises((TypeError, ctypes.ArgumentError)):
                service.take(wrong)  # type: ignore[arg-type]
            with self.assertRaises(TypeError):
                service.take(0, wrong)  # type: ignore[arg-type]
        service.finish()
        self.assertEqual(self.entries(service), [])

    def test_calls_that_do_not_fit(self) -> None:
        service = self.service()
        nothing = [service.hand_back, service.enter, service.leave]
        self.assert_refused(Misused, [lambda call=call: call(0) for call in nothing])
        service.take(0)
        self.assert_refused(Misused, [lambda: service.leave(0), lambda: next(service.history())])
        service.enter(0)
        self.assert_refused(Misused, [lambda call=call: call(0) for call in (service.take, service.try_take, service.hand_back, service.enter)])
        service.leave(0)
        service.finish()
        every = [lambda call=call: call(0) for call in (service.take, service.try_take, *nothing)]
        ended = [service.stop, service.leases_out, service.take_history, service.finish]
        self.assert_refused(Misused, [*every, *ended, lambda: service.take(0, deadline=0)])
        lines = service.history()
        self.assertEqual(next(lines), b"history 2\n")
        service.close()
        service.close()
        self.assertTrue(service.closed)
        self.assert_refused(Misused, [*every, *ended, lambda: list(service.history())])

    def test_it_is_not_copied(self) -> None:
        for owner in (self.service(), Part()):
            self.assert_refused(TypeError, [lambda owner=owner: copy.copy(owner), lambda owner=owner: copy.deepcopy(owner)])

    def test_what_nobody_has_is_closed(self) -> None:
        service, closed = Service(1, 1), []
        weakref.finalize(service, closed.append, True)
        closer = service._closer
        del service
        gc.collect()
        self.assertEqual((closed, closer.alive), ([True], False))

    def test_taking_and_blocking_end_behind_errors(self) -> None:
        service = self.service()
        with self.assertRaises(KeyError), service.taking(0, 1):
            with self.assertRaises(IndexError), service.blocking(0):
                service.try_take(1, 1)
                service.hand_back(1)
                raise IndexError
            self.assertEqual(service.leases_out(), 1)
            self.assert_refused(Busy, [lambda: service.try_take(1, 1)])
            raise KeyError
        self.assertEqual(service.leases_out(), 0)
        with self.assertRaises(Misused), service.taking(0):
            service.hand_back(0)
        with self.assertRaises(KeyError), service.taking(0):
            service.hand_back(0)
            raise KeyError

    def test_a_section_that_cannot_be_left(self) -> None:
        service = self.service(max_leases=1)
        with self.assertRaises(Stopped) as caught, service.taking(0, 0):
            with service.blocking(0):
                service.take(1, 0)
                service.stop()
                raise KeyError
        self.assertIsInstance(caught.exception.__context__, KeyError)
        service.hand_back(1)
        service.leave(0)
        service.hand_back(0)

    def test_a_service_closes_behind_errors(self) -> None:
        with self.assertRaises(KeyError), Service(2, 1) as service:
            service.take(0)
            waits = in_thread(service.take, 1)
            time.sleep(A_WHILE)
            raise KeyError
        self.assertIsInstance(waits.outcome(), (Stopped, Misused))
        with Service(1, 1) as service:
            service.finish()
        self.assertTrue(service.closed)


class OptionTests(Case):
    """Services with the all-projects lock, and with the maxima of shared services."""

    def shared(self, workers: int = 4, max_leases: int = 4, maxima: Tuple[int, ...] = (2, 1, 3), **how: int) -> Service:
        return self.service(workers, max_leases, 0, maxima=maxima, **how)

    def test_the_options_have_the_members_that_the_header_declares(self) -> None:
        found = re.search(r"typedef struct \{([^}]*)\} wakhurmi_options;", re.sub(r"/\*.*?\*/", "", HEADER.read_text(), flags=re.S))
        assert found is not None
        kinds = {"size_t": ctypes.c_size_t, "uint32_t": ctypes.c_uint32, "bool": ctypes.c_bool, "uint64_t": ctypes.c_uint64}
        kinds["const uint32_t *"] = ctypes.POINTER(ctypes.c_uint32)
        members = [(name, kinds[kind.strip()]) for kind, name in re.findall(r"(\S.*?)(\w+);", found[1])]
        self.assertEqual(members, _native._Options._fields_)

    def test_options_out_of_range(self) -> None:
        opened = [(0, 1, 1), (257, 1, 1), (1, 0, 1), (1, 257, 1), (1, 1, 65536), (1, 1, 2**32 - 1), (1, 1, 2**32)]
        self.assert_refused(BadNumber, [lambda numbers=numbers: Service(*numbers, all_projects=True) for numbers in opened])
        maxima = [(), (0,), (33,), (1, 0, 1), (1,) * 65, (-1,), (2**32,), (2**32 + 1,)]
        self.assert_refused(BadNumber, [lambda maxima=maxima: Service(1, 1, maxima=maxima) for maxima in maxima])
        self.assert_refused(BadNumber, [lambda: Service(1, 1, 1, maxima=[1]), lambda: Service(1, 1, maxima=[1], all_projects=True)])
        self.assertEqual((self.shared(maxima=(32,) * 64).maxima, self.service().maxima), ((32,) * 64, None))
        self.assertEqual((self.service(locks=65535, all_projects=True).all_projects, self.service().all_projects), (65535, None))

    def test_the_all_projects_lock_and_the_others(self) -> None:
        service = self.service(workers=3, max_leases=3, locks=2, all_projects=True)
        every = service.all_projects
        assert every is not None
        service.take(0, every)
        self.assert_refused(Busy, [lambda: service.try_take(1, 0), lambda: service.try_take(1, 1), lambda: service.try_take(1, every)])
        self.assert_refused(TimedOut, [lambda: service.take(1, 1, deadline=0)])
        service.take(0, 0)
        waits = [in_thread(service.take, 1, 0), in_thread(service.take, 2, 1)]
        time.sleep(A_WHILE)
        self.assertTrue(all(thread.is_alive() for thread in waits))
        service.hand_back(0)
        self.assertEqual([thread.outcome() for thread in waits], [None, None])
        self.assert_refused(Busy, [lambda: service.try_take(0, every)])
        service.hand_back(1)
        waits = [in_thread(service.take, 0, every)]
        time.sleep(A_WHILE)
        self.assertTrue(waits[0].is_alive())
        service.hand_back(2)
        self.assertIsNone(waits[0].outcome())
        self.assert_refused(BadNumber, [lambda: service.take(1, every + 1)])
        service.hand_back(0)
        service.finish()
        self.assert_lawful(b"".join(service.history()), "--all-projects")

    def test_as_many_use_a_service_as_may(self) -> None:
        service = self.shared()
        service.take_uses(0, 0, 2)
        service.try_take_uses(1, 0)
        self.assert_refused(Busy, [lambda: service.try_take_uses(2, 0), lambda: service.try_take_uses(2, 0, 1)])
        self.assert_refused(TimedOut, [lambda: service.take_uses(2, 0, deadline=0)])
        self.assert_refused(Misused, [lambda: service.take_uses(0, 1), lambda: service.try_take_uses(0)])
        for numbers in ((3,), (1, 0), (0, 0), (2**32 - 1,), (2**32,), (-1,)):
            calls = [lambda numbers=numbers: service.take_uses(2, *numbers), lambda numbers=numbers: service.try_take_uses(2, *numbers)]
            self.assert_refused(BadNumber, [*calls, lambda: service.take_uses(4), lambda: service.take(2, 0), lambda: service.try_take(2, 0)])
        with service.using(2, 1, 2):
            with service.blocking(2):
                service.take_uses(3, 1)
                service.hand_back(3)
            self.assertEqual(service.leases_out(), 3)
        waits = in_thread(service.take_uses, 3, 0)
        time.sleep(A_WHILE)
        self.assertTrue(waits.is_alive())
        service.enter(0)
        self.assertIsNone(waits.outcome())
        service.stop()
        self.assert_refused(Stopped, [lambda: service.leave(0), lambda: service.take_uses(2, 0), in_thread_raises(service.take_uses, 2, 0)])
        self.assert_refused(Misused, [lambda: service.take_uses(0), lambda: service.take(0, 0)])
        service.take(2)
        service.hand_back(3)
        service.leave(0)
        for worker in range(3):
            service.hand_back(worker)
        service.finish()
        self.assert_refused(Misused, [lambda: service.take_uses(0), lambda: service.try_take_uses(0), lambda: service.take(0, 0)])
        text = b"".join(service.history())
        self.assertEqual(text.splitlines()[1], b"workers 4 max 4 parallel yes locks 6")
        self.assert_lawful(text)

    def test_without_maxima_there_are_no_uses(self) -> None:
        service = self.service()
        calls = [lambda: service.take_uses(0), lambda: service.try_take_uses(0, 0), lambda: service.take_uses(0, 0, deadline=0)]
        self.assert_refused(Misused, [*calls, lambda: service.using(0, 1).__enter__()])
        self.assert_refused(BadNumber, [lambda: service.take_uses(3), lambda: service.take_uses(0, deadline=math.nan)])

    def test_never_more_users_than_may_be(self) -> None:
        maxima = (2, 1, 3)
        service, users, lock = self.shared(8, 4, maxima), [0, 0, 0], threading.Lock()

        def count(services: Tuple[int, ...], by: int) -> None:
            with lock:
                for used in services:
                    users[used] += by
                    assert 0 <= users[used] <= maxima[used], users

        def work(worker: int) -> None:
            for turn in range(300):
                services = ((worker + turn) % 3,) if turn % 4 else (0, 1, 2)
                with service.using(worker, *services):
                    count(services, 1)
                    count(services, -1)
                    if turn % 10 == 0:
                        with service.blocking(worker):
                            pass

        threads = [in_thread(work, worker) for worker in range(8)]
        self.assertEqual([thread.outcome() for thread in threads], 8 * [None])
        service.finish()
        self.assertEqual(self.assert_lawful(b"".join(service.history())), 8 * (2 * 300 + 2 * 30))


class WaitTests(Case):
    """The thread of the tests is the main one, which waits by slices. Others don't."""

    def both(self, call: Callable[[], object]) -> List[object]:
        """What it raises in another thread, and here."""
        errors: List[object] = [in_thread(call).outcome()]
        try:
            call()
            errors.append(None)
        except wakhurmi.Error as error:
            errors.append(error)
        return errors

    def test_a_deadline_passes(self) -> None:
        service = self.service(max_leases=1)
        service.take(0, 0)
        service.enter(0)
        service.take(1, 0)
        for length in (-math.inf, -1.0, 0.0, A_WHILE, 0.25):
            begin = time.monotonic()
            for call in (lambda: service.take(2, deadline=time.monotonic() + length), lambda: service.leave(0, time.monotonic() + length)):
                for error in self.both(call):
                    self.assertIsInstance(error, TimedOut)
            self.assertGreaterEqual(time.monotonic() - begin, 4 * length)
        service.hand_back(1)
        service.leave(0, deadline=math.inf)
        service.hand_back(0)
        service.take(2, deadline=0)
        service.hand_back(2)
        service.finish()
        self.assertEqual(len(self.entries(service)), 8)

    def test_a_wait_ends_with_what_it_waits_for(self) -> None:
        service = self.service(max_leases=1)
        for _ in range(3):
            service.take(0, 0)
            waits = in_thread(service.take, 1, 0)
            time.sleep(A_WHILE)
            self.assertTrue(waits.is_alive())
            service.enter(0)
            self.assertIsNone(waits.outcome())
            later = threading.Timer(0.15, service.hand_back, (1,))
            later.start()
            service.leave(0)
            service.hand_back(0)
            later.join()

    def test_a_stop_from_another_thread(self) -> None:
        service = self.service(max_leases=1)
        service.take(0, 0)
        service.enter(0)
        service.take(1, 0)
        waits = [in_thread(service.take, 2), in_thread(service.leave, 0)]
        time.sleep(A_WHILE)
        self.assertTrue(all(thread.is_alive() for thread in waits))
        in_thread(service.stop).join()
        for thread in waits:
            self.assertIsInstance(thread.outcome(), Stopped)
        for error in self.both(lambda: service.take(2, deadline=time.monotonic() + LONG)):
            self.assertIsInstance(error, Stopped)
        service.take(1, 1)
        service.stop()
        self.assert_refused(Busy, [lambda: service.try_take(2)])
        service.hand_back(1)
        service.leave(0)

    def test_the_main_thread_hears_a_stop(self) -> None:
        service = self.service(max_leases=1)
        service.take(0)
        later = threading.Timer(0.15, service.stop)
        later.start()
        self.assert_refused(Stopped, [lambda: service.take(1)])
        later.join()

    def test_nothing_is_closed_or_ended_while_a_call_runs(self) -> None:
        service = self.service(max_leases=1)
        service.take(0)
        waits = in_thread(service.take, 1)
        time.sleep(A_WHILE)
        self.assert_refused(Misused, [service.close, service.finish, lambda: service.take(1)])
        self.assertFalse(service.closed)
        service.hand_back(0)
        self.assertIsNone(waits.outcome())
        service.hand_back(1)
        service.close()
        self.assert_refused(Misused, [lambda: service.take(0)])


class SignalTests(Case):
    def test_control_c_ends_a_wait(self) -> None:
        child = run_python("""
            import sys, threading, time, wakhurmi
            with wakhurmi.Service(3, 1, 2) as service:
                service.take(0, 1)
                service.enter(0)
                service.take(1, 1)
                for call in (lambda: service.take(2, 0), lambda: service.leave(0), lambda: service.taking(2).__enter__()):
                    print("waits", flush=True)
                    try:
                        call()
                    except KeyboardInterrupt:
                        print("heard", service.leases_out(), flush=True)
                service.hand_back(1)
                service.leave(0)
                service.hand_back(0)
                service.take(2, 0, 1)
                service.hand_back(2)
                service.finish()
                print(len(list(service.history())))
            with wakhurmi.Service(2, 2, maxima=[1]) as service:
                service.take_uses(0, 0)
                print("waits", flush=True)
                try:
                    service.take_uses(1, 0)
                except KeyboardInterrupt:
                    print("heard", service.leases_out(), flush=True)
        """)
        for number in range(4):
            self.assertEqual(child.stdout.readline(), "waits\n")
            time.sleep(A_WHILE)
            child.send_signal(signal.SIGINT)
            self.assertEqual(child.stdout.readline(), "heard 1\n")
            if number == 2:
                self.assertEqual(child.stdout.readline(), "11\n")
        self.assertEqual(rest_of(child), "")

    def test_control_c_comes_out_of_a_service_whose_threads_wait(self) -> None:
        child = run_python("""
            import threading, wakhurmi
            ended = threading.Event()
            def wait(service):
                try:
                    service.take(1)
                except wakhurmi.Stopped:
                    print("stopped", flush=True)
                ended.set()
            try:
                with wakhurmi.Service(2, 1) as service:
                    service.take(0)
                    threading.Thread(target=wait, args=(service,)).start()
                    print("waits", flush=True)
                    ended.wait()
            except KeyboardInterrupt:
                ended.wait()
                print("heard", flush=True)
        """)
        self.assertEqual(child.stdout.readline(), "waits\n")
        time.sleep(4 * A_WHILE)
        child.send_signal(signal.SIGINT)
        self.assertEqual(rest_of(child), "stopped\nheard\n")

    def test_an_interrupted_call_has_taken_nothing(self) -> None:
        """Signals come at any moment of calls that needn't wait. Each raises an error, as Ctrl-C would."""
        child = run_python("""
            import itertools, signal, wakhurmi
            class Signal(BaseException):
                pass
            def on_signal(*_):
                raise Signal
            signal.signal(signal.SIGALRM, on_signal)
            service = wakhurmi.Service(2, 2, 2, keeping=0)
            section = wakhurmi.Service(1, 1, 2, keeping=0)
            section.take(0, 1)
            section.enter(0)
            gains = [(lambda: service.take(0, 1), lambda: service.hand_back(0)), (lambda: service.try_take(1), lambda: service.hand_back(1)),
                (lambda: section.leave(0), lambda: section.enter(0))]
            heard = 0
            for round, (take, give) in zip(range(3000), itertools.cycle(gains)):
                done = False
                try:
                    signal.setitimer(signal.ITIMER_REAL, 1e-6 * (1 + round % 60))
                    while True:
                        take()
                        done = True
                        give()
                        done = False
                except Signal:
                    heard += 1
                finally:
                    signal.setitimer(signal.ITIMER_REAL, 0)
                if done:
                    # It came in `give`, or just behind one of the two: either may stand.
                    try:
                        give()
                    except wakhurmi.Misused:
                        pass
                out = service.leases_out() + section.leases_out()
                if out:
                    # Just behind `take`, before it was noted.
                    print("late", round % 3)
                    give()
            service.close()
            section.close()
            print(heard)
        """)
        said = rest_of(child)
        self.assertEqual(said.splitlines()[-1:], ["3000"], said)
        # Before 3.11 Python hears signals just behind any call, so also where `take` has already returned.
        self.assertLessEqual(said.count("late"), 2 if sys.version_info >= (3, 11) else 150, said)

    def test_the_handler_of_a_signal_may_make_calls(self) -> None:
        child = run_python("""
            import signal, wakhurmi
            service = wakhurmi.Service(3, 1)
            def on_signal(*_):
                try:
                    service.close()
                except wakhurmi.Misused:
                    service.stop()
            signal.signal(signal.SIGTERM, on_signal)
            service.take(0)
            print("waits", flush=True)
            try:
                service.take(1)
            except wakhurmi.Stopped:
                print("stopped")
        """)
        self.assertEqual(child.stdout.readline(), "waits\n")
        time.sleep(A_WHILE)
        child.send_signal(signal.SIGTERM)
        self.assertEqual(rest_of(child), "stopped\n")


class ForkTests(Case):
    def test_a_child_has_services_of_its_own_alone(self) -> None:
        child = run_python("""
            import os, threading, wakhurmi
            service, part, children = wakhurmi.Service(2, 2), wakhurmi.Part(), []

            def refused(call):
                try:
                    call()
                except wakhurmi.Misused:
                    return True
                return False

            def be_child():
                with wakhurmi.Service(1, 1) as own:
                    own.take(0)
                    own.hand_back(0)
                    calls = [lambda: service.take(1), lambda: service.try_take(1), lambda: service.hand_back(0), lambda: service.enter(0),
                        lambda: service.leave(0), service.stop, service.leases_out, service.take_history, service.finish, lambda: list(part),
                        lambda: list(service.history()), lambda: service.take(1, deadline=0), lambda: own.take_history(part)]
                    wrong = [number for number, call in enumerate(calls) if not refused(call)]
                service.close()
                part.close()
                return 1 + wrong[0] if wrong else 0

            def fork():
                child = os.fork()
                if child == 0:
                    os._exit(be_child())
                children.append(child)

            service.take(0)
            service.take_history(part)
            # In the child nobody lets this lock go, as where another thread was in a call.
            with service._lock:
                forker = threading.Thread(target=fork)
                forker.start()
                forker.join()
            print(os.waitpid(children[0], 0)[1])
            service.hand_back(0)
            print(len(list(part)))
        """)
        self.assertEqual(rest_of(child), "0\n3\n")


class PartTests(Case):
    def test_parts_and_the_rest_are_one_text(self) -> None:
        service, parts = self.service(), [Part(), Part()]
        self.assertEqual(list(parts[0]), [])
        text: List[bytes] = []
        for round in range(4):
            part = service.take_history(parts[round % 2])
            self.assertIs(part, parts[round % 2])
            self.assertEqual(list(part), list(part))
            text += part
            for _ in range(round):
                with service.taking(round % 3, 1):
                    pass
        fresh = service.take_history()
        text += fresh
        service.finish()
        service.close()
        # A part doesn't need the service.
        self.assertEqual(len(list(fresh)), 6)
        for part in (fresh, *parts):
            with part:
                pass
            self.assert_refused(Misused, [lambda part=part: list(part), lambda part=part: self.service().take_history(part)])
            part.close()
        self.assertEqual(text[0], b"history 2\n")
        self.assertEqual(self.assert_lawful(b"".join(text) + b"end 12\n"), 12)

    def test_the_last_entries_alone_are_kept(self) -> None:
        for keeping, most in ((0, 4000), (100, 4200)):
            service = self.service(keeping=keeping)
            for _ in range(5000):
                service.take(0)
                service.hand_back(0)
            service.finish()
            lines = list(service.history())
            self.assertTrue(keeping < len(lines) <= most, len(lines))
            self.assertEqual(lines[-2], b"10000 w0 handback | give\n")


class ThreadTests(Case):
    THREADS, ROUNDS, LEASES, LOCKS = 32, 1000, 4, 8

    def work(self, service: Service, worker: int, did: List[bytes]) -> None:
        """Takes, now and then with a blocking section or by a try, and notes what the history has to say of it."""
        for round in range(self.ROUNDS):
            locks = sorted({(worker + round) % self.LOCKS, round % 3})
            if round % 10 == 0:
                try:
                    service.try_take(worker, *locks)
                except Busy:
                    did.append(b"acquire | failed")
                    continue
                did.append(b"acquire")
                service.hand_back(worker)
                did.append(b"handback")
                continue
            with service.taking(worker, *locks):
                did.append(b"acquire")
                if round % 10 == 1:
                    with service.blocking(worker):
                        did.append(b"block -")
                    did.append(b"unblock -")
            did.append(b"handback")

    def test_histories_of_many_threads_are_what_they_did(self) -> None:
        service = self.service(self.THREADS, self.LEASES, self.LOCKS)
        did: List[List[bytes]] = [[] for _ in range(self.THREADS)]
        threads = [in_thread(self.work, service, worker, did[worker]) for worker in range(self.THREADS)]
        text, parts = [], [Part(), Part()]
        while any(thread.is_alive() for thread in threads):
            text += service.take_history(parts[0])
            parts.reverse()
            self.assertLessEqual(service.leases_out(), self.LEASES)
            time.sleep(0.01)
        for thread in threads:
            self.assertIsNone(thread.outcome())
        service.finish()
        text += service.history()
        self.assertEqual(b"".join(text[:2]), HEAD % (self.THREADS, self.LEASES, self.LOCKS))
        found: List[List[bytes]] = [[] for _ in range(self.THREADS)]
        for line in text[2:-1]:
            _, worker, entry = line.rstrip(b"\n").split(b" ", 2)
            found[int(worker[1:])].append(entry if entry.endswith(b"failed") else entry.partition(b" |")[0])
        self.assertEqual(found, did)
        self.assertEqual(self.assert_lawful(b"".join(text)), sum(map(len, did)))


class LoadTests(unittest.TestCase):
    def test_a_library_that_is_not_found_is_told(self) -> None:
        if (PYTHON / "wakhurmi" / _native._LIBRARY).exists():
            self.skipTest("the library lies in the package's folder")
        words = [sys.executable, "-c", "import wakhurmi"]
        env = {**os.environ, "PYTHONPATH": str(PYTHON), "WAKHURMI": "/no/such/folder"}
        ran = subprocess.run(words, env=env, stdout=subprocess.PIPE, stderr=subprocess.STDOUT, check=False)
        if ran.returncode == 0:
            self.skipTest("the loader finds the library")
        self.assertIn(b"ImportError: libwakhurmi.so, which c/build.sh makes, isn't at ", ran.stdout)
        self.assertIn(b"/no/such/folder/shared/libwakhurmi.so", ran.stdout)


if __name__ == "__main__":
    unittest.main()
