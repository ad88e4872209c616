"""Tests of plans by the Python module, over the library that WAKHURMI or the loader names. In the folder above: python3 -m unittest discover tests"""

import collections
import copy
import ctypes
import re
import signal
import threading
import time
import unittest
from typing import Callable, Dict, List, Optional, Tuple

from test_wakhurmi import A_WHILE, HEADER, LONG, Case, in_thread, rest_of, run_python

import wakhurmi
from wakhurmi import ALL_PROJECTS, BadNumber, Busy, Cycle, Job, Kind, Misused, Outcome, Plan, PlannedService, Retention, Stopped, TooMany, _native

# What a worker may do: ask what is next, close, step aside, or come back.
NEXT, DONE, ENTER, LEAVE = "next", "done", "enter", "leave"


class PlanCase(Case):
    def plan(self, locks: int = 2) -> Plan:
        plan = Plan(locks)
        self.addCleanup(plan.close)
        return plan

    def open(self, plan: Plan, workers: int = 1, max_leases: Optional[int] = None) -> PlannedService:
        service = plan.open(workers, max_leases)
        self.addCleanup(service.close)
        return service

    def two_tasks(self) -> Plan:
        """The first has an action with a fetch, and one behind which its lock is given back; the second has an item, and comes after it."""
        plan = self.plan()
        plan.task(0)
        plan.action(0, 2, Retention.RELEASE_AND_REACQUIRE, fetch=True)
        plan.action(0, 1, Retention.RELEASE)
        plan.task(1)
        plan.action(1)
        plan.after(1, 0)
        return plan

    def outcomes(self, service: PlannedService, tasks: int) -> List[Outcome]:
        return [service.task_outcome(task) for task in range(tasks)]


class HeaderTests(unittest.TestCase):
    def test_numbers_are_those_of_the_header(self) -> None:
        text = re.sub(r"/\*.*?\*/", "", HEADER.read_text(), flags=re.S)
        declared = {name: re.findall(r"WAKHURMI_(\w+)", words) for words, name in re.findall(r"typedef enum \{(.*?)\} wakhurmi_(\w+);", text, re.S)}
        for enum, name in ((Retention, "retention"), (Outcome, "outcome")):
            self.assertEqual([one.name for one in enum], declared[name])
            self.assertEqual([int(one) for one in enum], list(range(len(enum))))
        self.assertEqual([kind.name for kind in Kind] + ["ENDED", "CLOSED"], declared["what"])
        self.assertEqual([*Kind, _native._ENDED, _native._CLOSED], list(range(len(declared["what"]))))
        self.assertEqual(ALL_PROJECTS, ctypes.c_uint32(-1).value)

    def test_work_is_laid_out_as_in_the_header(self) -> None:
        text = re.sub(r"/\*.*?\*/", "", HEADER.read_text(), flags=re.S)
        found = re.search(r"typedef struct \{([^}]*)\} wakhurmi_work;", text)
        assert found is not None
        kinds = {"uint32_t": ctypes.c_uint32, "bool": ctypes.c_bool}
        fields = [(name, kinds[kind]) for kind, names in re.findall(r"(\w+) ([\w, ]+);", found[1]) for name in names.split(", ")]
        self.assertEqual(fields, _native._Work._fields_)


class PlanTests(PlanCase):
    def test_what_is_refused(self) -> None:
        self.assert_refused(BadNumber, [lambda locks=locks: Plan(locks) for locks in (65536, -1, 2**32)])
        plan = self.plan(1)
        self.assertEqual([plan.task(0), plan.task(ALL_PROJECTS), plan.task(1)], [0, 1, 2])
        self.assert_refused(BadNumber, [lambda lock=lock: plan.task(lock) for lock in (2, -1, 2**32)])
        self.assert_refused(BadNumber, [lambda names=names: plan.after(*names) for names in ((0, 3), (3, 0), (0, 1, -1), (2**32, 0), (0, 2**32))])
        actions: List[Tuple[int, ...]] = [(3,), (0, 0), (0, -1), (0, 1, 3), (0, 2**32), (-1,)]
        self.assert_refused(BadNumber, [lambda action=action: plan.action(*action) for action in actions])  # type: ignore[arg-type]
        self.assert_refused(TooMany, [lambda: plan.action(0, 4194305), lambda: plan.action(0, 4194304, fetch=True)])
        plan.action(0, 1, Retention.RELEASE)
        self.assert_refused(Misused, [lambda: plan.action(0)])
        self.assert_refused(BadNumber, [lambda numbers=numbers: plan.open(*numbers) for numbers in ((0, 1), (257, 1), (1, 0), (1, 257), (-1,))])
        self.assert_refused(TypeError, [lambda: plan.run(int, 1), lambda: copy.copy(plan)])  # type: ignore[arg-type]
        plan.after(1)
        plan.after(1, 0, 0)
        plan.after(0, 1)
        self.assert_refused(Cycle, [lambda: plan.open(1), lambda: plan.run(lambda *_: None, 1)])
        plan.close()
        plan.close()
        calls = [lambda: plan.task(0), lambda: plan.after(0), lambda: plan.action(0), lambda: plan.open(1)]
        self.assert_refused(Misused, calls)

    def test_a_plan_without_tasks_has_ended(self) -> None:
        with self.plan() as plan, plan.open(1) as service:
            self.assertIsNone(service.next(0))
            service.finish()
            self.assertEqual(self.entries(service), [])

    def test_a_task_of_all_projects_is_alone(self) -> None:
        plan = self.plan()
        for lock in (0, ALL_PROJECTS, 1):
            plan.action(plan.task(lock))
        service = self.open(plan, 2)
        self.assertEqual(service.next(0), Job(0, Kind.TASK, 0))
        self.assertEqual(service.try_next(1), Job(1, Kind.TASK, 2))
        self.assertEqual([self.job(service.next(worker)) for worker in (0, 1)], [(Kind.ITEM, 0), (Kind.ITEM, 2)])

    @staticmethod
    def job(job: Optional[Job]) -> Tuple[Kind, int]:
        assert job is not None
        return job.kind, job.task


class StateTests(PlanCase):
    def assert_may(self, service: PlannedService, *may: str) -> None:
        """All else raises Misused, and changes nothing."""
        calls: Dict[str, List[Callable[[], object]]] = {
            NEXT: [lambda: service.next(0), lambda: service.try_next(0), lambda: in_thread_raises(service.next, 0)],
            DONE: [lambda: service.done(0), lambda: service.done_next(0, False), lambda: in_thread_raises(service.done_next, 0)],
            ENTER: [lambda: service.enter(0)],
            LEAVE: [lambda: service.leave(0)],
        }
        for name in calls.keys() - set(may):
            self.assert_refused(Misused, calls[name])
        bad = [lambda: service.next(2), lambda: service.done(-1), lambda: service.done_next(2), lambda: service.enter(2), lambda: service.leave(2**32)]
        self.assert_refused(BadNumber, bad)

    def assert_next(self, service: PlannedService, *job: object) -> None:
        self.assertEqual(service.next(0), Job(0, *job))  # type: ignore[arg-type]

    def test_each_call_in_each_state(self) -> None:
        service = self.open(self.two_tasks(), 2, 1)
        self.assert_may(service, NEXT)
        self.assert_next(service, Kind.TASK, 0)
        self.assert_may(service, NEXT, ENTER)
        self.assert_refused(Busy, [lambda: service.try_next(1)])
        service.enter(0)
        self.assertEqual(service.leases_out(), 0)
        self.assert_may(service, LEAVE)
        service.leave(0)
        self.assert_next(service, Kind.FETCH, 0, 0)
        self.assert_may(service, DONE)
        self.assert_refused(BadNumber, [lambda: service.done(0, True, 2**64), lambda: service.done_next(0, True, -1)])
        service.done(0, True, 2**64 - 1)
        self.assert_may(service, NEXT, ENTER)
        self.assert_next(service, Kind.ITEM, 0, 0, 0)
        self.assert_may(service, DONE)
        self.assertEqual(service.done_next(0, True, 7), Job(0, Kind.ITEM, 0, 0, 1))
        self.assertEqual(service.done_next(0), Job(0, Kind.ACTION, 0, 0))
        self.assert_may(service, NEXT, ENTER)
        self.assert_next(service, Kind.ITEM, 0, 1, 0)
        self.assertEqual(service.done_next(0, False), Job(0, Kind.ACTION, 0, 1, None, False))
        self.assert_may(service, NEXT)
        self.assertIsNone(service.next(0))
        self.assert_may(service, NEXT)
        self.assertIsNone(service.try_next(0))
        self.assert_refused(Misused, [lambda: service.task_outcome(0), lambda: service.item_outcome(0, 0, 0)])
        service.finish()
        ended: List[Callable[[], object]] = [lambda: service.next(0), lambda: service.done(0), lambda: service.done_next(0), service.stop, service.finish]
        self.assert_refused(Misused, [*ended, lambda: service.enter(0), lambda: service.leave(0), service.leases_out])
        self.assertEqual(self.outcomes(service, 2), [Outcome.FAILED, Outcome.SKIPPED])
        units = [(0, 0, None), (0, 0, 0), (0, 0, 1), (0, 1, 0), (1, 0, 0)]
        found = [service.item_outcome(*unit) for unit in units]
        passed = [(Outcome.PASSED, 2**64 - 1), (Outcome.PASSED, 7), (Outcome.PASSED, 0)]
        self.assertEqual(found, [*passed, (Outcome.FAILED, 0), (Outcome.SKIPPED, 0)])
        self.assert_refused(BadNumber, [lambda number=number: service.task_outcome(number) for number in (2, -1, 2**32)])
        none = [(2, 0, 0), (0, 2, 0), (0, 0, 2), (0, 1, None), (0, 0, -1), (0, 0, 2**32 - 1), (-1, 0, 0)]
        self.assert_refused(BadNumber, [lambda unit=unit: service.item_outcome(*unit) for unit in none])
        self.assertEqual(self.entries(service)[0], b"w0 start 0 | lock 0, take, task 0 waiting running")

    def test_a_stop_gives_no_more_work_and_lets_work_end(self) -> None:
        service = self.open(self.two_tasks())
        for kind in (Kind.TASK, Kind.FETCH):
            self.assert_next(service, kind, 0, *([0] if kind is Kind.FETCH else []))
        service.done(0)
        self.assert_next(service, Kind.ITEM, 0, 0, 0)
        service.stop()
        for call in (service.done_next, service.next):
            with self.assertRaises(Stopped) as caught:
                call(0)
            self.assertEqual(caught.exception.closed, call == service.done_next)
        service.finish()
        self.assertEqual(service.item_outcome(0, 0, 0), (Outcome.PASSED, 0))
        self.assertEqual(service.item_outcome(0, 0, 1), (Outcome.NOT_ENDED, 0))
        self.assertEqual(self.outcomes(service, 2), [Outcome.NOT_ENDED] * 2)

    def test_a_fetch_or_a_section_that_waits_hears_a_stop(self) -> None:
        plan = self.plan()
        for _ in range(2):
            plan.action(plan.task(0), fetch=True)
        service = self.open(plan, 2)
        self.assert_next(service, Kind.TASK, 0)
        self.assert_next(service, Kind.FETCH, 0, 0)
        self.assertEqual(service.next(1), Job(1, Kind.TASK, 1))
        waits = in_thread(service.done_next, 0)
        time.sleep(A_WHILE)
        self.assert_refused(Misused, [lambda: service.done(0), service.finish, service.close])
        service.stop()
        error = waits.outcome()
        self.assertIsInstance(error, Stopped)
        self.assertFalse(error.closed)  # type: ignore[attr-defined]
        self.assert_refused(Stopped, [lambda: service.done(0), lambda: service.done_next(0)])
        service.enter(1)
        service.done(0)
        self.assert_refused(Stopped, [lambda: service.leave(1)])

    def test_a_wait_ends_with_what_it_waits_for(self) -> None:
        """The main thread waits by naps, and others in the library."""
        for in_main in (False, True):
            plan = self.plan()
            plan.task(0)
            plan.task(1)
            service, told = self.open(plan, 2, 1), []
            self.assert_next(service, Kind.TASK, 0)
            step_aside = threading.Timer(A_WHILE, service.enter, (0,))
            step_aside.start()
            if in_main:
                told.append(service.next(1))
            else:
                self.assertIsNone(in_thread(lambda: told.append(service.next(1))).outcome())
            step_aside.join()
            self.assertEqual(told, [Job(1, Kind.TASK, 1)])
            # It ends its task, and there is no other yet.
            self.assert_refused(Busy, [lambda: service.try_next(1)])
            service.leave(0)
            self.assertEqual((service.next(0), service.next(1)), (None, None))

    def test_sections_end_behind_errors(self) -> None:
        service = self.open(self.two_tasks())
        self.assert_next(service, Kind.TASK, 0)
        with self.assertRaises(KeyError), service.blocking(0):
            self.assertEqual(service.leases_out(), 0)
            raise KeyError
        self.assertEqual(service.leases_out(), 1)

    def test_jobs_are_closed_as_they_say(self) -> None:
        service, told = self.open(self.two_tasks()), []
        for job in service.jobs(0):
            told.append((job.kind.name, job.task, job.action, job.item, job.passed))
            job.number = 10 + (job.item or 0)
            if job.item == 1:
                job.fail()
        names = [name for name, *_ in told]
        self.assertEqual(names, ["TASK", "FETCH", "ITEM", "ITEM", "ACTION"])
        self.assertEqual(told[-1], ("ACTION", 0, 0, None, False))
        service.finish()
        units = [service.item_outcome(0, 0, item) for item in (None, 0, 1)]
        self.assertEqual(units, [(Outcome.PASSED, 10), (Outcome.PASSED, 10), (Outcome.FAILED, 0)])
        self.assertEqual(self.outcomes(service, 2), [Outcome.FAILED, Outcome.SKIPPED])


def in_thread_raises(call: Callable[..., object], *arguments: object) -> None:
    """Raises here what the call raises in another thread, which waits otherwise than the main one."""
    error = in_thread(call, *arguments).outcome()
    if isinstance(error, BaseException):
        raise error


class RunTests(PlanCase):
    def test_one_thread_makes_the_history_that_the_rules_owe(self) -> None:
        told: List[Tuple[Kind, int]] = []
        with self.two_tasks().run(lambda _, job: told.append((job.kind, job.task)), 1) as service:
            entries = [line.partition(b" |")[0].decode() for line in self.entries(service)]
            self.assertEqual(self.outcomes(service, 2), [Outcome.PASSED] * 2)
        first = ["start 0", "block 0", "unblock 0 number 0", "submit 0", "park 0", "claim 1", "close 1 number 0", "claim 2", "close 2 number 0"]
        second = ["resume 0", "submit 1", "park 1", "claim 3", "close 3 number 0", "resume 1", "end 0"]
        third = ["start 1", "submit 2", "park 2", "claim 4", "close 4 number 0", "resume 2", "end 1"]
        self.assertEqual(entries, ["w0 " + entry for entry in first + second + third])
        kinds = [Kind.TASK, Kind.FETCH, Kind.ITEM, Kind.ITEM, Kind.ACTION, Kind.ITEM, Kind.ACTION]
        self.assertEqual(told, [(kind, 0) for kind in kinds] + [(Kind.TASK, 1), (Kind.ITEM, 1), (Kind.ACTION, 1)])

    def test_many_threads_run_each_item_once(self) -> None:
        threads, leases, tasks, items = 32, 5, 40, 25
        plan = self.plan(8)
        for task in range(tasks):
            plan.task(ALL_PROJECTS if task == 20 else task % 8)
            plan.action(task, items, Retention(task % 3), fetch=task % 4 == 0)
            plan.after(task, *range(max(0, task - 9), max(0, task - 7)))
        lock, did, at_work, most = threading.Lock(), collections.Counter(), set(), []

        def work(service: PlannedService, job: Job) -> None:
            if job.kind is not Kind.ITEM:
                if job.kind is Kind.TASK and job.task % 5 == 0:
                    with service.blocking(job.worker):
                        time.sleep(0.0001)
                return
            with lock:
                did[job.task, job.item] += 1
                at_work.add(job.worker)
                most.append(len(at_work))
            job.number = items * job.task + (job.item or 0)
            time.sleep(0.0001)
            with lock:
                at_work.discard(job.worker)

        with plan.run(work, threads, leases) as service:
            self.assertEqual(did, collections.Counter({(task, item): 1 for task in range(tasks) for item in range(items)}))
            self.assertLessEqual(max(most), leases)
            for task in range(tasks):
                numbers = [service.item_outcome(task, 0, item) for item in range(items)]
                self.assertEqual(numbers, [(Outcome.PASSED, items * task + item) for item in range(items)])
            self.assertEqual(self.outcomes(service, tasks), [Outcome.PASSED] * tasks)
            entries = [line.split(b" ", 2)[1] for line in self.entries(service)]
            self.assertEqual({kind: entries.count(kind) for kind in (b"start", b"claim", b"close", b"end")},
                             {b"start": tasks, b"claim": tasks * items, b"close": tasks * items, b"end": tasks})

    def test_an_error_fails_the_item_and_stops_the_run(self) -> None:
        plan, services = self.two_tasks(), []

        def work(service: PlannedService, job: Job) -> None:
            services.append(service)
            if job.kind is Kind.ITEM:
                raise KeyError(job.item)

        for threads in (1, 8):
            with self.assertRaises(KeyError):
                plan.run(work, threads)
            self.assertTrue(services[-1].closed)

        def fetch(_: PlannedService, job: Job) -> None:
            if job.kind is Kind.FETCH:
                raise SystemExit(3)

        with self.assertRaises(SystemExit):
            plan.run(fetch, 4)

    def test_a_stop_ends_a_run(self) -> None:
        plan, begun = self.plan(), threading.Event()
        for lock in range(2):
            plan.action(plan.task(lock), 50)

        def work(service: PlannedService, job: Job) -> None:
            if job.kind is Kind.ITEM and (job.task, job.item) == (0, 3):
                service.stop()

        with plan.run(work, 3) as service:
            self.assertEqual(service.item_outcome(0, 0, 3)[0], Outcome.PASSED)
            self.assertIn(Outcome.NOT_ENDED, self.outcomes(service, 2))

        def stop_later(service: PlannedService) -> None:
            begun.wait(LONG)
            service.stop()

        def work_on(service: PlannedService, job: Job) -> None:
            if job.kind is Kind.TASK and job.task == 0:
                in_thread(stop_later, service)
            begun.set()
            time.sleep(0.002)

        with plan.run(work_on, 3, 1) as service:
            self.assertIn(Outcome.NOT_ENDED, self.outcomes(service, 2))

    def test_an_unclosed_service_of_a_run_is_closed_with_what_it_has(self) -> None:
        with self.assertRaises(ZeroDivisionError), self.two_tasks().run(lambda *_: None, 2) as service:
            raise ZeroDivisionError
        self.assertTrue(service.closed)


class SignalTests(PlanCase):
    def test_control_c_ends_a_run_behind_its_jobs(self) -> None:
        child = run_python("""
            import threading, time, wakhurmi
            plan, done = wakhurmi.Plan(1), []
            plan.task(0)
            plan.action(0, 100)
            def work(service, job):
                if job.kind is wakhurmi.Kind.ITEM:
                    print("works", flush=True)
                    time.sleep(0.4)
                    done.append(job.item)
            try:
                plan.run(work, 3, 1)
            except KeyboardInterrupt:
                print("heard", len(done), threading.active_count(), flush=True)
        """)
        self.assertEqual(child.stdout.readline(), "works\n")
        time.sleep(A_WHILE)
        child.send_signal(signal.SIGINT)
        self.assertRegex(rest_of(child), r"^heard 1 [123]\n$")

    def test_control_c_ends_a_wait_for_work_and_loses_none(self) -> None:
        child = run_python("""
            import wakhurmi
            plan = wakhurmi.Plan(2)
            for lock in range(2):
                plan.action(plan.task(lock))
            plan.after(1, 0)
            with plan.open(2) as service:
                assert service.next(0).kind is wakhurmi.Kind.TASK
                print("waits", flush=True)
                try:
                    service.next(1)
                except KeyboardInterrupt:
                    print("heard", flush=True)
                for worker in (0, 1):
                    for job in service.jobs(worker):
                        print(job.kind.name, job.task)
        """)
        self.assertEqual(child.stdout.readline(), "waits\n")
        time.sleep(A_WHILE)
        child.send_signal(signal.SIGINT)
        self.assertEqual(rest_of(child), "heard\nITEM 0\nACTION 0\nTASK 1\nITEM 1\nACTION 1\n")

    def test_no_job_is_lost_where_signals_come_at_any_moment(self) -> None:
        child = run_python("""
            import signal, wakhurmi
            class Signal(BaseException):
                pass
            def on_signal(*_):
                raise Signal
            signal.signal(signal.SIGALRM, on_signal)
            plan, items, heard = wakhurmi.Plan(1), 20000, 0
            plan.task(0)
            plan.action(0, items)
            service = plan.open(1)
            job = service.next(0)
            def work_on(job):
                while job is not None:
                    if job.is_unit:
                        service.done(0)
                    job = service.next(0)
            for round in range(1500):
                try:
                    try:
                        signal.setitimer(signal.ITIMER_REAL, 1e-6 * (1 + round % 60))
                        work_on(job)
                    finally:
                        signal.setitimer(signal.ITIMER_REAL, 0)
                except Signal:
                    heard += 1
                # Where a unit was closed and not seen to be, `next` says so; where it wasn't, it is closed.
                try:
                    job = service.next(0)
                except wakhurmi.Misused:
                    job = wakhurmi.Job(0, wakhurmi.Kind.ITEM, 0)
            work_on(job)
            service.finish()
            print(service.task_outcome(0).name, heard > 0, {service.item_outcome(0, 0, item)[0].name for item in range(items)})
        """)
        self.assertEqual(rest_of(child), "PASSED True {'PASSED'}\n")


class ForkTests(PlanCase):
    def test_a_child_has_plans_of_its_own_alone(self) -> None:
        child = run_python("""
            import os, wakhurmi
            plan = wakhurmi.Plan(1)
            plan.action(plan.task(0))
            service = plan.open(1)

            def refused(call):
                try:
                    call()
                except wakhurmi.Misused:
                    return True
                return False

            child = os.fork()
            if child == 0:
                calls = [lambda: plan.task(0), lambda: plan.open(1), lambda: service.next(0), lambda: service.done(0), lambda: service.done_next(0),
                    service.stop, service.finish, lambda: service.task_outcome(0)]
                wrong = [number for number, call in enumerate(calls) if not refused(call)]
                own = wakhurmi.Plan(1)
                own.action(own.task(0))
                own.run(lambda *_: None, 2).close()
                plan.close()
                service.close()
                os._exit(1 + wrong[0] if wrong else 0)
            print(os.waitpid(child, 0)[1])
            print(service.next(0).kind.name)
        """)
        self.assertEqual(rest_of(child), "0\nTASK\n")


if __name__ == "__main__":
    unittest.main()
