#!/usr/bin/env python3
"""Tests of launch/schedule.py: which crate is proved when, and with how many jobs."""

import dataclasses
import pathlib
import sys
import tempfile
import unittest

TOP = pathlib.Path(__file__).resolve().parent.parent
sys.dont_write_bytecode = True
sys.path.insert(0, str(TOP / "launch"))
import schedule  # noqa: E402


class ScheduleTests(unittest.TestCase):
    """Tests of the order in which crates are proved, by the repository's own crates and table."""

    def test_each_crate_is_started_once_above_what_it_uses_and_within_the_memory(self) -> None:
        uses = schedule.read_uses((TOP / "crates.txt").read_text())
        costs = schedule.read_costs(TOP / "launch/minutes.txt")
        costs.update({name: schedule.cost_by_lines(TOP / "crates" / name) for name in uses if name not in costs})
        for processors in (1, 2, 4, 8):
            plan = schedule.Schedule(uses, "leases", costs, processors, 4.0 * processors)
            started = []
            while plan.running or plan.ready():
                chosen = plan.choose()
                if chosen is None:
                    plan.advance()
                    continue
                name, jobs = chosen
                self.assertLessEqual(set(uses[name]), plan.done)
                self.assertLessEqual(jobs, processors)
                plan.start(name, jobs)
                started.append(name)
                taken = sum(costs[other].memory(it.jobs) for other, it in plan.running.items())
                self.assertLessEqual(taken, 4.0 * processors)
            self.assertEqual(sorted(started), sorted(schedule.needed(uses, "leases")))
            self.assertEqual(started[-1], "leases")

    def test_a_lonely_crate_gets_more_jobs_and_one_beside_others_does_not(self) -> None:
        costs = {name: schedule.Cost(8.0, 2.0) for name in ("top", "a", "b", "c", "d")}
        alone = schedule.Schedule({"top": []}, "top", costs, 4, 16.0)
        name, jobs = alone.choose() or ("", 0)
        self.assertEqual(name, "top")
        self.assertGreater(jobs, 2)
        wide = schedule.Schedule({"top": ["a", "b", "c", "d"], "a": [], "b": [], "c": [], "d": []}, "top", costs, 4, 16.0)
        for _ in range(4):
            name, jobs = wide.choose() or ("", 0)
            self.assertEqual(jobs, 1)
            wide.start(name, jobs)
        self.assertIsNone(wide.choose())
        little = schedule.Schedule({"top": []}, "top", costs, 4, 2.0)
        self.assertEqual(little.choose(), ("top", 1))

    def test_a_crate_that_no_job_divides_gets_one(self) -> None:
        costs = {"top": schedule.Cost(8.0, 2.0, 0.0)}
        self.assertEqual(schedule.Schedule({"top": []}, "top", costs, 4, 16.0).choose(), ("top", 1))

    def test_a_cost_comes_back_from_what_is_measured_of_it(self) -> None:
        for divided in (0.0, 0.2, 0.42, 1.0):
            cost = schedule.Cost(8.0, 2.0, divided)
            for jobs in schedule.JOBS:
                found = schedule.Cost.measured(jobs, cost.clock(jobs), cost.processor(jobs), cost.memory(jobs), divided)
                for mine, other in zip(dataclasses.astuple(found), dataclasses.astuple(cost)):
                    self.assertAlmostEqual(mine, other)

    def test_a_line_of_the_table_may_leave_out_what_jobs_divide(self) -> None:
        with tempfile.NamedTemporaryFile("w", suffix=".txt") as file:
            file.write("# minutes\na 1.50 2.0\nb 3.00 2.5 0.00\n")
            file.flush()
            costs = schedule.read_costs(pathlib.Path(file.name))
        self.assertEqual(costs, {"a": schedule.Cost(1.5, 2.0), "b": schedule.Cost(3.0, 2.5, 0.0)})

    def test_what_is_to_go_is_within_a_third_where_crates_take_what_the_table_says(self) -> None:
        uses = schedule.read_uses((TOP / "crates.txt").read_text())
        costs = schedule.read_costs(TOP / "launch/minutes.txt")
        costs.update({name: schedule.cost_by_lines(TOP / "crates" / name) for name in uses if name not in costs})
        for processors in (1, 2, 4):
            plan = schedule.Schedule(uses, "leases", costs, processors, 4.0 * processors)
            passed, told = 0.0, []
            while plan.running or plan.ready():
                chosen = plan.choose()
                if chosen is not None:
                    plan.start(*chosen)
                    continue
                told.append((passed, plan.minutes_left()))
                passed += plan.advance()
            for at, left in told:
                if passed - at >= 1:
                    self.assertLess(max(left / (passed - at), (passed - at) / left), 4 / 3, f"{processors} processors, at {at:.1f}")

    def test_what_stands_on_a_failed_crate_is_never_ready(self) -> None:
        costs = {name: schedule.Cost(1.0, 1.0) for name in ("top", "a", "b")}
        plan = schedule.Schedule({"top": ["a", "b"], "a": [], "b": []}, "top", costs, 1, 4.0)
        plan.start("a", 1)
        plan.fail("a")
        plan.start("b", 1)
        plan.end("b")
        self.assertEqual(plan.ready(), [])

    def test_crates_that_use_each_other_are_refused(self) -> None:
        with self.assertRaises(ValueError):
            schedule.needed({"a": ["b"], "b": ["a"]}, "a")


if __name__ == "__main__":
    unittest.main()
