#!/usr/bin/env python3
"""500 random tables of tasks, each ordered by trying every order. Prints the sum that the test of task_ordering compares.

The numbers come from the generator that the test has too (`Numbers` in ordering_and_ticket_tests, task_ordering_tests)."""
from itertools import permutations

TABLES = 500


class Numbers:
    def __init__(self):
        self.state = 1

    def below(self, bound):
        self.state = (self.state * 1103515245 + 12345) % 2**31
        return (self.state >> 16) % bound


def task_number(numbers, count):
    return count if numbers.below(60) == 0 else numbers.below(count)


def some_numbers(numbers, count, most):
    length = max(0, numbers.below(most + 3) - 2)
    return [task_number(numbers, count) for _ in range(length)]


def table(numbers):
    count = 1 + numbers.below(6)
    tasks = [tuple(some_numbers(numbers, count, 1) for _ in range(3)) for _ in range(count)]
    return tasks, some_numbers(numbers, count, 3)


def outcome(tasks, asked):
    for task, lists in enumerate(tasks):
        if any(number >= len(tasks) for numbers in lists for number in numbers):
            return [1000 + task]
    if any(number >= len(tasks) for number in asked):
        return [2000]
    to_run = set(asked)
    for _ in tasks:
        to_run |= {other for task in to_run for other in tasks[task][0] + tasks[task][2]}
    before = {(a, b) for b in to_run for a in tasks[b][0] + tasks[b][1] if a in to_run}
    before |= {(a, b) for a in to_run for b in tasks[a][2]}
    ranked = set()
    for _ in tasks:
        ranked |= {b for b in to_run if all(a in ranked for a, other in before if other == b)}
    if ranked != to_run:
        return [3000 + min(to_run - ranked)]
    orders = [order for order in permutations(to_run) if all(order.index(a) < order.index(b) for a, b in before)]
    least = min(orders)
    return [4000 + len(least), *least]


def main():
    numbers, total = Numbers(), 0
    kinds = {}
    for _ in range(TABLES):
        told = outcome(*table(numbers))
        kinds[told[0] // 1000] = kinds.get(told[0] // 1000, 0) + 1
        for value in told:
            total = (total * 31 + value) % 1000003
    print(total, kinds)


main()
