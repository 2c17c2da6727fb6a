#!/usr/bin/env python3
"""Times schedules of 50,000, 100,000 and 200,000 INSERTs of one row each, into four tables in turn, and reads the program's
peak memory.

Bounds: twice the asks take at most 2.6 times the time, and peak memory is at most 20 times the schedule. The status says
whether they held (see program.py).
"""

from program import Bounds, Runs, Schedule

# A table has at most 65,536 rows.
TABLES = 4


def inserts(count):
    schedule = Schedule()
    for table in range(TABLES):
        schedule.ask(f"CREATE TABLE t{table} (a INT, b TEXT)")
    for number in range(count):
        schedule.ask(f"INSERT INTO t{number % TABLES} VALUES ({number}, 'bird')")
    return schedule


bounds = Bounds()
before = None
for count in (50_000, 100_000, 200_000):
    runs = Runs(inserts(count))
    size = len(runs.source)
    print(f"{count} asks, {size} bytes: {runs}, {2 * count / runs.median:.0f} events a second, peak {runs.kib} KiB")
    if before is not None:
        bounds.ratio("times that of half as many asks", runs.median, before.median, max(runs.spread, before.spread), 2.6)
    before = runs
bounds.at_most("peak memory to the schedule's bytes", before.kib * 1024 / len(before.source), 20)
bounds.end()
