#!/usr/bin/env python3
"""Times queries and changes over large tables: joins on a key of two tables of 1,000 to 64,000 rows, a count over three
tables of 1,000 rows of which none satisfies a clause over the last, a GROUP BY and an UPDATE of 50,000.

Each statement is asked 400 times, and the same schedule without it is taken off. Bounds: the joins of 1,000 by 1,000 and of
16,000 by 16,000 rows take at most 0.1 s each, and twice the rows from 16,000 on at most 2.4 times the time; the count takes
at most 0.01 s; twice the rows of a GROUP BY and of an UPDATE take at most 2.6 times the time. The status says whether they
held (see program.py).
"""

from program import Bounds, Runs, Schedule

TIMES = 400
PIECE = 500

JOIN = "SELECT COUNT(*) FROM t a, u b WHERE a.k = b.k"
NO_ROW = "SELECT COUNT(*) FROM t a, t b, t c WHERE c.k = -1"
GROUP = "SELECT v, COUNT(*), SUM(k) FROM t GROUP BY v"
UPDATE = "UPDATE t SET v = v + 1"


def filled(tables):
    """A schedule that fills tables of rows `(k, v)`: k is each number below the count once, and v has 100 values."""
    schedule = Schedule()
    for table, rows in tables:
        schedule.ask(f"CREATE TABLE {table} (k INT, v INT)")
        for first in range(0, rows, PIECE):
            tuples = ",".join(f"({k},{k % 100})" for k in range(first, min(first + PIECE, rows)))
            schedule.ask(f"INSERT INTO {table} VALUES {tuples}")
    return schedule


def cost_of(tables, text):
    """The seconds of one statement, and how far off that may be."""
    without = Runs(filled(tables))
    schedule = filled(tables)
    schedule.ask(text, TIMES)
    asked = Runs(schedule)
    return (asked.median - without.median) / TIMES, (asked.spread + without.spread) / TIMES


bounds = Bounds()
half = None
for rows in (1_000, 16_000, 32_000, 64_000):
    seconds, noise = cost_of([("t", rows), ("u", rows)], JOIN)
    print(f"join of two tables of {rows:,} rows: {seconds:.4f} s, give or take {noise:.4f} s")
    if rows <= 16_000:
        bounds.at_most("seconds", seconds, 0.1)
    else:
        bounds.ratio("times that of half as many rows", seconds, half[0], max(noise, half[1]), 2.4)
    half = seconds, noise
seconds, noise = cost_of([("t", 1_000)], NO_ROW)
print(f"count over three tables of 1,000 rows, no row of the last: {seconds:.4f} s, give or take {noise:.4f} s")
bounds.at_most("seconds", seconds, 0.01)
for name, text in (("GROUP BY", GROUP), ("UPDATE", UPDATE)):
    half, half_noise = cost_of([("t", 25_000)], text)
    whole, noise = cost_of([("t", 50_000)], text)
    print(f"{name} of 50,000 rows: {whole:.4f} s, give or take {noise:.4f} s; of 25,000 rows: {half:.4f} s")
    bounds.ratio("times that of half as many rows", whole, half, max(noise, half_noise), 2.6)
bounds.end()
