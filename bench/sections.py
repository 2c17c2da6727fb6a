#!/usr/bin/env python3
"""Times sections that are run over tables of one integer a row, of 8,000 and 64,000 rows, and a scan of 65,536.

`scan` has one clause, that one row satisfies; `equal` is the same by an index; `range` gives 100 rows by an index; `update`
changes a tenth of the rows. A section's time is the processor time by which two runs of `bench_rows` differ, one with more
sections than the other, so that start-up and building the table and its index don't count.

Bounds: a scan of 65,536 rows takes at most 10 ms; eight times the rows take at most 1.6 times the time by an index. The status
says whether they held (see bounds.py). ROWS_PROGRAM in the environment names another program than the built one.
"""

import os
import subprocess
import sys
import tempfile

from bounds import Bounds, median_of, spread_of

TOP = os.path.dirname(os.path.dirname(os.path.abspath(__file__)))
RUNS = 5
SIZES = (8_000, 64_000)
COUNTS = {"scan": 100, "equal": 1_000_000, "range": 20_000, "update": 100}
BY_INDEX = ("equal", "range")


def built():
    """The path of bench_rows; it is proved and built if it is missing."""
    path = f"{TOP}/crates/bench_rows/out/bench_rows"
    named = os.environ.get("ROWS_PROGRAM")
    if named:
        return named
    if not os.path.exists(path):
        subprocess.run(["rt", "run"], cwd=f"{TOP}/crates/bench_rows", stdin=subprocess.DEVNULL, stdout=subprocess.DEVNULL, check=True)
    return path


def run(program, line):
    """The processor's seconds of one run."""
    with tempfile.TemporaryFile() as given:
        given.write(f"{line}\n".encode())
        given.seek(0)
        child = subprocess.Popen([program], stdin=given, stdout=subprocess.DEVNULL)
        _, status, used = os.wait4(child.pid, 0)
        child.returncode = os.waitstatus_to_exitcode(status)
    if child.returncode != 0:
        sys.exit(f"{program} ended with status {child.returncode}")
    return used.ru_utime + used.ru_stime


def section_seconds(program, name, size):
    """The seconds of one section, and how far off that may be."""
    count = COUNTS[name]
    few = [run(program, f"sections {name} 0 {size}") for _ in range(RUNS)]
    many = [run(program, f"sections {name} {count} {size}") for _ in range(RUNS)]
    return (median_of(many) - median_of(few)) / count, (spread_of(many) + spread_of(few)) / count


bounds = Bounds()
proved = built()
print(f"load {os.getloadavg()[0]:.2f}, {os.cpu_count()} processors, median of {RUNS}")
for name in COUNTS:
    before = None
    for size in SIZES:
        seconds, noise = section_seconds(proved, name, size)
        print(f"{name}, {size} rows: {seconds * 1e6:.2f} us a section, give or take {noise * 1e6:.2f}")
        if before is not None and name in BY_INDEX:
            bounds.ratio("times that of an eighth of the rows", seconds, before[0], max(noise, before[1]), 1.6)
        before = (seconds, noise)
seconds, _ = section_seconds(proved, "scan", 65_536)
bounds.at_most("a scan of 65,536 rows, ms", seconds * 1e3, 10)
print(f"load {os.getloadavg()[0]:.2f}")
bounds.end()
