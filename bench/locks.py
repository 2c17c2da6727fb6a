#!/usr/bin/env python3
"""Times asks and releases of locks: over 1,000, 8,000 and 64,000 resources, all of them locked, by 64 enlistments.

A call's time is the processor time by which two runs of `bench_rows` differ, one with a million asks more than the other, so
that start-up and the locks held from the start don't count. One ask of sixteen is followed by the release of all that its
enlistment holds, some sixteen locks.

Bound: eight times the resources take less than 1.6 times the time an ask. The status says whether it held (see bounds.py).
ROWS_PROGRAM in the environment names another program than the built one.
"""

import os
import subprocess
import sys
import tempfile

from bounds import Bounds, median_of, spread_of

TOP = os.path.dirname(os.path.dirname(os.path.abspath(__file__)))
RUNS = 5
CALLS = 1_000_000
SIZES = (1_000, 8_000, 64_000)


def built():
    """The path of bench_rows; it is proved and built if it is missing."""
    path = f"{TOP}/crates/bench_rows/out/bench_rows"
    named = os.environ.get("ROWS_PROGRAM")
    if named:
        return named
    if not os.path.exists(path):
        subprocess.run(["rt", "run"], cwd=f"{TOP}/crates/bench_rows", stdin=subprocess.DEVNULL, stdout=subprocess.DEVNULL, check=True)
    return path


def run(program, line):
    """The processor's seconds of one run."""
    with tempfile.TemporaryFile() as given:
        given.write(f"{line}\n".encode())
        given.seek(0)
        child = subprocess.Popen([program], stdin=given, stdout=subprocess.DEVNULL)
        _, status, used = os.wait4(child.pid, 0)
        child.returncode = os.waitstatus_to_exitcode(status)
    if child.returncode != 0:
        sys.exit(f"{program} ended with status {child.returncode}")
    return used.ru_utime + used.ru_stime


def call_seconds(program, size):
    """The seconds of one ask with its share of a release, and how far off that may be."""
    few = [run(program, f"locks turn {CALLS} {size}") for _ in range(RUNS)]
    many = [run(program, f"locks turn {2 * CALLS} {size}") for _ in range(RUNS)]
    return (median_of(many) - median_of(few)) / CALLS, (spread_of(many) + spread_of(few)) / CALLS


bounds = Bounds()
proved = built()
print(f"load {os.getloadavg()[0]:.2f}, {os.cpu_count()} processors, median of {RUNS}")
before = None
for size in SIZES:
    seconds, noise = call_seconds(proved, size)
    print(f"{size} resources: {seconds * 1e9:.0f} ns an ask with its share of a release, give or take {noise * 1e9:.0f}")
    if before is not None:
        bounds.ratio("times that of an eighth of the resources", seconds, before[0], max(noise, before[1]), 1.6)
    before = (seconds, noise)
print(f"load {os.getloadavg()[0]:.2f}")
bounds.end()
