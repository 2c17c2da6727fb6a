#!/usr/bin/env python3
"""Times calls on an index over a column of integers: over tables of 1,000, 8,000 and 64,000 rows.

A call's time is the processor time by which two runs of `bench_rows` differ, one with ten million calls more than the other,
so that start-up and building the index don't count. `add` fills new indexes of that size, so it has each value's share of
dropping an index; `turn` is a drop and an add; `range` asks for the one row of a value. Beside each is the time of the same
over a `BTreeSet` in Rust, written by hand (index.rs).

Bounds: eight times the rows take less than 1.6 times the time a call, and an index over 65,536 rows takes at most 4 MB beside
its table. The status says whether they held (see bounds.py). ROWS_PROGRAM in the environment names another program than the
built one.
"""

import os
import subprocess
import sys
import tempfile

from bounds import Bounds, median_of, spread_of

TOP = os.path.dirname(os.path.dirname(os.path.abspath(__file__)))
RUNS = 5
CALLS = 10_000_000
SIZES = (1_000, 8_000, 64_000)
NAMES = ("add", "turn", "range")


def built():
    """The path of bench_rows; it is proved and built if it is missing."""
    path = f"{TOP}/crates/bench_rows/out/bench_rows"
    named = os.environ.get("ROWS_PROGRAM")
    if named:
        return named
    if not os.path.exists(path):
        subprocess.run(["rt", "run"], cwd=f"{TOP}/crates/bench_rows", stdin=subprocess.DEVNULL, stdout=subprocess.DEVNULL, check=True)
    return path


def by_hand(folder):
    """The path of the same calls in Rust, compiled with optimization."""
    path = f"{folder}/index"
    subprocess.run(["rustc", "-O", "--edition", "2024", "-o", path, f"{TOP}/bench/index.rs"], check=True)
    return path


def run(program, line):
    """The processor's seconds of one run."""
    with tempfile.TemporaryFile() as given:
        given.write(f"{line}\n".encode())
        given.seek(0)
        child = subprocess.Popen([program], stdin=given, stdout=subprocess.DEVNULL)
        _, status, used = os.wait4(child.pid, 0)
        child.returncode = os.waitstatus_to_exitcode(status)
    if child.returncode != 0:
        sys.exit(f"{program} ended with status {child.returncode}")
    return used.ru_utime + used.ru_stime


def peak(program, line):
    """The peak memory of one run in KiB, by `time`: what the kernel counts for a child of this script begins with its own."""
    ended = subprocess.run(
        ["/usr/bin/time", "-f", "%M", program],
        input=f"{line}\n".encode(),
        stdout=subprocess.DEVNULL,
        stderr=subprocess.PIPE,
        check=True,
    )
    return int(ended.stderr)


def call_seconds(program, name, size):
    """The seconds of one call, and how far off that may be."""
    few = [run(program, f"index {name} {CALLS} {size}") for _ in range(RUNS)]
    many = [run(program, f"index {name} {2 * CALLS} {size}") for _ in range(RUNS)]
    return (median_of(many) - median_of(few)) / CALLS, (spread_of(many) + spread_of(few)) / CALLS


def memory(program, rows):
    """The peak memory in bytes of a table and its index, over that of the table alone."""
    return 1024 * (peak(program, f"index build 0 {rows}") - peak(program, f"index table 0 {rows}"))


bounds = Bounds()
proved = built()
with tempfile.TemporaryDirectory() as folder:
    hand = by_hand(folder)
    load = os.getloadavg()
    print(f"load {load[0]:.2f}, {os.cpu_count()} processors, median of {RUNS}")
    for name in NAMES:
        before = None
        for size in SIZES:
            seconds, noise = call_seconds(proved, name, size)
            other, _ = call_seconds(hand, name, size)
            print(
                f"{name}, {size} rows: {seconds * 1e9:.0f} ns a call, give or take {noise * 1e9:.0f}; "
                f"by hand {other * 1e9:.0f} ns"
            )
            if before is not None:
                bounds.ratio("times that of an eighth of the rows", seconds, before[0], max(noise, before[1]), 1.6)
            before = (seconds, noise)
    taken = memory(proved, 65_536)
    print(f"an index over 65,536 rows of one integer: {taken / 65_536:.0f} bytes a row; by hand {memory(hand, 65_536) / 65_536:.0f}")
    bounds.at_most("MB", taken / 1e6, 4)
    print(f"load {os.getloadavg()[0]:.2f}")
bounds.end()
