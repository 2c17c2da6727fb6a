#!/usr/bin/env python3
"""Times calls on the rows of a table by number: tables of 1,000, 8,000 and 64,000 rows of one integer.

A call's time is the processor time by which two runs of `bench_rows` differ, one with ten million calls more than the other,
so that start-up and filling the table don't count. `insert` fills new tables of that size, so it has each row's share of dropping
a table; `turn` is a remove and an insert. Rows are removed, replaced and got in no order. Beside each is the time of the same
over a `BTreeMap` in Rust, written by hand (rows.rs). The instructions of a call, which valgrind counts in shorter runs, have no
noise, and no share of the waits for memory that a large table has.

Bounds: eight times the rows take less than 1.6 times the time a call, and the instructions too; a table of 65,536 rows takes
at most 6 MB. The status says whether they held (see bounds.py). ROWS_PROGRAM in the environment names another program than the
built one.
"""

import os
import re
import subprocess
import sys
import tempfile

from bounds import Bounds, median_of, spread_of

TOP = os.path.dirname(os.path.dirname(os.path.abspath(__file__)))
RUNS = 5
CALLS = 10_000_000
SIZES = (1_000, 8_000, 64_000)
NAMES = ("insert", "turn", "replace", "get")


def built():
    """The path of bench_rows; it is proved and built if it is missing."""
    path = f"{TOP}/crates/bench_rows/out/bench_rows"
    named = os.environ.get("ROWS_PROGRAM")
    if named:
        return named
    if not os.path.exists(path):
        subprocess.run(["rt", "run"], cwd=f"{TOP}/crates/bench_rows", stdin=subprocess.DEVNULL, stdout=subprocess.DEVNULL, check=True)
    return path


def by_hand(folder):
    """The path of the same calls in Rust, compiled with optimization."""
    path = f"{folder}/rows"
    subprocess.run(["rustc", "-O", "--edition", "2024", "-o", path, f"{TOP}/bench/rows.rs"], check=True)
    return path


def run(program, line):
    """The processor's seconds of one run."""
    with tempfile.TemporaryFile() as given:
        given.write(f"{line}\n".encode())
        given.seek(0)
        child = subprocess.Popen([program], stdin=given, stdout=subprocess.DEVNULL)
        _, status, used = os.wait4(child.pid, 0)
        child.returncode = os.waitstatus_to_exitcode(status)
    if child.returncode != 0:
        sys.exit(f"{program} ended with status {child.returncode}")
    return used.ru_utime + used.ru_stime


def peak(program, line):
    """The peak memory of one run in KiB, by `time`: what the kernel counts for a child of this script begins with its own."""
    ended = subprocess.run(
        ["/usr/bin/time", "-f", "%M", program],
        input=f"{line}\n".encode(),
        stdout=subprocess.DEVNULL,
        stderr=subprocess.PIPE,
        check=True,
    )
    return int(ended.stderr)


def call_seconds(program, name, size):
    """The seconds of one call, and how far off that may be."""
    few = [run(program, f"rows {name} {CALLS} {size}") for _ in range(RUNS)]
    many = [run(program, f"rows {name} {2 * CALLS} {size}") for _ in range(RUNS)]
    return (median_of(many) - median_of(few)) / CALLS, (spread_of(many) + spread_of(few)) / CALLS


def instructions(program, line):
    """The number of instructions of one run."""
    counted = subprocess.run(
        ["valgrind", "--tool=callgrind", "--callgrind-out-file=/dev/null", program],
        input=f"{line}\n".encode(),
        stdout=subprocess.DEVNULL,
        stderr=subprocess.PIPE,
        check=True,
    )
    return int(re.search(rb"Collected : (\d+)", counted.stderr).group(1))


def call_instructions(program, name, size):
    """The instructions of one call: `insert` fills whole tables, the others are made 20,000 times."""
    count = 2 * size if name == "insert" else 20_000
    few = instructions(program, f"rows {name} {count} {size}")
    return (instructions(program, f"rows {name} {2 * count} {size}") - few) / count


def memory(program, rows):
    """The peak memory in bytes of a table of this number of rows, over that of an empty one."""
    return 1024 * (peak(program, f"rows fill 0 {rows}") - peak(program, "rows fill 0 0"))


bounds = Bounds()
proved = built()
with tempfile.TemporaryDirectory() as folder:
    hand = by_hand(folder)
    load = os.getloadavg()
    print(f"load {load[0]:.2f}, {os.cpu_count()} processors, median of {RUNS}")
    for name in NAMES:
        before = None
        for size in SIZES:
            seconds, noise = call_seconds(proved, name, size)
            other, _ = call_seconds(hand, name, size)
            count = call_instructions(proved, name, size)
            print(
                f"{name}, {size} rows: {seconds * 1e9:.0f} ns a call, give or take {noise * 1e9:.0f}; "
                f"by hand {other * 1e9:.0f} ns; {count:.0f} instructions"
            )
            if before is not None:
                bounds.ratio("times the time of an eighth of the rows", seconds, before[0], max(noise, before[1]), 1.6)
                bounds.at_most("times the instructions", count / before[2], 1.6)
            before = (seconds, noise, count)
    taken = memory(proved, 65_536)
    print(f"65,536 rows of one integer: {taken / 65_536:.0f} bytes a row; by hand {memory(hand, 65_536) / 65_536:.0f}")
    bounds.at_most("MB", taken / 1e6, 6)
    print(f"load {os.getloadavg()[0]:.2f}")
bounds.end()
