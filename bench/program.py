"""Runs the built program on schedules, and measures its processor time. The scripts of this folder share it.

PROGRAM in the environment names another program than the built one.
"""

import os
import subprocess
import sys
import tempfile

from bounds import Bounds, median_of, spread_of

RUNS = 7

TOP = os.path.dirname(os.path.dirname(os.path.abspath(__file__)))


def path():
    """The program's path; it is proved and built first if it has to be."""
    named = os.environ.get("PROGRAM")
    if named:
        return named
    subprocess.run([f"{TOP}/rstar", "replay"], input=b"sites 1\n", stdout=subprocess.DEVNULL, check=True)
    return f"{TOP}/crates/rstar/out/proved-rstar"


class Schedule:
    """Asks of one user at one site, each with its settle."""

    def __init__(self):
        self.lines = ["sites 1"]
        self.number = 0

    def ask(self, text, times=1):
        for _ in range(times):
            self.number += 1
            self.lines += [f"ask 1 ann 1 {self.number} {text}", "settle"]

    def text(self):
        return ("\n".join(self.lines) + "\n").encode()


class Runs:
    """The processor seconds and the peak memory of several runs of one schedule."""

    def __init__(self, schedule):
        self.source = schedule.text()
        self.seconds = []
        self.kib = 0
        for _ in range(RUNS):
            self._play()

    def _play(self):
        with tempfile.TemporaryFile() as given, tempfile.TemporaryFile() as report:
            given.write(self.source)
            given.seek(0)
            child = subprocess.Popen([PROGRAM, "replay"], stdin=given, stdout=report)
            _, status, used = os.wait4(child.pid, 0)
            self.seconds.append(used.ru_utime + used.ru_stime)
            child.returncode = os.waitstatus_to_exitcode(status)
            if child.returncode != 0:
                sys.exit(f"the program ended with status {child.returncode}")
            self.kib = max(self.kib, used.ru_maxrss)

    @property
    def median(self):
        return median_of(self.seconds)

    @property
    def spread(self):
        """Half the distance between the quartiles."""
        return spread_of(self.seconds)

    def __str__(self):
        return f"{self.median:.3f} s (median of {RUNS}, spread {self.spread:.3f} s)"


PROGRAM = path()
