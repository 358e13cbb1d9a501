"""Runs a program and says what it took."""
import os
import subprocess
import sys
import tempfile
from collections import namedtuple

STOPWATCH = os.path.join(os.path.dirname(os.path.realpath(__file__)), "stopwatch.py")

# Seconds on the clock and of the processor, the most memory in MB as it is told, the status, and what was printed and
# noted. A run that was stopped has the status None.
Run = namedtuple("Run", "wall cpu memory status printed noted")


class Failed(Exception):
    """The program could not be started."""


def run(words, limit):
    """One run of at most so many seconds."""
    with tempfile.TemporaryDirectory() as room:
        out, err = os.path.join(room, "out"), os.path.join(room, "err")
        told = subprocess.run([sys.executable, "-IS", STOPWATCH, str(limit), out, err, *words], capture_output=True, text=True)
        if told.returncode != 0:
            raise Failed(f"{words[0]} can't be started: {told.stderr.strip().rsplit(': ', 1)[-1]}")
        wall, cpu, most, own, status = told.stdout.split()
        # The system counts the memory of the process from which a program is started as the program's.
        memory = f"{int(most) / 1024:.1f}" if int(most) > int(own) + 512 else f"< {int(own) / 1024 + 1:.0f}"
        with open(out, "rb") as printed, open(err, "rb") as noted:
            return Run(float(wall), float(cpu), memory, None if status == "over" else int(status), printed.read(),
                       noted.read().decode("utf-8", "replace"))


def quickest(words, limit, times):
    """The quickest of so many runs, or one run where it takes a second and more."""
    best = run(words, limit)
    while times > 1 and best.status is not None and best.wall < 1:
        times -= 1
        again = run(words, limit)
        if again.status == best.status and again.wall < best.wall:
            best = again
    return best
