"""Runs a program of Python by clocks that a test sets, as a machine's whose clock is wrong, or that
slept: the seconds stand in a file, of the clock of the day and of that which goes on in sleep.
Usage: shifted.py FILE PROGRAM WORD .."""
import pathlib
import runpy
import sys
import time

FILE = pathlib.Path(sys.argv[1])
TRUE_TIME, TRUE_CLOCK = time.time, time.clock_gettime


def shifts():
    try:
        wall, slept = FILE.read_text().split()
        return float(wall), float(slept)
    except OSError:
        return 0.0, 0.0


def shifted_clock(which):
    wall, slept = shifts()
    return TRUE_CLOCK(which) + (slept if which == time.CLOCK_BOOTTIME else 0)


time.time = lambda: TRUE_TIME() + shifts()[0]
time.clock_gettime = shifted_clock
sys.argv = sys.argv[2:]
sys.path[0] = str(pathlib.Path(sys.argv[0]).resolve().parent)
runpy.run_path(sys.argv[0], run_name='__main__')
