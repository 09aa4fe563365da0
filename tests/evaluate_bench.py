#!/usr/bin/env python3
"""How long evaluation takes on calls that are hard on an evaluator, as multiples of the first of them.

    python3 tests/evaluate_bench.py        builds the program crates/test_evaluate_speed and runs it three times

The program prints a line when a call has ended, so the time between two lines is a call's. Each figure is the least of the runs. The
first call (six atoms that share no variable, 128 facts, 128 answers) is 1: an evaluator that tried all valuations would need 10^12
turns for it.
"""
import subprocess
import sys
import time

from programs import CRATES, program

NAME = "test_evaluate_speed"
RUNS = 3


def times(built):
    """The lines that the program prints, each with the seconds since the one before."""
    found = []
    start = time.perf_counter()
    with subprocess.Popen([built], stdin=subprocess.DEVNULL, stdout=subprocess.PIPE) as run:
        for line in run.stdout:
            now = time.perf_counter()
            found.append((line.decode().strip(), now - start))
            start = now
    return found


def main():
    subprocess.run(["rt", "run"], cwd=CRATES / NAME, check=True, capture_output=True)
    runs = [times(program(NAME)) for _ in range(RUNS)]
    least = [min(run[at][1] for run in runs) for at in range(len(runs[0]))]
    for (line, _), seconds in zip(runs[0], least):
        print(f"{seconds / least[0]:10.2f}  {line}")
    return 0


sys.exit(main())
