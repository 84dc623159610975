"""Runs that are measured."""

import subprocess
import sys

from programs import HERE, OUT

# the resolution of the clock of processor time
LEAST_TIME = 1e-4


def build_measure():
    """Builds the program that measures into bench/out."""
    OUT.mkdir(exist_ok=True)
    subprocess.run(["cc", "-O2", "-o", OUT / "measure", HERE / "measure.c"], check=True)


class Run:
    """What a run printed, its time by the clock and its processor time in seconds, and its peak memory in KB."""

    def __init__(self, words, **options):
        figures = OUT / "figures"
        done = subprocess.run([OUT / "measure", figures, *words], stdout=subprocess.PIPE, check=True, **options)
        self.output = done.stdout.decode()
        clock, processor, memory, status = figures.read_text().split()
        self.clock, self.processor = (max(float(seconds), LEAST_TIME) for seconds in (clock, processor))
        self.memory = int(memory)
        if status != "0":
            sys.exit(f"{' '.join(map(str, words))}: status {status}")
