"""Runs of the built program in which memory or threads are refused, and what they asked for and left."""

import os
import subprocess
import threading
from pathlib import Path
from typing import NamedTuple

from program import PROGRAM, TOP, run


class Counted(NamedTuple):
    """What a run asked for, how much of it was refused, and what was left of it at the end."""

    allocations: int
    refused_allocations: int
    threads: int
    refused_threads: int
    bytes: int
    greatest_request: int
    most_threads_alive: int
    reads: int
    writes: int
    peak_kilobytes: int
    refused_on_threads: int
    threads_begun: int
    threads_joined: int
    blocks_left: int
    bytes_left: int
    most_bytes: int

    @property
    def threads_left(self):
        """How many threads were started and nobody waited for."""
        return self.threads - self.refused_threads - self.threads_joined


class Refusing:
    """The shim, built into a folder that also takes its logs, before a program."""

    def __init__(self, folder, program=PROGRAM):
        self.folder = Path(folder)
        self.program = program
        self.shim = self.folder / "refuse.so"
        source = TOP / "checks" / "refuse.c"
        subprocess.run(["cc", "-O1", "-shared", "-fPIC", "-o", self.shim, source, "-ldl"], check=True)

    def run(self, words, text, given=None, **refused):
        """Runs the program under the shim. Returns how the run ended, and what it asked for. `given` has more arguments
        of the run; other keywords, such as at=3, are the shim's variables."""
        log = self.folder / f"log-{threading.get_ident()}"
        log.unlink(missing_ok=True)
        variables = {f"REFUSE_{name.upper()}": str(value) for name, value in refused.items()}
        env = {**os.environ, "LD_PRELOAD": os.fspath(self.shim), "REFUSE_LOG": os.fspath(log), **variables}
        ended = run(words, text, **{"program": self.program, "env": env, **(given or {})})
        return ended, Counted(*map(int, log.read_text().split()))
