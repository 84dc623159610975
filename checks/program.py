"""The built program, or the one that checks/run is given, and how the checks run it."""

import os
import subprocess
import sys
import tempfile
from pathlib import Path
from typing import NamedTuple

TOP = Path(__file__).resolve().parent.parent
# the random instances of the measurements serve the checks too
sys.path.append(str(TOP / "bench"))
BUILT = TOP / "crates" / "jobshop" / "out" / "jobshop"
PROGRAM = Path(os.environ.get("JOBSHOP_PROGRAM", BUILT))
SECONDS = 60

CROSSING = "2 2\n0 3 1 2\n1 2 0 4\n"
GAP = "2 3\n0 5 1 3 2 0\n1 1 0 1 2 6\n"
TWO_NAMED = f"Two examples\ninstance crossing\nFirst\n{CROSSING}instance gap\nSecond\n{GAP}"
TAILLARD = "a heading\n2 2 11 22 6 6\nTimes\n3 2\n2 4\nMachines\n1 2\n2 1\n"
RELEASED = "3 2\n0 0 3 1 2\n4 1 2 0 4\n7\n"
FEASIBLE = "job 0: 0 3\njob 1: 0 3\n"
INFEASIBLE = "job 0: 0 3\njob 1: 0 2\n"

OUT_OF_MEMORY = b"error 1: out of memory\n"
READ_FAILED = b"error 13: read failed\n"
WRITE_FAILED = b"error 14: write failed\n"


class Ended(NamedTuple):
    """How a run ended: its status, and what it wrote to standard output and standard error."""

    status: int
    out: bytes
    err: bytes


def run(words, text="", program=PROGRAM, **given):
    """Runs the program on these words after its name, with a text or a file as its standard input."""
    if "stdin" not in given:
        given["input"] = text.encode() if isinstance(text, str) else text
    streams = {"stdout": subprocess.PIPE, "stderr": subprocess.PIPE}
    done = subprocess.run([program, *words], timeout=SECONDS, **{**streams, **given})
    return Ended(done.returncode, done.stdout or b"", done.stderr or b"")


def peak_of(words):
    """Runs the program without standard input. Returns how it ended, and its peak memory in MB, or the peak of this
    process if that is more."""
    with tempfile.TemporaryFile() as out, tempfile.TemporaryFile() as err:
        started = subprocess.Popen([PROGRAM, *words], stdin=subprocess.DEVNULL, stdout=out, stderr=err)
        _, status, usage = os.wait4(started.pid, 0)
        started.returncode = os.waitstatus_to_exitcode(status)
        written = []
        for stream in (out, err):
            stream.seek(0)
            written.append(stream.read())
    return Ended(started.returncode, *written), usage.ru_maxrss / 1e3


def number_in(report, word):
    """The number after a word that begins a line of a report."""
    return int(report.split(f"\n{word} ".encode(), 1)[1].split()[0])


class Tally:
    """Counts what was looked at, and prints what isn't as it must be."""

    def __init__(self):
        self.looked_at = 0
        self.wrong = 0

    def expect(self, title, is_right, ended=""):
        self.looked_at += 1
        if not is_right:
            self.wrong += 1
            print(f"  {title}: WRONG: {ended}", flush=True)

    def expect_equal(self, title, ended, wanted):
        self.expect(title, ended == wanted, f"{ended}, and not {wanted}")


def example(name):
    return os.fspath(TOP / "examples" / name)


def judge(check, program=PROGRAM, maker="./build"):
    """Runs a check of a program, and ends with status 1 if something isn't as it must be."""
    if not program.exists():
        sys.exit(f"{program} isn't built yet: run {maker} first")
    tally = Tally()
    check(tally)
    print(f"  {tally.looked_at} looked at, {tally.wrong} wrong", flush=True)
    sys.exit(1 if tally.wrong else 0)
