"""A heuristic in a script: makes schedules of an instance at random, and has the library judge each of them.

    python3 judge_many.py [--format FORMAT] TEXT COUNT

FORMAT is orlib (if it isn't given), taillard or routes. The first instance of TEXT is taken. Prints how many of COUNT
schedules are feasible and the least makespan; the time for each goes to standard error.

In a checkout whose library is built, in an archive and in an install the script finds the module jobshop by itself. Run
a copy that is elsewhere with PYTHONPATH=PREFIX/lib/jobshop, if PREFIX is where jobshop was installed or unpacked.
"""

import argparse
import random
import sys
import time
from pathlib import Path

from given import FORMATS
from texts import instance

NO_MODULE = "there is no module jobshop: set PYTHONPATH to lib/jobshop of an install, or to library of a checkout"


class Words(argparse.ArgumentParser):
    """Reads the words of a call. If they are faulty, prints the usage and what is wrong, and exits."""

    def error(self, message):
        sys.exit(f"{__doc__}\n{message}")


def words_given():
    words = Words(description=__doc__, formatter_class=argparse.RawDescriptionHelpFormatter, usage=argparse.SUPPRESS)
    words.add_argument("--format", choices=FORMATS, default=FORMATS[0], help=argparse.SUPPRESS)
    words.add_argument("text", metavar="TEXT", help=argparse.SUPPRESS)
    words.add_argument("count", metavar="COUNT", help=argparse.SUPPRESS)
    words = words.parse_args()
    if not words.count.strip("0").isdecimal():
        sys.exit(f"COUNT is {words.count!r} and not a number from 1 on")
    return words


def library():
    """The module, which is in a folder beside one that this file is in unless PYTHONPATH has it."""
    sys.path += [str(top / name) for top in Path(__file__).resolve().parents for name in ("library", "lib/jobshop")]
    try:
        import jobshop
    except ModuleNotFoundError:
        sys.exit(NO_MODULE)
    except ImportError as fault:
        sys.exit(str(fault))
    return jobshop


def schedule_of(jobs, numbers):
    """Steps one by one in a random order of jobs, each as early as its job and its machine are free."""
    order = [job for job, (_, route) in enumerate(jobs) for _ in route]
    numbers.shuffle(order)
    ready, free, starts = [release for release, _ in jobs], {}, [[] for _ in jobs]
    for job in order:
        machine, duration = jobs[job][1][len(starts[job])]
        start = max(ready[job], free.get(machine, 0))
        starts[job].append(start)
        ready[job] = free[machine] = start + duration
    return "".join(f"job {job}: {' '.join(map(str, row))}\n" for job, row in enumerate(starts))


def main():
    words = words_given()
    jobshop = library()
    try:
        text, numbers = Path(words.text).read_bytes(), random.Random(1)
        jobs = instance(words.format, text)
        schedules = [schedule_of(jobs, numbers) for _ in range(int(words.count))]
        begin = time.perf_counter()
        verdicts = [jobshop.check(text, schedule, format=words.format) for schedule in schedules]
        seconds = time.perf_counter() - begin
    except (OSError, ValueError) as fault:
        sys.exit(f"{words.text}: {fault}")
    ends = [verdict.makespan for verdict in verdicts if verdict.is_feasible]
    print(len(ends), "feasible, the best ends at", min(ends, default="no time"))
    print(f"{1e6 * seconds / len(verdicts):.0f} millionths of a second each", file=sys.stderr)


main()
