"""Adds up the trivial lower bound of an instance: no schedule ends before it, and no printed bound is less.

    python3 show_instance.py FORMAT TEXT [NAME] | python3 floor.py

The head of a step is its job's release plus the times of the job's earlier steps; its tail is the times of the later
ones. A machine's sum is its least head, all its times and its least tail; a job's sum is its release and all its times.
The last line, `floor`, has the greatest sum.
"""

import re
import sys

from output import until_closed

LINE = re.compile(rb"job (\d+) (?:release (\d+)|step \d+ machine (\d+) time (\d+))\n")


def jobs_in(lines):
    """The release of each job and its steps, pairs of machine and time, as show_instance.py prints them."""
    jobs = {}
    for line in lines:
        found = LINE.fullmatch(line)
        if not found:
            sys.exit(f"no line of show_instance.py: {line[:60]!r}")
        job, release, machine, time = (int(number or 0) for number in found.groups())
        _, route = jobs.setdefault(job, (release, []))
        if found[4]:
            route.append((machine, time))
    return jobs


def sums_of(jobs):
    """What is added up for each machine, then for each job that has steps, by their titles."""
    machines = {}
    for head, route in jobs.values():
        tail = sum(time for _, time in route)
        for machine, time in route:
            tail -= time
            machines.setdefault(machine, []).append((head, time, tail))
            head += time
    for machine, steps in sorted(machines.items()):
        heads, times, tails = zip(*steps)
        yield f"machine {machine}", [min(heads), sum(times), min(tails)]
    for job, (release, route) in jobs.items():
        if route:
            yield f"job {job}", [release, sum(time for _, time in route)]


jobs = jobs_in(sys.stdin.buffer)
if not jobs:
    sys.exit("no instance was given")
sums = list(sums_of(jobs))
with until_closed():
    for title, parts in sums:
        print(f"{title}: {' + '.join(map(str, parts))} = {sum(parts)}")
    print("floor", max((sum(parts) for _, parts in sums), default=0))
