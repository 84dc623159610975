"""Makes a schedule by a dispatching rule, of an instance of any size within seconds.

    python3 dispatch.py FORMAT TEXT [NAME]

FORMAT is orlib, taillard or routes. Without NAME the first instance is taken. Prints the lines `job ..` of the
schedule, which `jobshop check` judges. No machine waits while a step could begin on it (a non-delay schedule). If
several could, the job with most work remaining goes first; among equal ones the lowest.
"""

from heapq import heapify, heappop, heappush

from given import instance_given
from output import until_closed


def schedule_of(jobs):
    """The starts of each job, by the rule."""
    starts = [[] for _ in jobs]
    remaining = [sum(time for _, time in route) for _, route in jobs]
    # when each job reaches its next step; the jobs that wait at each machine; when each machine is free
    arrivals = [(release, job) for job, (release, _) in enumerate(jobs)]
    heapify(arrivals)
    waiting, free = {}, {}
    while arrivals:
        now, touched = arrivals[0][0], {}
        while arrivals and arrivals[0][0] == now:
            _, job = heappop(arrivals)
            route, step = jobs[job][1], len(starts[job])
            # the machine that the job leaves, and the one that it reaches
            touched.update((machine, None) for machine, _ in route[max(step - 1, 0) : step + 1])
            if step < len(route):
                heappush(waiting.setdefault(route[step][0], []), (-remaining[job], job))
        for machine in touched:
            if waiting.get(machine) and free.get(machine, 0) <= now:
                _, job = heappop(waiting[machine])
                _, time = jobs[job][1][len(starts[job])]
                starts[job].append(now)
                remaining[job] -= time
                free[machine] = now + time
                heappush(arrivals, (now + time, job))
    return starts


_, jobs = instance_given(__doc__)
with until_closed():
    for job, row in enumerate(schedule_of(jobs)):
        print(f"job {job}:", *row)
