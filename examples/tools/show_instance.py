"""Prints an instance, as read by texts.py, which shares nothing with the program.

    python3 show_instance.py FORMAT TEXT [NAME]

A line has a step: job, step, machine, time. Jobs, steps and machines count from 0. In the format `routes` the steps of
a job come after a line with its release. Without NAME the first instance is printed. If the program accepts the text,
its report is about this instance: compare it with where your numbers come from.
"""

from given import instance_given
from output import until_closed

form, jobs = instance_given(__doc__)
with until_closed():
    for job, (release, route) in enumerate(jobs):
        if form == "routes":
            print(f"job {job} release {release}")
        for step, (machine, time) in enumerate(route):
            print(f"job {job} step {step} machine {machine} time {time}")
