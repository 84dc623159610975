"""Instances and schedules as lists for the Python module, which names job and step of faulty ones, and no line."""

from functools import partial

from program import CROSSING, run

JOBS = [[(0, 3), (1, 2)], [(1, 2), (0, 4)]]
RIGHT = [[0, 3], [0, 3]]
TIMES, STARTS = "is not 0 to 1000000000", "is not 0 to 1000000000000000"
STEPS, ROW = "its steps are a list of pairs of machine and time, not", "its starts are a list of whole numbers, not"
UNFIT = "starts aren't one for each step, or there is no such job"

# instances, and what the module says of each
FAULTY_JOBS = [
    ([[0, 1]], "TypeError: job 0 step 0: 0 is no pair of machine and time"),
    ([[(0, 1)], [(0, 1, 2)]], "TypeError: job 1 step 0: (0, 1, 2) is no pair of machine and time"),
    ([7], f"TypeError: job 0: {STEPS} 7"),
    (["0 1"], f"TypeError: job 0: {STEPS} '0 1'"),
    ([[(0, 1), (0, 1.5)]], "TypeError: job 0 step 1: time 1.5 is no whole number"),
    ([[("0", 1)]], "TypeError: job 0 step 0: machine '0' is no whole number"),
    ([[(0, -1)]], f"ValueError: job 0 step 0: time -1 {TIMES}"),
    ([[], [(0, 10**9 + 1)]], f"ValueError: job 1 step 0: time 1000000001 {TIMES}"),
    ([[(100, 1)]], "ValueError: job 0 step 0: machine 100 is not 0 to 99"),
    ([[(0, 1), (-1, 1)]], "ValueError: job 0 step 1: machine -1 is not 0 to 99"),
    ([[(0, 1)] * 101], "ValueError: job 0: 101 steps are more than 100"),
    ([], "ValueError: 0 jobs are not 1 to 1000"),
    ([[]] * 1001, "ValueError: 1001 jobs are not 1 to 1000"),
    (7, "TypeError: a text is str or bytes, not int"),
]
# releases of JOBS
FAULTY_RELEASES = [
    ([0, 9, 1], "ValueError: 3 releases of 2 jobs"),
    ([0, -9], f"ValueError: job 1: release -9 {TIMES}"),
    ([0.5], "TypeError: job 0: release 0.5 is no whole number"),
    (9, "TypeError: the releases are a list of whole numbers, not int"),
]
# schedules of JOBS
FAULTY_STARTS = [
    (["0 3", "0 3"], f"TypeError: job 0: {ROW} '0 3'"),
    ([[0, 3], 4], f"TypeError: job 1: {ROW} 4"),
    ([[0, 3], [0, "3"]], "TypeError: job 1 step 1: start '3' is no whole number"),
    ([[0, 3.0], [0, 3]], "TypeError: job 0 step 1: start 3.0 is no whole number"),
    ([[[0], 3], [0, 3]], "TypeError: job 0 step 0: start [0] is no whole number"),
    ([[0, -3], [0, 3]], f"ValueError: job 0 step 1: start -3 {STARTS}"),
    ([[0, 10**15 + 1], [0, 3]], f"ValueError: job 0 step 1: start 1000000000000001 {STARTS}"),
    ([[0, 3], [0]], f"Refused: error 12: bad schedule (job 1: 1 {UNFIT})"),
    ([[0, 3], [0, 3], []], f"Refused: error 12: bad schedule (job 2: 0 {UNFIT})"),
    ([[0, 3]], "Refused: error 12: bad schedule (1 rows of starts are fewer than the jobs)"),
]


def raised(call):
    """What a call raises."""
    try:
        return call()
    except Exception as fault:
        return f"{type(fault).__name__}: {fault}"


def check_lists(tally):
    import jobshop

    check = partial(jobshop.check, JOBS)
    for title, call, told in [
        ("jobs", lambda: jobshop.solve(JOBS).text, run(["solve"], CROSSING).out.decode()),
        ("their schedule", lambda: check(RIGHT, format="taillard").makespan, 7),
        ("jobs at the limits", lambda: jobshop.solve([[(99, 10**9)] * 100] + [[]] * 999, 0).bound, 10**11),
        ("starts at the limit", lambda: check([[0, 3], [0, 10**15]]).makespan, 10**15 + 4),
        ("a job without steps", lambda: jobshop.routes([[(2, 5)], []], [4]), "2 3\n4 2 5\n0\n"),
        ("a text with releases", lambda: jobshop.solve(jobshop.routes(JOBS, [0, 9]), format="routes").makespan, 15),
        ("releases", lambda: jobshop.solve(JOBS, releases=[0, 9]).makespan, 15),
        ("releases of a schedule", lambda: check([[0, 3], [9, 11]], releases=(0, 9)).line, "feasible 15"),
        ("a release that is missed", lambda: check([[0, 3], [9, 11]], releases=iter([0, 10])).line,
         "infeasible: job 1 step 0 begins before its release"),
        ("releases beside a text", lambda: jobshop.solve(CROSSING, releases=[0]),
         "TypeError: releases are for a list of jobs: a text has its own"),
        ("starts in tuples", lambda: check(((0, 3), range(0, 4, 3))).makespan, 7),
        ("starts one by one", lambda: check(iter(row) for row in RIGHT).makespan, 7),
        ("starts that are true", lambda: jobshop.check([[(0, 0)], [(0, 1)]], [[True], [False]]).makespan, 1),
        ("no starts", lambda: jobshop.check(JOBS), "TypeError: a list of jobs has no schedule in it: give one"),
        ("an empty text", lambda: jobshop.check(""), "Refused: error 4: no instance"),
        ("starts of no instance", lambda: jobshop.check("x\n", RIGHT), "Refused: error 4: no instance"),
    ]:
        tally.expect_equal(f"in lists: {title}", raised(call), told)
    for jobs, told in FAULTY_JOBS:
        for call in (jobshop.solve, jobshop.check):
            tally.expect_equal(f"{call.__name__} of {str(jobs)[:60]}", raised(partial(call, jobs)), told)
    for releases, told in FAULTY_RELEASES:
        for call in (jobshop.solve, jobshop.check, lambda jobs, releases: jobshop.routes(jobs, releases)):
            tally.expect_equal(f"the releases {releases}", raised(partial(call, JOBS, releases=releases)), told)
    for starts, told in FAULTY_STARTS:
        for instance in (JOBS, CROSSING):
            found = raised(partial(jobshop.check, instance, starts))
            tally.expect_equal(f"the starts {starts}", found, told)
    refused = jobshop.Refused(12)
    try:
        check([[0, 3]])
    except jobshop.Refused as fault:
        refused = fault
    tally.expect_equal("its kind and its line", (refused.kind, refused.line), (12, None))
