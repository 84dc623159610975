"""An exact solver of the job shop whose answers are proved: the library behind the program `jobshop`, for Python.

    import jobshop
    text = open("ft10.txt", "rb").read()
    report = jobshop.solve(text, rounds=100, budget=1000, order="bound")
    print(report.makespan, report.bound, report.is_optimal, report.starts)
    verdict = jobshop.check(text, report.starts)
    print(verdict.makespan, verdict.fault)

This plan takes seconds up to some 50 x 15; the default plan of `solve` may take hours.

A text is `str` or bytes, never a path. Its format is "orlib" (the default), "taillard" or "routes". An instance may
also be a list: for each job its steps in order, as pairs of machine (from 0) and time. The keyword `releases` says when
each job may begin; `routes` makes a text of such a list. A schedule is a text, or a list with the starts of each job.
Times and releases are whole numbers from 0 to 1,000,000,000, starts from 0 to 10^15.

    report = jobshop.solve([[(0, 3), (1, 2)], [(1, 2), (0, 4)]], releases=[0, 1])

The text of a report and the line of a verdict are the ones that the program prints, byte for byte. A text that is
refused raises `Refused`; a list in a wrong form raises TypeError or ValueError, with the job and the step. A call keeps
nothing, and lets other threads run.

Ctrl-C ends the wait for `solve` with KeyboardInterrupt, and a process that ends waits for no search. The search itself
can't be stopped: it goes on in a thread of its own until it is done or Python ends. To stop a search while Python goes
on, run the program `jobshop` instead.

`python -m jobshop` runs `list`, `check` and `solve` as the program does, with one worker.

The shared library is looked for beside this file, in a folder lib above it, or where JOBSHOP_LIBRARY says.
"""

import ctypes
import operator
import os
import threading
from _thread import start_new_thread
from collections.abc import Iterable
from functools import partial
from itertools import chain
from pathlib import Path
from queue import Empty, SimpleQueue
from typing import NamedTuple, Optional, Union

__all__ = ["Fault", "Instance", "Refused", "Report", "Verdict", "check", "instances", "routes", "solve"]

Text = Union[str, bytes, bytearray, memoryview]
# the steps of each job, as pairs of machine and time
Jobs = Iterable[Iterable[tuple[int, int]]]
# the starts of each job
Starts = Iterable[Iterable[int]]

TEXTS = (str, bytes, bytearray, memoryview)
FORMATS = ("orlib", "taillard", "routes")
ORDERS = ("kept", "bound")
OUT_OF_MEMORY = 1
BAD_SCHEDULE = 12
TOO_SMALL = 100
BAD_ARGUMENT = 101
MOST_JOBS, MOST_STEPS, LAST_MACHINE = 1_000, 100, 99
LONGEST_TIME, LATEST_START = 1_000_000_000, 10**15
# JOBSHOP_LONGEST_REPORT of jobshop.h
LONGEST_REPORT = 1_800_000
HALF_A_SECOND = 0.5
WORDS = {
    1: "out of memory",
    3: "text too long",
    4: "no instance",
    5: "bad shape of size line",
    6: "size out of range",
    7: "bad row",
    8: "text ends inside an instance",
    9: "no such machine",
    10: "time out of range",
    11: "no instance of that name",
    12: "bad schedule",
}


class Refused(ValueError):
    """A text is refused, or memory is missing (kind 1). `kind` is the number of the refusal and `line` its line, or
    None if it has none. The message may end with a hint: that memory is missing, that a path was given in place of a
    text, or which job of a list it is about."""

    def __init__(self, kind: int, line: Optional[int] = None, hint: str = "") -> None:
        self.kind = kind
        self.line = line or None
        self.hint = hint
        super().__init__(kind, line, hint)

    def __str__(self) -> str:
        return f"error {self.kind}: " + (f"line {self.line}: " if self.line else "") + WORDS[self.kind] + self.hint


class Instance(NamedTuple):
    """An instance of a text: its name, or without one its number from 1; its jobs and its machines."""

    name: str
    jobs: int
    machines: int


class Fault(NamedTuple):
    """The first fault of a schedule. The step begins before its job's release ("unreleased"), begins before the job's
    previous step ends ("early"), or overlaps the other step on the machine ("overlap")."""

    kind: str
    job: int
    step: int
    machine: Optional[int] = None
    other_job: Optional[int] = None
    other_step: Optional[int] = None


class Verdict(NamedTuple):
    """The verdict of `check`: is the schedule feasible, and the line that the program prints, as `feasible 55`. As a
    condition it is true if the schedule is feasible."""

    is_feasible: bool
    line: str

    def __bool__(self) -> bool:
        return self.is_feasible

    @property
    def makespan(self) -> Optional[int]:
        """The makespan of a feasible schedule; None if it is infeasible."""
        return int(self.line.split()[1]) if self.is_feasible else None

    @property
    def fault(self) -> Optional[Fault]:
        """The first fault of an infeasible schedule; None if it is feasible."""
        if self.is_feasible:
            return None
        numbers = [int(word) for word in self.line.split() if word.isdigit()]
        if " overlap " in self.line:
            machine, job, step, *other = numbers
            return Fault("overlap", job, step, machine, *other)
        return Fault("unreleased" if self.line.endswith("release") else "early", *numbers[:2])


class Report(NamedTuple):
    """The report of `solve`: its text as the program prints it, and its numbers. No schedule ends before `bound`, and
    if it `is_optimal` none before `makespan`; `starts` has the starts of each job's steps."""

    text: str
    name: str
    makespan: int
    bound: int
    is_optimal: bool
    open_nodes: int
    rounds: int
    nodes: int
    starts: list[list[int]]


class _Outcome(ctypes.Structure):
    _fields_ = [
        ("status", ctypes.c_uint32),
        ("feasible", ctypes.c_bool),
        ("line", ctypes.c_size_t),
        ("length", ctypes.c_size_t),
    ]


class _Options(ctypes.Structure):
    _fields_ = [
        ("rounds", ctypes.c_uint64),
        ("budget", ctypes.c_uint64),
        ("piece", ctypes.c_size_t),
        ("order", ctypes.c_uint32),
        ("gantt", ctypes.c_bool),
    ]


def _load():
    here = Path(__file__).resolve().parent
    places = [folder / "libjobshop.so.1" for folder in (here, here / "out", *(it / "lib" for it in here.parents))]
    named = os.environ.get("JOBSHOP_LIBRARY")
    found = named or next((place for place in places if place.exists()), None)
    if not found:
        raise ImportError(f"libjobshop.so.1 is neither in {here} nor in a folder lib above it: set JOBSHOP_LIBRARY")
    library = ctypes.CDLL(os.fspath(found))
    text = [ctypes.c_char_p, ctypes.c_size_t]
    calls = {
        "jobshop_list": [ctypes.c_uint32, *text, *text],
        "jobshop_check": [ctypes.c_uint32, *text, *text, *text, *text],
        "jobshop_solve": [ctypes.c_uint32, *text, ctypes.POINTER(_Options), *text, *text],
    }
    for name, arguments in calls.items():
        call = getattr(library, name)
        call.argtypes, call.restype = arguments, _Outcome
    library.jobshop_version.restype = ctypes.c_char_p
    return library


_library = _load()
__version__: str = _library.jobshop_version().decode()


def _is_list(given):
    """Is this a list, or anything else that gives one thing after another, but no text and no open file?"""
    return isinstance(given, Iterable) and not isinstance(given, TEXTS) and not hasattr(given, "read")


def _bytes(text):
    """A text and its length as a call takes them."""
    if not isinstance(text, TEXTS):
        is_path, is_file = isinstance(text, os.PathLike), hasattr(text, "read")
        advice = ": give path.read_bytes()" if is_path else ": give file.read()" if is_file else ""
        raise TypeError(f"a text is str or bytes, not {type(text).__name__}{advice}")
    text = text.encode() if isinstance(text, str) else bytes(text)
    return text, len(text)


def _name(name):
    """A name and its length as a call takes them; None is no name."""
    if name is None:
        return None, 0
    try:
        name, length = _bytes(name)
        name.decode()
    except UnicodeError:
        raise ValueError("the name isn't UTF-8") from None
    return name, length


def _whole(number, most, place, what):
    """A whole number of a list, from 0 to `most`; `place` is the job and perhaps the step."""
    try:
        value = int(operator.index(number))
    except TypeError:
        raise TypeError(f"{_said(place)}: {what} {number!r} is no whole number") from None
    if not 0 <= value <= most:
        raise ValueError(f"{_said(place)}: {what} {value} is not 0 to {most}")
    return value


def _said(place):
    return " ".join(f"{word} {number}" for word, number in zip(("job", "step"), place))


def _route(job, route):
    """The machine and the time of each step of a job, one after another."""
    if not _is_list(route):
        raise TypeError(f"job {job}: its steps are a list of pairs of machine and time, not {route!r}")
    numbers = []
    for step, pair in enumerate(route):
        try:
            machine, time = pair
        except (TypeError, ValueError):
            raise TypeError(f"job {job} step {step}: {pair!r} is no pair of machine and time") from None
        place = job, step
        numbers += _whole(machine, LAST_MACHINE, place, "machine"), _whole(time, LONGEST_TIME, place, "time")
    if len(numbers) > 2 * MOST_STEPS:
        raise ValueError(f"job {job}: {len(numbers) // 2} steps are more than {MOST_STEPS}")
    return numbers


def _starts(job, row):
    """The starts of a job, each checked."""
    if not _is_list(row):
        raise TypeError(f"job {job}: its starts are a list of whole numbers, not {row!r}")
    return [_whole(start, LATEST_START, (job, step), "start") for step, start in enumerate(row)]


def _lines_of(rows):
    """The text of a schedule. Plain ints are written all at once, which is the fastest way."""
    numbers = tuple(chain.from_iterable(rows))
    if set(map(type, numbers)) - {int}:
        return _lines_of([_starts(job, row) for job, row in enumerate(rows)])
    return "".join([f"job {job}:{' %s' * len(row)}\n" for job, row in enumerate(rows)]) % numbers


def _judge_rows(judge, schedule):
    """What `judge` says of a schedule that is a list."""
    rows = [row if type(row) in (list, tuple) else _starts(job, row) for job, row in enumerate(schedule)]
    try:
        return judge(*_bytes(_lines_of(rows)))
    except Refused as refused:
        if refused.kind != BAD_SCHEDULE:
            raise
        job = refused.line - 1
    rows = [_starts(job, row) for job, row in enumerate(rows)]
    if job < len(rows):
        fault = f"job {job}: {len(rows[job])} starts aren't one for each step, or there is no such job"
    else:
        fault = f"{len(rows)} rows of starts are fewer than the jobs"
    raise Refused(BAD_SCHEDULE, None, f" ({fault})")


def _instance(text, format, releases):
    """The number of a format, and an instance's text in it, with its length; a list of jobs is written as `routes`."""
    number = _number_of(format, FORMATS)
    if _is_list(text):
        text, number = routes(text, () if releases is None else releases), FORMATS.index("routes")
    elif releases is not None:
        raise TypeError("releases are for a list of jobs: a text has its own")
    return number, _bytes(text)


def _hint(kind, texts):
    """What the message of a refusal adds: that memory is missing, or that a text given is a path or has no line end."""
    if kind == OUT_OF_MEMORY:
        return " (memory is missing, and no text is at fault)"
    for text in (text for text in texts if isinstance(text, str)):
        if os.path.isfile(text):
            return f" ({text!r} is a file: give what it holds, not its path)"
        if text and "\n" not in text and text.split()[:1] != ["job"]:
            return f" ({text[:60]!r} has no line end: a text is wanted here, not a path or a name)"
    return ""


def _number_of(word, words):
    if word not in words:
        raise ValueError(f"{word!r} is none of {', '.join(words)}")
    return words.index(word)


def _answer(length, texts, call, *arguments):
    """Makes a call on these texts, with a buffer of this length for its answer. Returns the outcome and the answer."""
    room = ctypes.create_string_buffer(length)
    outcome = call(*arguments, room, length)
    if outcome.status == BAD_ARGUMENT:
        raise ValueError("an option is out of range")
    if outcome.status == TOO_SMALL:
        raise RuntimeError(f"the answer has {outcome.length} bytes, and its buffer {length}")
    if outcome.status:
        raise Refused(outcome.status, outcome.line, _hint(outcome.status, texts))
    return outcome, ctypes.string_at(room, outcome.length).decode()


def _is_awaited():
    """Is the process ending, and does it wait for this thread?"""
    main = threading.main_thread()
    is_ending = getattr(threading, "_SHUTTING_DOWN", False) or not main.is_alive()
    return is_ending and threading.current_thread() is not main


def _apart(call):
    """The call, made in a thread of its own, for whose outcome this one waits. Ctrl-C ends the wait, and so does the
    end of the process: nothing waits for the thread that calls."""

    def begin(*arguments):
        outcomes = SimpleQueue()
        start_new_thread(lambda: outcomes.put(call(*arguments)), ())
        while True:
            try:
                return outcomes.get(timeout=HALF_A_SECOND)
            except Empty:
                if _is_awaited():
                    raise SystemExit from None

    return begin


def routes(jobs: Jobs, releases: Iterable[int] = ()) -> str:
    """The text of an instance in the format "routes": for each job its steps in order, as pairs of machine (from 0) and
    time. `releases` has one for each of the first jobs, in order; other jobs have release 0."""
    if not _is_list(jobs):
        raise TypeError(f"the jobs are a list with a list of steps for each, not {type(jobs).__name__}")
    rows = [_route(job, route) for job, route in enumerate(jobs)]
    if not 1 <= len(rows) <= MOST_JOBS:
        raise ValueError(f"{len(rows)} jobs are not 1 to {MOST_JOBS}")
    if not _is_list(releases):
        raise TypeError(f"the releases are a list of whole numbers, not {type(releases).__name__}")
    earliest = [_whole(release, LONGEST_TIME, [job], "release") for job, release in enumerate(releases)]
    if len(earliest) > len(rows):
        raise ValueError(f"{len(earliest)} releases of {len(rows)} jobs")
    machines = 1 + max((machine for row in rows for machine in row[::2]), default=0)
    earliest += [0] * (len(rows) - len(earliest))
    lines = (" ".join(map(str, [release, *row])) for release, row in zip(earliest, rows))
    return "\n".join([f"{len(rows)} {machines}", *lines, ""])


def instances(text: Text, format: str = "orlib") -> list[Instance]:
    """The instances of a text, as `list` prints them. The format is "orlib", "taillard" or "routes"."""
    given, (text, length) = text, _bytes(text)
    # an instance has at least 6 bytes, as "1 1\n0\n", and then a line of at most 12, as "2000000 1 1\n"
    room = 2 * length + 64
    _, lines = _answer(room, [given], _library.jobshop_list, _number_of(format, FORMATS), text, length)
    rows = (line.split(" ") for line in lines.splitlines())
    return [Instance(name, int(jobs), int(machines)) for name, jobs, machines in rows]


def check(
    text: Union[Text, Jobs],
    schedule: Union[Text, Starts, None] = None,
    *,
    name: Optional[Text] = None,
    format: str = "orlib",
    releases: Optional[Iterable[int]] = None,
) -> Verdict:
    """Judges a schedule of the text's first instance, or of the one with this name; the format is "orlib", "taillard"
    or "routes". The instance may also be a list of jobs, each a list of pairs of machine and time, with the `releases`
    of the first jobs. The schedule is a text with a line `job 0: 0 3` for each job, or a list with the starts of each
    job; without one the instance's text has these lines, too.

    To judge many schedules of one instance, give the instance as a text: `routes` makes it of a list. A schedule that
    is a text is judged two to three times as fast as a list."""
    number, instance = _instance(text, format, releases)
    if schedule is None and _is_list(text):
        raise TypeError("a list of jobs has no schedule in it: give one")
    call = partial(_answer, 256, [text, schedule], _library.jobshop_check, number, *_name(name), *instance)
    if _is_list(schedule):
        outcome, line = _judge_rows(call, schedule)
    else:
        outcome, line = call(*((None, 0) if schedule is None else _bytes(schedule)))
    return Verdict(outcome.feasible, line.rstrip("\n"))


def solve(
    text: Union[Text, Jobs],
    rounds: int = 1000,
    budget: int = 100_000,
    piece: int = 1,
    order: str = "kept",
    *,
    gantt: bool = False,
    name: Optional[Text] = None,
    format: str = "orlib",
    releases: Optional[Iterable[int]] = None,
) -> Report:
    """Searches for a schedule of least makespan, with one worker, and reports the best one found with a proved lower
    bound. The instance is the text's first one, or the one with this name; the format is "orlib", "taillard" or
    "routes". It may also be a list of jobs, each a list of pairs of machine and time, with the `releases` of the first
    jobs; the other jobs have release 0.

    The plan says how long the search may go on: at most `rounds` (0 to 100,000), each of up to 256 pieces of `piece`
    open nodes (1 to 1,000); a piece may take `budget` nodes (1 to 10,000,000). The order "bound" takes open nodes of
    least bound first, "kept" in the order in which they are stored. The default plan may look at 25 billion nodes and
    take hours: `rounds=100, budget=1000, order="bound"` takes seconds up to some 50 x 15. With `gantt` the report's
    text ends with a chart."""
    limits = ("rounds", rounds, 0, 100_000), ("budget", budget, 1, 10_000_000), ("piece", piece, 1, 1_000)
    for option, number, least, most in limits:
        if not least <= number <= most:
            raise ValueError(f"{option} is {number}, and not {least} to {most}")
    options = _Options(rounds, budget, piece, _number_of(order, ORDERS), gantt)
    number, instance = _instance(text, format, releases)
    arguments = [number, *_name(name), ctypes.byref(options), *instance]
    # a step has at least 4 bytes in the text and at most 17 in the report; a name is part of the text
    room = min(5 * instance[1] + 65_536, LONGEST_REPORT) + instance[1]
    return _read(_answer(room, [text], _apart(_library.jobshop_solve), *arguments)[1])


def _read(report):
    said = dict(line.split(" ", 1) for line in report.splitlines()[:8])
    rows = (line.split(":")[1] for line in report.splitlines()[8:] if line.startswith("job "))
    return Report(
        text=report,
        name=said["instance"],
        makespan=int(said["makespan"]),
        bound=int(said["bound"]),
        is_optimal=said["status"] == "optimal",
        open_nodes=int(said["open"]),
        rounds=int(said["rounds"]),
        nodes=int(said["nodes"]),
        starts=[[int(start) for start in row.split()] for row in rows],
    )


if __name__ == "__main__":
    import sys

    import jobshop_main

    sys.exit(jobshop_main.main())
