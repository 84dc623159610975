"""From a spreadsheet to an instance, and from a report back to a list.

    python3 spreadsheet.py routes SHEET.csv          the instance, in the format `routes`
    python3 spreadsheet.py names SHEET.csv           its machines and jobs: number, sign in the chart, name
    python3 spreadsheet.py list SHEET.csv REPORT     each step of the report's schedule, as CSV

The sheet is UTF-8, with commas, semicolons or tabs between fields. A first line `sep=;` is skipped. The next line has
the names of the columns, in capitals or not: job, machine, hours and, if jobs come in late, release. Below it each row
is a step, the steps of a job in order. A job's first row has its release, before which it can't begin, or nothing.
Write hours as 2, 1.5, 1,25 or 1:30. Jobs and machines are numbered as they come.

A unit of the instance is half an hour, or with --units-an-hour N an N-th of an hour. With --start 7:45 the list has
times of the day; from 24:00 on they are of the next day. Then a release like 8:30 is a time of the day, and a release
like 2 or 1.5 counts hours from the start: both 8:45 and 1 are an hour after 7:45. Give the same options to all calls.

`routes` remarks on standard error: columns that it leaves out, names that differ only in case, a job whose rows are in
two places, and releases like 8:30 without --start. `list` prints nothing if the report's schedule doesn't fit the
sheet, and says which step doesn't. It separates fields as the sheet does; between semicolons numbers have a decimal
comma. It begins with a mark for UTF-8, which Excel may need, if the sheet does, or with --mark.
"""

import argparse
import csv
import re
import string
import sys
from fractions import Fraction
from pathlib import Path
from typing import NamedTuple, Optional

from output import until_closed
from texts import lines_of, value

COLUMNS = ("job", "machine", "hours")
MARK = "\ufeff"
SEPARATORS = "\t;,"
SEPARATOR_LINE = re.compile(r"sep=([\t;,])\s*", re.IGNORECASE)
# three digits after a comma or a point might be meant as thousands
HOURS = re.compile(r"([0-9]{1,9})(?:[.,]([0-9]{1,2})|:([0-5][0-9]))?")
# 7.45 might be meant as a quarter to eight
TIME_OF_DAY = re.compile(r"[0-9]{1,2}:[0-5][0-9]")
CHART_SIGNS = string.digits + string.ascii_uppercase + string.ascii_lowercase
CHANGED = "the sheet, --units-an-hour or --start isn't the one that the report's instance was made with"


class Words(argparse.ArgumentParser):
    """Reads the words of a call. If they are faulty, prints the usage and what is wrong, and exits."""

    def error(self, message):
        sys.exit(f"{__doc__}\n{message}")


class Step(NamedTuple):
    """A step: its line in the sheet, its machine, and its time in units."""

    line: int
    machine: str
    time: int


class Job(NamedTuple):
    """A job: its release in units, and its steps."""

    release: int
    steps: list


class Sheet(NamedTuple):
    """The jobs of a sheet by name, the number of each machine, what to remark, and how the sheet is written."""

    jobs: dict
    machines: dict
    remarks: list
    separator: str
    has_separator_line: bool
    has_mark: bool


def hours_in(field):
    """The hours in a field; an empty one has 0."""
    found = HOURS.fullmatch(field or "0")
    if not found:
        raise ValueError(f"{field!r} is no number of hours: write 1000, 1.5, 1,25 or 1:30")
    whole, part, minutes = found.groups(default="0")
    return Fraction(f"{whole}.{part}") + Fraction(int(minutes), 60)


def hours_of_day(word):
    """The hours from midnight to a time of the day."""
    if not TIME_OF_DAY.fullmatch(word):
        raise ValueError(f"{word!r} is no time of the day: write 7:45")
    return hours_in(word)


class Clock(NamedTuple):
    """How many units an hour has, and the hours from midnight to the start, if it is given."""

    units_an_hour: int
    start: Optional[Fraction]

    def whole_units(self, hours, said):
        count = hours * self.units_an_hour
        if count.denominator != 1:
            needed = self.units_an_hour * count.denominator
            raise ValueError(f"{said} no whole number of units: add --units-an-hour {needed}")
        return count.numerator

    def time(self, field):
        """The units in a field of hours."""
        return self.whole_units(hours_in(field), f"{field} hours are")

    def release(self, field):
        """The units from the start to a release, which may be a time of the day."""
        if self.start is None or ":" not in field:
            return self.time(field)
        since = hours_in(field) - self.start
        if since < 0:
            raise ValueError(f"the release {field} is before the start: write the next day from 24:00 on")
        return self.whole_units(since, f"from the start to {field} is")

    def shown(self, unit, decimal_mark):
        """An instant in hours, or with a start as a time of the day."""
        if self.start is None:
            return str(unit / self.units_an_hour).replace(".", decimal_mark)
        minutes = (self.start + Fraction(unit, self.units_an_hour)) * 60
        if minutes.denominator != 1:
            raise ValueError("with --start a unit has to be a whole number of minutes")
        return f"{minutes.numerator // 60}:{minutes.numerator % 60:02}"


# ---- the sheet


def fields_of(line, separator):
    try:
        [fields] = csv.reader([line], delimiter=separator, skipinitialspace=True, strict=True)
    except csv.Error as fault:
        raise ValueError(f"a quote is missing, or one too many ({fault})") from None
    return [field.strip() for field in fields]


def columns_of(names):
    """The columns in small letters, each with its name as the sheet has it."""
    small = [name.lower() for name in names]
    for column in COLUMNS:
        if column not in small:
            raise ValueError(f"no column is named {column}")
    for column in (*COLUMNS, "release"):
        alike = [name for name in names if name.lower() == column]
        if len(alike) > 1:
            raise ValueError(f"two columns are named {column}: {' and '.join(alike)}")
    return list(zip(small, names))


def lines_in(path):
    """The lines of a sheet, and whether a mark for UTF-8 was before the first one."""
    try:
        with open(path, encoding="utf-8") as file:
            text = file.read()
    except UnicodeDecodeError:
        raise ValueError("it isn't UTF-8: save it as CSV UTF-8") from None
    return text.removeprefix(MARK).removesuffix("\n").split("\n"), text.startswith(MARK)


class Reader:
    """Reads the rows of a sheet into jobs."""

    def __init__(self, clock, columns):
        self.clock, self.columns = clock, columns
        self.jobs, self.machines, self.remarks, self.last = {}, {}, [], None
        known = (*COLUMNS, "release")
        self.remarks += [f"column {name} is left out" for column, name in columns if name and column not in known]

    def add(self, line, fields):
        """Adds the step of a row to its job."""
        row = {column: field for (column, _), field in zip(self.columns, fields)}
        for column, name in self.columns:
            if column in COLUMNS and not row.get(column):
                raise ValueError(f"{name} is empty")
        job, release = row["job"], row.get("release", "")
        if job in self.jobs and job != self.last:
            self.remarks.append(f"line {line}: job {job} goes on here, after rows of others")
        elif ":" in release and self.clock.start is None:
            self.remarks.append(f"line {line}: {release} counts from hour 0: for a time of the day add --start")
        first, steps = self.jobs.setdefault(job, Job(self.clock.release(release), []))
        if release and self.clock.release(release) != first:
            raise ValueError(f"job {job} has another release in its first row")
        steps.append(Step(line, row["machine"], self.clock.time(row["hours"])))
        self.machines.setdefault(row["machine"], len(self.machines))
        self.last = job

    def remark_on_case(self, what, names):
        alike = {}
        for name in names:
            alike.setdefault(name.casefold(), []).append(name)
        self.remarks += [f"{what} {' and '.join(it)} differ only in case" for it in alike.values() if len(it) > 1]


def read(path, clock):
    lines, has_mark = lines_in(path)
    found = SEPARATOR_LINE.fullmatch(lines[0])
    numbered = list(enumerate(lines, 1))[1 if found else 0 :]
    head, named = numbered[0] if numbered else (2, "")
    separator = found[1] if found else max(SEPARATORS, key=named.count)
    reader = None
    for number, line in numbered:
        try:
            fields = fields_of(line, separator) if line or not reader else []
            if not reader:
                reader = Reader(clock, columns_of(fields))
            elif len(fields) > len(reader.columns):
                raise ValueError(f"more fields than line {head} has")
            elif any(fields):
                reader.add(number, fields)
        except ValueError as fault:
            raise ValueError(f"line {number}: {fault}") from None
    if not reader or not reader.jobs:
        raise ValueError("no row is below the line with the names of columns")
    reader.remark_on_case("jobs", reader.jobs)
    reader.remark_on_case("machines", reader.machines)
    return Sheet(reader.jobs, reader.machines, reader.remarks, separator, bool(found), has_mark)


# ---- what is printed


def routes(sheet):
    yield f"{len(sheet.jobs)} {len(sheet.machines)}"
    for job in sheet.jobs.values():
        yield " ".join([str(job.release), *(f"{sheet.machines[step.machine]} {step.time}" for step in job.steps)])


def sign_of(number):
    """What the chart says about the sign of a job, if that isn't its number."""
    if number < 10:
        return ""
    return f" ({CHART_SIGNS[number] if number < len(CHART_SIGNS) else '#'} in the chart)"


def names(sheet):
    yield from (f"machine {number}: {name}" for number, name in enumerate(sheet.machines))
    yield from (f"job {number}{sign_of(number)}: {name}" for number, name in enumerate(sheet.jobs))


class Placed(NamedTuple):
    """A step of the sheet, with the begin and the end that the report gives it."""

    begin: int
    end: int
    step: Step

    def __str__(self):
        return f"the step of line {self.step.line}"


def number_after(word, lines):
    """The first number of the report's line that begins with this word, or None."""
    return next((value(line[1]) for line in lines if line[0] == word and len(line) > 1), None)


def placed_by(sheet, report):
    """The steps of each job with their begins and ends, if the report has as many jobs, machines and steps."""
    lines = lines_of(report)
    rows = [line for line in lines if line[0] == b"job"]
    machines = next((value(line[2]) for line in lines if line[0] == b"size" and len(line) == 3), len(sheet.machines))
    for what, reported, own in [("jobs", len(rows), len(sheet.jobs)), ("machines", machines, len(sheet.machines))]:
        if reported != own:
            raise ValueError(f"the report has {reported} {what}, the sheet {own}: {CHANGED}")
    placed = {}
    for number, (row, (name, job)) in enumerate(zip(rows, sheet.jobs.items())):
        if not re.fullmatch(rb"0*%d:" % number, b"".join(row[1:2])):
            raise ValueError(f"the report's lines of jobs aren't job 0, job 1, ..: {b' '.join(row[:2]).decode()!r}")
        if len(row) - 2 != len(job.steps):
            raise ValueError(f"job {name} has {len(row) - 2} starts in the report, {len(job.steps)} rows: {CHANGED}")
        begins = map(value, row[2:])
        placed[name] = [Placed(begin, begin + step.time, step) for begin, step in zip(begins, job.steps)]
    return placed, number_after(b"makespan", lines)


def faults_in(sheet, placed):
    """Which steps begin before they can, by the sheet."""
    for name, steps in placed.items():
        if steps[0].begin < sheet.jobs[name].release:
            yield f"{steps[0]} begins before its release"
        for earlier, later in zip(steps, steps[1:]):
            if later.begin < earlier.end:
                yield f"{later} begins before {earlier} ends"
    served = {}
    for it in sorted((it for steps in placed.values() for it in steps), key=lambda it: it[:2]):
        before = served.setdefault(it.step.machine, it)
        if before is not it and it.begin < before.end:
            yield f"{it} begins before {before} ends on {it.step.machine}"
        served[it.step.machine] = max(before, it, key=lambda it: it.end)


def listed(sheet, report, clock):
    """The rows of the list, if the report's schedule is one of this sheet."""
    placed, makespan = placed_by(sheet, report)
    for fault in faults_in(sheet, placed):
        raise ValueError(f"{fault}: {CHANGED}")
    end, last = max((it.end, it) for steps in placed.values() for it in steps)
    if makespan not in (None, end):
        raise ValueError(f"{last} is the last to end, at unit {end}, and the makespan is {makespan}: {CHANGED}")
    decimal_mark = "," if sheet.separator == ";" else "."
    yield ["job", "step", "machine", "start", "end"]
    for name, steps in placed.items():
        for number, it in enumerate(steps):
            yield [name, number, it.step.machine, *(clock.shown(unit, decimal_mark) for unit in it[:2])]


def print_list(sheet, rows, is_marked):
    print(MARK if is_marked or sheet.has_mark else "", end="")
    if sheet.has_separator_line:
        print(f"sep={sheet.separator}")
    csv.writer(sys.stdout, delimiter=sheet.separator, lineterminator="\n").writerows(rows)


# ---- the call


def words_given():
    words = Words(usage="python3 spreadsheet.py [OPTIONS] routes|names|list SHEET.csv [REPORT]", description=__doc__)
    words.formatter_class = argparse.RawDescriptionHelpFormatter
    words.add_argument("what", choices=("routes", "names", "list"), help=argparse.SUPPRESS)
    words.add_argument("sheet", help=argparse.SUPPRESS)
    words.add_argument("report", nargs="?", help=argparse.SUPPRESS)
    words.add_argument("--units-an-hour", type=int, default=2, metavar="N", help="2 if it isn't given")
    words.add_argument("--start", metavar="H:MM", help="the time of the day at hour 0")
    words.add_argument("--mark", action="store_true", help="begin the list with a mark for UTF-8")
    words = words.parse_args()
    if (words.what == "list") != (words.report is not None):
        sys.exit(__doc__)
    return words


def main():
    words = words_given()
    sys.stdout.reconfigure(encoding="utf-8")
    try:
        if words.units_an_hour < 1:
            raise ValueError("--units-an-hour is at least 1")
        clock = Clock(words.units_an_hour, None if words.start is None else hours_of_day(words.start))
        sheet = read(words.sheet, clock)
        rows = list(listed(sheet, Path(words.report).read_bytes(), clock)) if words.what == "list" else []
    except (OSError, ValueError) as fault:
        sys.exit(f"{' '.join(filter(None, [words.sheet, words.report]))}: {fault}")
    with until_closed():
        if words.what == "list":
            print_list(sheet, rows, words.mark)
        else:
            print(*(routes if words.what == "routes" else names)(sheet), sep="\n")
    if words.what == "routes":
        for remark in sheet.remarks:
            print(f"{words.sheet}: {remark}", file=sys.stderr)


main()
