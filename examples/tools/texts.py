"""Reads texts as docs/FORMATS.md says, and shares nothing with the program.

A text is bytes. LF ends a line; space, tab and CR separate tokens. (Python's own functions know more line ends and
blanks.) A text that the program refuses raises a ValueError, or is read as something.
"""

import re
from itertools import dropwhile, islice

TOKEN = re.compile(rb"[^ \t\r]+")
NAME = re.compile(rb"[!-~]+")


def lines_of(text):
    """The tokens of each line that isn't blank."""
    return [tokens for line in text.split(b"\n") if (tokens := TOKEN.findall(line))]


def value(token):
    """The value of a number, which may begin with zeros; with more than 16 digits after them it is over every limit."""
    digits = token.lstrip(b"0") or b"0"
    if not token.isdigit() or len(digits) > 16:
        raise ValueError(f"{token[:40]!r} is no number, or over every limit")
    return int(digits)


def is_text_line(line):
    return not all(token.isdigit() for token in line)


def name_in(line):
    """The name that a line `instance NAME` gives, or None."""
    return line[1].decode() if len(line) == 2 and line[0] == b"instance" and NAME.fullmatch(line[1]) else None


def rows_of(lines, count):
    rows = [[value(token) for token in line] for line in islice(lines, count)]
    if len(rows) < count:
        raise ValueError("the text ends inside an instance")
    return rows


def jobs_of(form, lines, count):
    """The release of each of the next jobs, and its pairs of machine and time."""
    if form == "taillard":
        times, machines = (rows_of(dropwhile(is_text_line, lines), count) for _ in range(2))
        return [(0, [(machine - 1, time) for machine, time in zip(*rows)]) for rows in zip(machines, times)]
    rows = rows_of(lines, count)
    releases = [row.pop(0) if form == "routes" else 0 for row in rows]
    return [(release, list(zip(row[::2], row[1::2]))) for release, row in zip(releases, rows)]


def instance(form, text, wanted=None):
    """The jobs of the first instance of a text, or of the first one of a name."""
    lines, count, name = lines_of(text), 0, None
    name_of = name_in if form != "taillard" else lambda line: None
    if any(map(name_of, lines)):
        lines = dropwhile(lambda line: not name_of(line), lines)
    lines = iter(lines)
    for line in lines:
        if is_text_line(line):
            name = name_of(line) or name
            continue
        count, jobs = count + 1, jobs_of(form, lines, value(line[0]))
        if wanted in (None, name or str(count)):
            return jobs
        name = None
    raise ValueError(f"no such instance in the format {form}")
