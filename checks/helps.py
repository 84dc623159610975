"""What the help of the program says, by its parts, and the files that are made from it."""

import re
import sys
from typing import NamedTuple

from program import TOP, run

COMMANDS = ["list", "check", "solve"]
HEADING = re.compile(r"^(\S[^:]*):$")
ENTRY = re.compile(r"^ {2,}((?:\[|-)\S*(?:, --\S+)?(?: <\w+>)?) {2,}(.*)$")


class Help(NamedTuple):
    """What a command is for, the lines below that, how it is called, the lines of its parts by heading, and its text
    without one."""

    about: str
    more: list
    usage: str
    parts: dict
    prose: list

    def entries(self, heading):
        """The options or arguments of a part, each with what it is for."""
        found = [ENTRY.match(line) for line in self.parts.get(heading, []) if line]
        return [(entry[1], entry[2]) for entry in found]


def help_of(*words):
    lines = run([*words, "--help"]).err.decode().splitlines()
    first = lines.index("")
    (about, *more), usage = lines[:first], lines[first + 1]
    parts, prose, heading = {}, [], None
    for line in lines[first + 2:]:
        found = HEADING.match(line)
        if found:
            heading = found[1]
            parts[heading] = []
        elif line and not line.startswith(" "):
            heading = None
            prose.append(line)
        elif heading:
            parts[heading].append(line)
        else:
            prose.append(line)
    return Help(about, more, usage.removeprefix("Usage: "), parts, [line for line in prose if line])


def version():
    """The version, in the last line of the help."""
    return help_of().prose[-1].split()[1]


def expect_made(tally, file, made):
    """That a file is as it is made, or with --write makes it so."""
    if "--write" in sys.argv[1:]:
        file.write_text(made)
    kept = file.read_text() if file.exists() else ""
    tally.expect(f"{file.relative_to(TOP)} is what is made", kept == made, f"run {sys.argv[0]} --write")
