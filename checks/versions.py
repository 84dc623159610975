"""Where the version is in the sources, and what CHANGELOG.md says of versions.

Between two releases the sources have the next version with `-dev` after it, and what is new is in CHANGELOG.md
under `Unreleased`.
"""

import re
from pathlib import Path
from typing import NamedTuple

TOP = Path(__file__).resolve().parent.parent
CHANGELOG = TOP / "CHANGELOG.md"
CITATION = TOP / "CITATION.cff"
GUIDE = TOP / "docs" / "GUIDE.md"
UNRELEASED = "Unreleased"
VERSION = re.compile(r"(\d+)\.(\d+)\.(\d+)(-dev)?")
SUM = re.compile(r"\b[0-9a-f]{64}\b")
TOOLCHAIN = re.compile(r"\brattle-kit-\w+ logic [0-9a-f]{16}\b")
HEADING = re.compile(r"^## (\S+)(?: \((\d{4}-\d\d-\d\d)\))?\n", re.MULTILINE)
RELEASED_ON = re.compile(r"^date-released: (\S+)\n", re.MULTILINE)


def parts_of(version):
    """The three numbers of a version, and whether it is a release: these are greater for a later version."""
    first, second, third, ahead = VERSION.fullmatch(version).groups()
    return int(first), int(second), int(third), not ahead


def is_ahead(version):
    """Is it one that isn't released yet?"""
    return not parts_of(version)[3]


def as_it_is(version):
    return version


def as_number(version):
    first, second, third, _ = parts_of(version)
    return str(10_000 * first + 100 * second + third)


class Place(NamedTuple):
    """A place of the version in the sources: between two groups of a pattern that matches one line. And its form."""

    file: str
    pattern: str
    form: callable = as_it_is

    def found(self):
        """The text at this place, for each line that matches."""
        return [middle for _, middle, _ in re.findall(self.pattern, (TOP / self.file).read_text(), re.MULTILINE)]

    def put(self, version):
        file = TOP / self.file
        text = re.sub(self.pattern, rf"\g<1>{self.form(version)}\g<3>", file.read_text(), flags=re.MULTILINE)
        file.write_text(text)


PLACES = [
    Place("crates/shop_program/src/help.rt", r'^(jobshop )(\S+)(",)$'),
    Place("library/jobshop.h", r'^(#define JOBSHOP_VERSION ")(.*)(")$'),
    Place("library/jobshop.h", r"^(#define JOBSHOP_VERSION_NUMBER )(.*)()$", as_number),
    Place("CITATION.cff", r"^(version: )(.*)()$"),
    Place("docs/jobshop.1", r'^(\.TH .*"jobshop )(.*)(")$'),
    Place("docs/jobshop-formats.5", r'^(\.TH .*"jobshop )(.*)(")$'),
    Place("checks/words", r"^(jobshop )(\S+)()$"),
    Place("docs/GUIDE.md", r'()(?<="jobshop )(\S+)( \(sha256 )'),
]


class Entry(NamedTuple):
    """What CHANGELOG.md says of a version: `Unreleased` in place of one that isn't released, and has no date."""

    version: str
    date: str
    text: str

    def sums(self):
        return SUM.findall(self.text)

    def toolchains(self):
        return TOOLCHAIN.findall(self.text)


def entries():
    """The entries of CHANGELOG.md, the newest first."""
    _, *parts = HEADING.split(CHANGELOG.read_text())
    return [Entry(*parts[at:at + 3]) for at in range(0, len(parts), 3)]
