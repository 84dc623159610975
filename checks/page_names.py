"""Which names on the pages nothing in the tree bears, and which rows that a script kept a page doesn't show.

Between backticks a word with a slash, or with an ending of the sources, has to be the path of a file or a folder, or
the end of one. A word with `_`, with `::`, or with capitals like CamelCase has to occur in the sources; `A::b` wants a
file that has both. What isn't looked up is said by ELSEWHERE, PLACEHOLDER, KNOWN and GONE.
"""

import re
import subprocess
from pathlib import Path

TOP = Path(__file__).resolve().parent.parent
SOURCES = ("crates/", "crates.txt", "library/", "bench/", "checks/", "examples/")
# the page that has to show the rows of a kept file
SHOWN = {"bench/builds.kept": "docs/PERFORMANCE.md"}
BLOCK = re.compile(r"^```.*?^```$", re.MULTILINE | re.DOTALL)
CODE = re.compile(r"`([^`]+)`")
FILE = re.compile(r"[\w.-]*(/[\w.-]+)+/?|[\w.-]+/|[\w.-]+\.(antt|c|cff|edit|h|kept|md|py|rt|txt)")
NAME = re.compile(r"\w+(?:::\w+)+|[A-Za-z]\w*_\w*|[A-Z][A-Z0-9]*[a-z]\w*")
WORD = re.compile(r"[A-Za-z_]\w*")
# paths of a machine, of an install or of a build
ELSEWHERE = re.compile(r"/|(PREFIX|STAGE|bin|lib|share)/|(crates/\w+/)?out\b")
# words of a page that mean any name
PLACEHOLDER = re.compile(r"\b(NAME|CRATE|MODULE|TYPE|FUNCTION|FOLDER)")
# words of the toolchain that the sources don't use
KNOWN = {"RT_SECONDS"}
# names that only older sources have: docs/PERF.md shows them beside the new ones
GONE = {"work_by", "run_list", "add_open"}


def tree():
    """The paths of all files of the tree, and of the folders that they are in."""
    listed = ["git", "ls-files", "--cached", "--others", "--exclude-standard"]
    files = subprocess.run(listed, cwd=TOP, capture_output=True, text=True, check=True).stdout.splitlines()
    return {path for file in files for path in [file, *map(str, Path(file).parents)]}


def words_of_sources(paths):
    """For each source file but this one the words of its text and of its path."""
    for file in (TOP / path for path in sorted(paths) if path.startswith(SOURCES)):
        if file.is_file() and file != Path(__file__).resolve():
            yield frozenset(WORD.findall(str(file.relative_to(TOP))) + WORD.findall(file.read_text(errors="replace")))


def words_between_backticks(page):
    """The words of a page's code outside its blocks, without the punctuation around them."""
    for code in CODE.findall(BLOCK.sub("", (TOP / page).read_text())):
        yield from (word.strip("(),;:\"'") for word in code.split())


def wrong_names(pages):
    """The names between backticks that nothing in the tree bears."""
    paths = tree()
    ends = {path[at:] for path in paths for at in range(len(path)) if at == 0 or path[at - 1] == "/"}
    sources = list(words_of_sources(paths))
    for page, word in ((page, word) for page in pages for word in words_between_backticks(page)):
        if FILE.fullmatch(word):
            if not (ELSEWHERE.match(word) or PLACEHOLDER.search(word) or word.removeprefix("./").rstrip("/") in ends):
                yield f"{page}: no file or folder is {word}"
            continue
        for name in NAME.findall(word):
            parts = set(WORD.findall(name))
            if not parts & (KNOWN | GONE) and not any(parts <= words for words in sources):
                yield f"{page}: nothing in the sources is {name}"


def missing_rows():
    """The rows of kept files that the pages don't show."""
    for kept, page in SHOWN.items():
        shown = (TOP / page).read_text().splitlines()
        yield from (f"{page}: no row {row}" for row in (TOP / kept).read_text().splitlines() if row not in shown)
