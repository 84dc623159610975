"""The texts that the measurements run on, by name."""

from pathlib import Path

from instances import (
    long_text,
    random_routes,
    schedule_of,
    schedule_with_late_overlap,
    text_of,
    text_of_long_routes,
    text_of_one_machine,
    text_of_spaced_jobs,
    text_to_and_fro,
)
from programs import HERE, TOP

LONGEST_TEXT = 16_777_216


def example(name):
    return (TOP / "examples" / f"{name}.txt").read_text()


def random_text(jobs, machines, seed):
    return text_of("random", random_routes(jobs, machines, seed), machines)


def text_with_schedule(jobs, machines, seed):
    routes = random_routes(jobs, machines, seed)
    return text_of("large", routes, machines) + schedule_of(routes, machines)


def text_with_late_overlap(jobs, machines, seed):
    routes = random_routes(jobs, machines, seed)
    return text_of("large", routes, machines) + schedule_with_late_overlap(routes, machines)


TEXTS = {
    "ft06": lambda: example("ft06"),
    "ft10": lambda: example("ft10"),
    "la01": lambda: example("la01"),
    "jobshop1": lambda: (HERE / "jobshop1.txt").read_text(),
    "random 15 x 15": lambda: random_text(15, 15, 1),
    "random 20 x 15": lambda: random_text(20, 15, 2),
    "random 50 x 15": lambda: random_text(50, 15, 4),
    "random 70 x 12": lambda: random_text(70, 12, 15),
    "random 80 x 12": lambda: random_text(80, 12, 17),
    "random 100 x 20": lambda: random_text(100, 20, 16),
    "random 200 x 15": lambda: random_text(200, 15, 5),
    "random 1000 x 100": lambda: random_text(1000, 100, 3),
    "one machine": lambda: text_of_one_machine(1000, 100, 6),
    "spaced 1000 x 100": lambda: text_of_spaced_jobs(1000, 100, 3),
    "500 to and fro": lambda: text_to_and_fro(500, 16, 8),
    "11 long routes": lambda: text_of_long_routes(11, 9),
    "16 MB": lambda: long_text(LONGEST_TEXT),
    "a megabyte": lambda: long_text(1_000_000),
    "late overlap": lambda: text_with_late_overlap(1000, 100, 3),
    "1000 x 100": lambda: text_with_schedule(1000, 100, 3),
}


def write_texts(folder, names):
    """Writes the texts of these names to files in a folder. Returns the files by name."""
    files = {name: Path(folder, name.replace(" ", "_")) for name in names}
    for name, file in files.items():
        file.write_text(TEXTS[name]())
    return files
