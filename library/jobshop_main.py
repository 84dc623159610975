"""The command line of the module: `python -m jobshop` runs list, check and solve as the program jobshop does, with one
worker. An install and a wheel have this file as jobshop/__main__.py."""

import argparse
import sys

import jobshop

OUT_OF_MEMORY = 1
PLAN = {"rounds": 1000, "budget": 100_000, "piece": 1}
ABOUT = {
    "list": "Lists the instances of a text: name, jobs, machines",
    "check": "Judges a schedule of an instance: feasible with its makespan, or its first fault",
    "solve": "Searches a schedule of least makespan, with one worker, and reports it with a proved lower bound",
}


class ReadFailed(Exception):
    """A file can't be read."""


def parser_of_words():
    about = f"jobshop {jobshop.__version__}: an exact solver of the job shop whose answers are proved"
    parser = argparse.ArgumentParser("python -m jobshop", description=about, allow_abbrev=False)
    commands = parser.add_subparsers(dest="command", metavar="COMMAND", required=True)
    for command, about in ABOUT.items():
        words = commands.add_parser(command, help=about, description=about, allow_abbrev=False)
        words.add_argument("file", metavar="FILE", nargs="?", help="the text of the instances; else standard input")
        words.add_argument("--format", choices=jobshop.FORMATS, default=jobshop.FORMATS[0])
        if command != "list":
            words.add_argument("--name", help="the instance of this name; else the first one")
        if command == "check":
            words.add_argument("schedule", metavar="SCHEDULE", nargs="?", help="the schedule; else FILE has its lines")
        if command == "solve":
            for option, number in PLAN.items():
                words.add_argument(f"--{option}", type=int, default=number, metavar="N", help=f"else {number}")
            words.add_argument("--order", choices=jobshop.ORDERS, default=jobshop.ORDERS[0])
            words.add_argument("--gantt", action="store_true", help="draw the schedule below the report")
    return parser


def read(path):
    try:
        # by its number, so that a closed one is a failed read
        with open(0 if path is None else path, "rb", closefd=path is not None) as file:
            return file.read()
    except OSError:
        raise ReadFailed from None


def run(words):
    """The exit status of a command and what it prints."""
    text = read(words.file)
    if words.command == "list":
        return 0, "".join(f"{it.name} {it.jobs} {it.machines}\n" for it in jobshop.instances(text, words.format))
    of = {"name": words.name, "format": words.format}
    if words.command == "check":
        verdict = jobshop.check(text, None if words.schedule is None else read(words.schedule), **of)
        return int(not verdict), verdict.line + "\n"
    plan = {option: getattr(words, option) for option in [*PLAN, "order", "gantt"]}
    return 0, jobshop.solve(text, **plan, **of).text


def main():
    """Runs the command line, and returns the exit status that the program has."""
    parser = parser_of_words()
    try:
        status, printed = run(parser.parse_args())
    except jobshop.Refused as refused:
        print(jobshop.Refused(refused.kind, refused.line), file=sys.stderr)
        return 5 if refused.kind == OUT_OF_MEMORY else 3
    except ReadFailed:
        print("error 13: read failed", file=sys.stderr)
        return 4
    except ValueError as fault:
        parser.error(str(fault))
    except KeyboardInterrupt:
        return 130
    try:
        with open(1, "wb", closefd=False) as out:
            out.write(printed.encode())
    except OSError:
        print("error 14: write failed", file=sys.stderr)
        return 4
    return status


if __name__ == "__main__":
    sys.exit(main())
