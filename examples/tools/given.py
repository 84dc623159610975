"""The instance that the words of a call name: FORMAT TEXT [NAME]."""

import sys
from pathlib import Path

from texts import instance

FORMATS = ("orlib", "taillard", "routes")


def instance_given(usage):
    """The format and the jobs of the instance. Ends with what is wrong if the words are faulty or name no instance."""
    if len(sys.argv) not in (3, 4) or sys.argv[1] not in FORMATS:
        sys.exit(usage)
    form, path, *name = sys.argv[1:]
    try:
        return form, instance(form, Path(path).read_bytes(), *name)
    except (OSError, ValueError) as fault:
        sys.exit(f"{path}: {fault}")
