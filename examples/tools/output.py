"""Standard output, which whoever reads it may close early."""

import os
import sys
from contextlib import contextmanager


@contextmanager
def until_closed():
    """What is printed inside ends quietly if the reader has enough, as `head` has."""
    try:
        yield
        sys.stdout.flush()
    except BrokenPipeError:
        # else Python tries again as it ends
        os.dup2(os.open(os.devnull, os.O_WRONLY), sys.stdout.fileno())
