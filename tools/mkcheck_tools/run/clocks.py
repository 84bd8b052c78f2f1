"""The clock by which files get their stamps."""

from __future__ import annotations

import time

# Linux's number of that clock, for which Python has no name.
OF_FILES = 5


def file_time() -> int:
    """The stamp of a file that is written now, or one that is a little earlier, in nanoseconds.

    That clock goes on in steps, and is behind the other one by many of them where a machine is
    busy.
    """
    try:
        return time.clock_gettime_ns(OF_FILES)
    except OSError:
        return time.time_ns()
