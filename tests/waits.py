"""What tests wait for: for events, and not for times, since a machine may be slow or busy."""

from __future__ import annotations

import os
import tempfile
import time
from collections.abc import Callable, Iterator
from pathlib import Path
from typing import TypeVar

Found = TypeVar("Found")
# How often something is tried that a busy machine may hide.
TRIES = 8
# How many seconds a test waits for something before it fails.
SECONDS_AT_MOST = 600.0
MOMENT = 0.02


def wait_for(is_so: Callable[[], bool], seconds: float = SECONDS_AT_MOST) -> bool:
    """Waits until something is so; whether it is."""
    until = time.monotonic() + seconds
    while not (found := is_so()) and time.monotonic() < until:
        time.sleep(MOMENT)
    return found


def found_once(look: Callable[[], Found], wanted: Found) -> Found:
    """What is found in one of some tries, if that is what is wanted, and else in the last one: for
    what shows only where a process isn't kept waiting."""
    for _ in range(TRIES - 1):
        if look() == wanted:
            return wanted
    return look()


def wait_for_later_stamps(folder: Path) -> None:
    """Waits until what is written gets a later stamp than each file in a folder has: the clock of
    files goes on in steps, and late ones on a machine that is busy."""
    now = time.time_ns()
    last = max((stamp for stamp in stamps_in(folder) if stamp <= now), default=0)
    with tempfile.NamedTemporaryFile(dir=folder.parent) as probe:

        def is_later() -> bool:
            os.utime(probe.name)
            return os.stat(probe.name).st_mtime_ns > last

        assert wait_for(is_later)


def stamps_in(folder: Path) -> Iterator[int]:
    """The stamps of a folder, and of what is in it."""
    for path, names, files in os.walk(folder):
        for name in ("", *names, *files):
            yield os.lstat(os.path.join(path, name)).st_mtime_ns
