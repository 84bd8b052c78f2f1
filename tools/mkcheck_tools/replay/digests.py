"""Digests of large files, worked out while the recipe that reads them still runs.

They only save time: a file whose digest isn't known when it is wanted is read then, and one that
has changed meanwhile has another stamp, by which its digest isn't known.
"""

from __future__ import annotations

import contextlib
import os
import stat
import threading
from dataclasses import dataclass, field
from queue import SimpleQueue

from mkcheck_tools.faults import Fault
from mkcheck_tools.replay.versions import LARGE, digest_of
from mkcheck_tools.run.paths import RealPath, SeenPath
from mkcheck_tools.trace.calls import OPENS, WRITING, Call, path_of, text_of


@dataclass
class Digests:
    """Works out those of files outside of the project, each once, in a thread of its own."""

    project: SeenPath
    asked: set[SeenPath] = field(default_factory=set)
    waiting: SimpleQueue[SeenPath] = field(default_factory=SimpleQueue)
    thread: threading.Thread | None = None

    def take(self, call: Call) -> None:
        """Takes a call just traced, and works out the digests of what it opens or starts."""
        path = path_of_read(call)
        if path is None or path in self.asked or path.startswith(self.project + "/"):
            return
        self.asked.add(path)
        self.waiting.put(path)
        if self.thread is None:
            self.thread = threading.Thread(target=self.work, daemon=True)
            self.thread.start()

    def work(self) -> None:
        """Works out what is asked for, until the program ends."""
        while True:
            work_out(RealPath(self.waiting.get()))


def path_of_read(call: Call) -> SeenPath | None:
    """The path of the file that a call opens to read it, or starts."""
    if call.failed:
        return None
    if call.name == "execve":
        found = text_of(call.arguments[0])
        return SeenPath(found) if found is not None and found.startswith("/") else None
    if call.name in OPENS and not any(flag in " ".join(call.arguments[1:]) for flag in WRITING):
        return path_of(call.result)
    return None


def work_out(path: RealPath) -> None:
    """From now on the digest of a large file is known."""
    with contextlib.suppress(OSError, Fault):
        status = os.stat(path)
        if stat.S_ISREG(status.st_mode) and status.st_size >= LARGE:
            digest_of(path)
