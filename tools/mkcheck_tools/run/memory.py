"""A file system in memory, in a mount namespace of its own, for folders in which recipes run again.

It is gone with the process that holds the namespace, and that ends with this program. This program
reaches its files by way of that process, and commands begin in its namespace.
"""

from __future__ import annotations

import contextlib
import errno
import os
import shutil
import subprocess
import threading
from collections.abc import Iterator
from dataclasses import dataclass, field

from mkcheck_tools.run.holders import Holder, held
from mkcheck_tools.run.paths import RealPath, SeenPath, real_in
from mkcheck_tools.run.places import Place, mounter, shut

# How much it holds at most: a part of what is free, and no more than this.
PART = 4
MOST = 8 << 30
LEAST = 256 << 20
# What a replay needs for each byte that it reads or writes, and besides.
TIMES = 4
MORE = 16 << 20
MOUNT = ' -t tmpfs -o "$1" mkcheck-record "$2"'
# What a command says where the file system lacks something that disks have, or has no room.
LACKS = ("Operation not supported", "Cannot allocate memory")
NO_ROOM = "No space left on device"


@dataclass
class Memory:
    """Such a file system, at `folder` in its namespace, in which all else is read-only where the
    system allows that."""

    folder: SeenPath
    size: int
    holder: Holder
    taken: int = 0
    lock: threading.Lock = field(default_factory=threading.Lock)

    @property
    def path(self) -> RealPath:
        """Where this program finds the folder."""
        return RealPath(f"/proc/{self.holder.number}/root{self.folder}")

    def place(self, name: str, seen: SeenPath) -> Place:
        """A place in it that is shut."""
        inner = os.path.join(self.folder, name)
        return Place(real_in(self.path, name), seen, True, self.holder.way(), inner)

    @contextlib.contextmanager
    def room(self, size: int) -> Iterator[bool]:
        """Keeps room for files of this size; tells whether there is some."""
        wanted = TIMES * size + MORE
        with self.lock:
            there = self.taken + wanted <= self.size
            self.taken += wanted if there else 0
        try:
            yield there
        finally:
            with self.lock:
                self.taken -= wanted if there else 0


def free_memory() -> int:
    """How many bytes of memory are free, as the kernel tells it; 0 where it doesn't."""
    with contextlib.suppress(OSError, ValueError):
        with open("/proc/meminfo", encoding="ascii") as lines:
            for line in lines:
                if line.startswith("MemAvailable:"):
                    return int(line.split()[1]) << 10
    return 0


@contextlib.contextmanager
def memory(folder: SeenPath) -> Iterator[Memory | None]:
    """A file system in memory at this folder, which is there; None where the system allows none, or
    has little memory."""
    size = min(free_memory() // PART, MOST)
    if size < LEAST:
        yield None
        return
    options = f"size={size},mode=700"
    with held((shut() or "") + mounter() + MOUNT, (options, folder)) as holder:
        found = None if holder is None else Memory(folder, size, holder)
        yield found if found is not None and works(found) else None


def works(found: Memory) -> bool:
    """Whether a file in it is seen over a mount, and programs may start there."""
    try:
        place = found.place("probe", found.folder)
        os.mkdir(place.folder)
        script = os.path.join(place.folder, "file")
        with open(script, "x", encoding="ascii") as file:
            file.write("#!/bin/sh\n")
        os.chmod(script, 0o700)
        done = subprocess.run(
            place.words(["./file"]),
            cwd=found.folder,
            env={**os.environ, "PWD": str(found.folder)},
            stdin=subprocess.DEVNULL,
            capture_output=True,
            check=False,
        )
        shutil.rmtree(place.folder)
        return done.returncode == 0
    except OSError:
        return False


def is_full(error: OSError) -> bool:
    """Whether an error says that there is no room."""
    return error.errno in (errno.ENOSPC, errno.ENOMEM, errno.EDQUOT)
