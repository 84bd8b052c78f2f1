"""What names a file: a name, a path on this machine, and a path as commands see it.

All three are texts, and a mix of them opens another file than the one that is meant. So each has a
type of its own: what takes the one isn't given the other without `Place.real` or `Naming.name`.
"""

from __future__ import annotations

import os
from typing import NewType

# As makefiles and footprints have it: from the project's folder, or under a fixed prefix.
Name = NewType("Name", str)
# An absolute path by which this program finds a file.
RealPath = NewType("RealPath", str)
# An absolute path by which a command finds a file in its namespace. Traces have these.
SeenPath = NewType("SeenPath", str)


def real_in(folder: RealPath, name: str) -> RealPath:
    """Where this program finds a file by its name from a folder."""
    return RealPath(os.path.join(folder, name))


def seen_in(folder: SeenPath, name: str) -> SeenPath:
    """Where a command finds a file by its name from a folder."""
    return SeenPath(name if name.startswith("/") else os.path.join(folder, name))


def resolved(path: str) -> RealPath:
    """The path of a file of this machine without symbolic links in it."""
    return RealPath(os.path.realpath(path))


def unbound(path: RealPath) -> SeenPath:
    """Where a command finds a file over which nothing is mounted: at the same path."""
    return SeenPath(path)
