"""Which files of a build folder CMake wrote when it configured it, by CMake's own lists."""

from __future__ import annotations

import os
import re
from collections.abc import Iterable, Iterator

# What lies at the top of a build folder.
CACHE = "CMakeCache.txt"
# Where CMake lists what it wrote, in a build for make, and what it read, in one for ninja.
FOR_MAKE, FOR_NINJA = os.path.join("CMakeFiles", "Makefile.cmake"), "build.ninja"
WRITTEN = re.compile(r"^set\(CMAKE_MAKEFILE_PRODUCTS\n([^)]*)\)", re.MULTILINE)
QUOTED = re.compile(r'^ *"(.*)"$', re.MULTILINE)
READ = re.compile(r"^build build\.ninja: RERUN_CMAKE \|(.*)$", re.MULTILINE)
BETWEEN_WORDS = re.compile(r"(?<!\$) +")
# What CMake writes for make in its own folders, without a line in that list.
OWN = re.compile(r"(?:.*/)?CMakeFiles/.*\.(?:cmake|make|txt)$")
# What the name of a file from which `configure_file` writes another one has behind that one's.
ENDS = (".in", ".cmake", ".cmake.in", ".cmakein")


def build_folders(folder: str, name: str) -> Iterator[str]:
    """The build folders of CMake in which a file of a project lies, as names from its folder."""
    above = name
    while above:
        above = os.path.dirname(above)
        if os.path.isfile(os.path.join(folder, above, CACHE)):
            yield above


def lists_for(folder: str, names: Iterable[str]) -> list[str]:
    """CMake's lists in the build folders in which some files lie, as names from the project's
    folder."""
    found = dict.fromkeys(above for name in names for above in build_folders(folder, name))
    paths = (os.path.join(above, one) for above in found for one in (FOR_MAKE, FOR_NINJA))
    return [path for path in paths if os.path.isfile(os.path.join(folder, path))]


def written_by_cmake(folder: str, names: Iterable[str]) -> set[str]:
    """Those of some files of a project that CMake wrote, as by `configure_file`."""
    names = list(names)
    known: dict[str, tuple[set[str], set[str]]] = {}
    found = set()
    for name in names:
        for above in build_folders(folder, name):
            if above not in known:
                known[above] = lists_in(os.path.join(folder, above))
            written, read = known[above]
            path = os.path.relpath(name, above or ".")
            origins = {os.path.basename(name) + end for end in ENDS}
            if path in written or origins & read or OWN.match(path):
                found.add(name)
    return found


def lists_in(folder: str) -> tuple[set[str], set[str]]:
    """What CMake wrote in a build folder, as names from it, where it lists that; else the last
    parts of the names of what it read."""
    written = WRITTEN.search(text_of(os.path.join(folder, FOR_MAKE)))
    if written is not None:
        paths = (os.path.join(folder, name) for name in QUOTED.findall(written.group(1)))
        return {os.path.relpath(path, folder) for path in paths}, set()
    read = READ.search(text_of(os.path.join(folder, FOR_NINJA)))
    words = BETWEEN_WORDS.split(read.group(1)) if read is not None else []
    return set(), {os.path.basename(word) for word in words}


def text_of(path: str) -> str:
    """What a file holds; nothing where it can't be read."""
    try:
        with open(path, encoding="utf-8", errors="surrogateescape") as file:
            return file.read()
    except OSError:
        return ""
