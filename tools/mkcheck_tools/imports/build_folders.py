"""Folders of a project in which CMake or Meson wrote a build."""

from __future__ import annotations

import os
import re
from pathlib import Path

from mkcheck_tools.faults import Fault

MAKEFILES = ("GNUmakefile", "makefile", "Makefile")
NINJA_FILE = "build.ninja"
# What a folder of a configured build holds, beside the build itself.
CONFIGURED = ("CMakeCache.txt", os.path.join("meson-private", "coredata.dat"))
# The lines of CMake's cache that name the folder of the sources, and its own.
HOME = re.compile(r"^CMAKE_HOME_DIRECTORY:INTERNAL=(.+)$", re.MULTILINE)
OWN = re.compile(r"^CMAKE_CACHEFILE_DIR:INTERNAL=(.+)$", re.MULTILINE)


def first_of(folder: Path) -> str | None:
    """The file that a build tool reads first in a folder; None where there is none."""
    for name in (*MAKEFILES, NINJA_FILE):
        if (folder / name).is_file():
            return name
    return None


def is_configured(folder: Path) -> bool:
    """Whether a folder is one in which CMake or Meson wrote a build."""
    return first_of(folder) is not None and any((folder / name).exists() for name in CONFIGURED)


def configured_in(root: Path) -> str:
    """The only configured folder in a project without a build of its own; the project's own folder
    where there is none. Raises `Fault` where there are several."""
    inside = [path for path in sorted(root.iterdir()) if path.is_dir()]
    found = [path.name for path in inside if is_configured(path)]
    if len(found) > 1:
        raise Fault(f"{root} has several build folders ({', '.join(found[:5])}): name one with -S")
    return found[0] if found else "."


def refuse_build_folder(root: Path) -> None:
    """Refuses the build folder of CMake below a project's: recipes read the sources above it."""
    home = told_by_cmake(root, HOME) or root
    if home in root.resolve().parents:
        below = root.resolve().relative_to(home)
        raise Fault(
            f"{root} is a build folder, whose sources lie in {home}: give that folder with -C, and"
            f" this one with -S {below}"
        )


def refuse_moved(place: Path) -> None:
    """Refuses a folder that CMake configured at another path, or from sources that are gone: its
    makefiles name these paths."""
    own, home = told_by_cmake(place, OWN), told_by_cmake(place, HOME)
    if own is None or home is None:
        return
    if own == place.resolve():
        if not home.is_dir():
            raise Fault(
                f"CMake configured {place} for the sources in {home}, which isn't there any more:"
                f" remove {place / CONFIGURED[0]}, and run `cmake -S DIR -B {place}` for the folder"
                " DIR that they lie in now"
            )
        return
    sources = Path(os.path.normpath(place.resolve() / os.path.relpath(home, own)))
    known = sources if (sources / "CMakeLists.txt").is_file() else home
    raise Fault(
        f"CMake configured {place} as {own}, and it was moved or copied since, so its build names"
        f" other folders: remove {place / CONFIGURED[0]}, and run `cmake -S {known} -B {place}`"
    )


def told_by_cmake(place: Path, line: re.Pattern[str]) -> Path | None:
    """The folder that a line of CMake's cache in a folder names; None where there is none."""
    cache = place / CONFIGURED[0]
    told = line.search(cache.read_text(errors="replace")) if cache.is_file() else None
    return None if told is None else Path(told[1]).resolve()
