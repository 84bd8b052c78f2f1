"""Files that an earlier build may have left: recorded in a built folder, they become sources."""

from __future__ import annotations

import os
import subprocess
from collections.abc import Sequence

from mkcheck_tools.answers.graphs import Graph
from mkcheck_tools.judge.cmake_lists import written_by_cmake
from mkcheck_tools.judge.footprints import Footprint
from mkcheck_tools.judge.notes import Kind, Note, Warn
from mkcheck_tools.judge.refusals import listed
from mkcheck_tools.run.folders import is_of_versions, is_own


def warn_of_left_over(
    folder: str, makefile: str, graph: Graph, footprints: Sequence[Footprint], warn: Warn
) -> None:
    """Warns of files that recipes read, that the graph doesn't name and no recipe writes, and that
    lie in a folder in which recipes write.

    Those that git tracks, or that CMake wrote when it configured, don't count, and in the project's
    own folder, which may hold configured files, only those do that end like what recipes write
    there. Where there is no git, only those do that lie below it, end so, and are later than the
    makefile.
    """
    found = unnamed(folder, graph, footprints)
    own = written_by_cmake(folder, found)
    found = [name for name in found if name not in own]
    if not found:
        return
    tracked, since = tracked_in(folder), stamp_of(folder, makefile)
    endings = {kind_of(name) for footprint in footprints for name in footprint.writes}
    if tracked is not None:
        found = [
            name
            for name in found
            if name not in tracked and (os.path.dirname(name) or kind_of(name) in endings)
        ]
    else:
        found = [
            name
            for name in found
            if os.path.dirname(name) and kind_of(name) in endings and stamp_of(folder, name) > since
        ]
    if found:
        one = len(found) == 1
        readers = [footprint for footprint in footprints if found[0] in footprint.reads]
        what = "is no target" if one else "are no targets"
        git = "" if tracked is None else " that git doesn't track"
        text = (
            f"{listed(found)} {what}, but {'a file' if one else 'files'}{git} where recipes write,"
            f" and the recipe of {readers[0].recipe.target} reads {'it' if one else found[0]}:"
            f" if an earlier build left {'it' if one else 'them'}, remove"
            f" {'it' if one else 'them'} and record again"
        )
        warn(Note(readers[0].recipe.target, Kind.LEFT_OVER, text))


def warn_of_unmade(folder: str, names: Sequence[str], graph: Graph, warn: Warn) -> None:
    """Warns of dependency files that the makefile includes where they are there, that no recipe of
    the goals makes, and that git doesn't track."""
    found = [name for name in names if name not in graph.targets]
    tracked = tracked_in(folder) if found else None
    found = [name for name in found if name not in (tracked or ())]
    if found:
        warn(note_of_unmade(found))


def note_of_unmade(names: Sequence[str]) -> Note:
    """The note on dependency files that the makefile includes where they are there, and that no
    recipe of the goals makes."""
    one = len(names) == 1
    it, they, are = ("it", "it", "it is") if one else ("them", "they", "they are")
    text = (
        f"the makefile includes {listed(names)} where {are} there, and no recipe of these goals"
        f" makes {it}: in a fresh copy of the project, or after an edit of an #include, make lacks"
        f" prerequisites that {they} should name; let make make {it}, as by cc -MMD"
    )
    return Note("", Kind.LEFT_OVER, text)


def unnamed(folder: str, graph: Graph, footprints: Sequence[Footprint]) -> list[str]:
    """The files that recipes read, that the graph doesn't name and no recipe writes, and that lie
    in a folder in which recipes write."""
    written = {name for footprint in footprints for name in footprint.writes}
    places = {os.path.dirname(name) for name in written}
    read = dict.fromkeys(name for footprint in footprints for name in footprint.reads)
    return [
        name
        for name in read
        if os.path.dirname(name) in places
        and is_own(name)
        and not is_of_versions(name)
        and name not in written
        and name not in graph.names
        and os.path.isfile(os.path.join(folder, name))
    ]


def kind_of(name: str) -> tuple[str, str]:
    """The folder in which a file lies, and how its name ends."""
    return os.path.dirname(name), os.path.splitext(name)[1]


def tracked_in(folder: str) -> set[str] | None:
    """The names that git tracks in a folder; None without git, or where it tracks none there."""
    try:
        said = subprocess.run(
            ["git", "ls-files", "-z"],
            cwd=folder,
            stdin=subprocess.DEVNULL,
            capture_output=True,
            check=False,
        )
    except OSError:
        return None
    if said.returncode != 0 or not said.stdout:
        return None
    return set(said.stdout.decode("utf-8", "surrogateescape").split("\0"))


def stamp_of(folder: str, name: str) -> int:
    """The stamp of a file, 0 where there is none."""
    try:
        return os.stat(os.path.join(folder, name)).st_mtime_ns
    except OSError:
        return 0
