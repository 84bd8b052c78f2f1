"""Files that GNU make takes from other folders: it looks for them where the macro VPATH says."""

from __future__ import annotations

import os
import re
from collections.abc import Iterable

from mkcheck_tools.answers.graphs import Graph
from mkcheck_tools.answers.meanings import IMPORT
from mkcheck_tools.answers.unrecorded import Unrecorded, why_missing
from mkcheck_tools.gnu.macros import Prober
from mkcheck_tools.judge.notes import Kind, Note, Warn

VPATH = "VPATH"
PARTS = re.compile(r"[\s:]+")


def warn_of_searched(graph: Graph, prober: Prober, files: Iterable[str], warn: Warn) -> None:
    """Warns of each target for which GNU make takes a file of another folder, by the makefile's
    VPATH or, where it sets none, by that of the environment."""
    who, folders = searched_by(prober)
    there = {*files, *graph.targets}
    for name in sorted(graph.targets - graph.phony) if folders else ():
        paths = (os.path.normpath(os.path.join(folder, name)) for folder in folders)
        found = next((path for path in paths if path != name and path in there), None)
        if found is not None:
            text = (
                f"{who} sets VPATH, by which GNU make takes {found} for {name} where that isn't"
                " there, and makes it only if it is old: name each file with its folder, and set no"
                " VPATH"
            )
            warn(Note(name, Kind.VPATH, text))


def searched_by(prober: Prober) -> tuple[str, list[str]]:
    """Who sets VPATH, and the folders that it names."""
    (value,) = prober.values(VPATH)
    who = "the makefile"
    if not value:
        value, who = os.environ.get(VPATH, ""), "the environment"
    return who, [part for part in PARTS.split(value) if part]


def why_not_found(build: Unrecorded, name: str, path: str) -> str:
    """What is said of a name that no rule makes and that is no source: GNU make may take a file of
    another folder for it."""
    who, folders = searched_by(Prober(build))
    for folder in folders:
        found = os.path.normpath(os.path.join(folder, name))
        if os.path.isfile(os.path.join(build.checker.place.folder, found)):
            return (
                f"{who} sets VPATH, by which GNU make takes {found} for {name}, and mkcheck"
                f" doesn't: write {found}; {IMPORT}"
            )
    return why_missing(name, path)
