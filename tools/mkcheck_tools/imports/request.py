"""What an import is asked for."""

from __future__ import annotations

import argparse
import os
from dataclasses import dataclass
from pathlib import Path

from mkcheck_tools.faults import Fault
from mkcheck_tools.imports.build_folders import (
    configured_in,
    first_of,
    refuse_build_folder,
    refuse_moved,
)
from mkcheck_tools.run.paths import RealPath, resolved


@dataclass(frozen=True)
class Request:
    """An import: of which build, how far, and where what it makes goes."""

    root: RealPath
    """The real path of the project's folder."""

    folder: str
    """The folder in which the tool is started, a path from the root."""

    output: str
    """The real path of the folder for what is made."""

    log: str
    """The log, as the user names it."""

    tool: str
    """`make` or `ninja`."""

    makefile: str | None
    words: tuple[str, ...]
    keep: bool
    build: bool
    look: bool
    only: str | None
    fixed: tuple[str, ...]
    configured: tuple[str, ...]
    trusted: tuple[str, ...]
    replay: bool
    is_found: bool
    """Whether the folder in which the tool is started was found, and not named."""

    @property
    def is_whole(self) -> bool:
        """Whether all steps are asked for."""
        return self.only is None and not self.look

    @property
    def make_words(self) -> tuple[str, ...]:
        """The words of GNU make."""
        return (*(("-f", self.makefile) if self.makefile else ()), *self.words)


def request_of(asked: argparse.Namespace) -> Request:
    """The import that the words of the command line ask for."""
    root = resolved(asked.C)
    if not os.path.isdir(root):
        raise Fault(f"-C {asked.C}: there is no such folder")
    folder = os.path.normpath(asked.S)
    if not os.path.isdir(os.path.join(root, folder)):
        raise Fault(f"-S {asked.S}: there is no such folder in {root}")
    if folder == "." and asked.f is None:
        folder = folder_of_build(Path(root))
    refuse_moved(Path(root, folder))
    output = asked.o or os.path.normpath(os.path.join(asked.C, ".mkcheck"))
    return Request(
        root,
        folder,
        os.path.realpath(output),
        os.path.join(output, "import.log"),
        asked.tool or tool_in(Path(root, folder), asked.f is not None),
        asked.f,
        tuple(asked.words),
        asked.keep,
        asked.build,
        asked.look,
        asked.only,
        tuple(asked.fixed),
        tuple(asked.configured),
        tuple(asked.trust),
        not asked.no_replay,
        folder != os.path.normpath(asked.S),
    )


def folder_of_build(root: Path) -> str:
    """The folder in which the tool is started where none is named: the project's own, where it has
    a build, else the only configured one in it."""
    refuse_build_folder(root)
    return "." if first_of(root) is not None else configured_in(root)


def tool_in(place: Path, has_make: bool) -> str:
    """The build tool that a folder's files show."""
    first = "" if has_make else first_of(place)
    if first is None:
        raise Fault(no_build(place))
    return "ninja" if first.endswith(".ninja") else "make"


def no_build(place: Path) -> str:
    """The sentence where a folder has no build, with what makes one where that is seen."""
    for name, command in (
        ("configure", "run ./configure first"),
        ("CMakeLists.txt", "run `cmake -S . -B build` first"),
        ("configure.ac", "run `autoreconf -i` and ./configure first"),
        ("meson.build", "run `meson setup build` first"),
    ):
        if (place / name).exists():
            return f"{place} has no makefile and no build.ninja yet: {command}"
    return f"{place} has no makefile and no build.ninja: give the folder of a build with -C"
