"""Which reader a project's build needs: POSIX's makefile language, GNU make or ninja."""

from __future__ import annotations

import os
import re
import shutil
import sys
from dataclasses import dataclass, replace
from pathlib import Path

from mkcheck_tools.answers.checkers import Checker, find_checker
from mkcheck_tools.answers.findings import answer_of
from mkcheck_tools.answers.graphs import read_graph
from mkcheck_tools.faults import Fault
from mkcheck_tools.gnu.macros import C17, PROBE
from mkcheck_tools.gnu.predefined import VALUES, VARYING
from mkcheck_tools.gnu.texts import plainly_included
from mkcheck_tools.imports.build_folders import configured_in, first_of, refuse_build_folder
from mkcheck_tools.run.paths import RealPath
from mkcheck_tools.run.places import Place

POSIX, MAKE, NINJA = "posix", "make", "ninja"
READERS = (POSIX, MAKE, NINJA)
GNU_ALONE = "GNUmakefile"
# A command that starts a make, which a recipe of a footprint can't.
STARTS_MAKE = re.compile(r"(?:^|[\s;&|(])g?make(?:\s|$)")
# A line that sets a macro.
SETTING = r"(?m)^ *{}[ \t]*[:?+!]*="
# A refusal of a line of a makefile, as `mkcheck graph` prints it.
REFUSED_AT = re.compile(r"refused \d+ (?!operand:|goal:|\(default\):)(\S+:\d+)$", re.MULTILINE)
# What has to be run where a project has no build yet.
BEFORE = (
    ("CMakeLists.txt", "run `cmake -S . -B build`"),
    ("meson.build", "run `meson setup build`"),
    ("configure", "run ./configure"),
    ("configure.ac", "run `autoreconf -i` and ./configure"),
)


@dataclass(frozen=True)
class Wanted:
    """What is to be read: the project's folder, the folder below it in which the tool is started,
    the makefile and the reader, if these were asked for, goals and macros."""

    root: RealPath
    below: str = "."
    makefile: str | None = None
    reader: str | None = None
    words: tuple[str, ...] = ()


@dataclass(frozen=True)
class Reader:
    """A reader, the folder in which its tool is started, the file that it reads first, and why it
    was picked."""

    kind: str
    below: str
    file: str
    why: str

    @property
    def path(self) -> str:
        """The file's path from the project's folder."""
        return os.path.normpath(os.path.join(self.below, self.file))

    @property
    def line(self) -> str:
        """The sentence that says which makefile is read, and how."""
        return f"{self.path} is read as {self.why}"


def picked(wanted: Wanted) -> Reader:
    """The reader for a project. Raises Fault where there is nothing to read."""
    refuse_build_folder(Path(wanted.root))
    below = found_below(wanted)
    folder = Path(wanted.root, below)
    file = wanted.makefile or first_of(folder)
    if file is None:
        raise Fault(no_build(Path(wanted.root)))
    if not (folder / file).exists():
        raise Fault(f"{os.path.join(below, file)}: there is no such file")
    if wanted.reader == NINJA or (wanted.reader is None and file.endswith(".ninja")):
        return Reader(NINJA, below, file, "ninja reads it")
    if wanted.reader == MAKE:
        return Reader(MAKE, below, file, "GNU make reads it")
    reason = "" if below != "." else why_not_posix(replace(wanted, makefile=file))
    if wanted.reader == POSIX:
        return Reader(POSIX, ".", file, "POSIX defines make")
    if below != "." or reason:
        return Reader(MAKE, below, file, f"GNU make reads it{f', since {reason}' * bool(reason)}")
    return Reader(POSIX, ".", file, "POSIX defines make")


def found_below(wanted: Wanted) -> str:
    """The folder in which the tool is started: as asked, else the project's own, where it has a
    build, else the only configured one in it."""
    if wanted.below != "." or wanted.makefile or first_of(Path(wanted.root)) is not None:
        return os.path.normpath(wanted.below)
    return configured_in(Path(wanted.root))


def no_build(root: Path) -> str:
    """The sentence where a folder has no build, with what makes one where that is seen."""
    front = f"{root} has no makefile and no build.ninja"
    for name, command in BEFORE:
        if (root / name).exists():
            return f"{front} yet: {command}, and then mkcheck-audit again"
    return f"{front}: give the folder of a project with -C"


def why_not_posix(wanted: Wanted) -> str:
    """Why a makefile has to be read by GNU make, as a clause; empty where it hasn't."""
    if wanted.makefile == GNU_ALONE:
        return f"POSIX has no {GNU_ALONE}"
    checker = checker_of(wanted)
    reply = checker.ask("graph", "-c")
    if reply.status != 0:
        refusal = answer_of(checker_of(wanted, os.devnull).check()).refusal
        if refusal is not None and refusal.is_of_file:
            return f"{refusal.file}:{refusal.line} isn't POSIX's"
        # What is wrong in commands comes behind what is wrong in footprints, which are none here.
        told = REFUSED_AT.match(reply.shown)
        return f"{told[1]} isn't POSIX's" if told else "it isn't POSIX's"
    graph = read_graph(reply.shown)
    for recipe in graph.recipes:
        if any(STARTS_MAKE.search(line) for line in recipe.lines):
            return f"the recipe of {recipe.target} starts make"
        if any(C17.search(line) for line in recipe.lines) and shutil.which("c17") is None:
            return f"the recipe of {recipe.target} starts c17, POSIX's compiler, which isn't there"
    for node in graph.nodes.values():
        if not node.recipe and not node.phony and os.path.isdir(Path(wanted.root, node.name)):
            return f"{node.name} is a folder"
    return macro_of_gnu_make(wanted, reply.shown)


def macro_of_gnu_make(wanted: Wanted, shown: str) -> str:
    """Which macro only GNU make sets or obeys, as a clause; empty if there is none. One that it
    sets counts where the goals have another graph or other commands than `shown` by it."""
    makefile = checker_of(wanted).makefile
    paths = [Path(wanted.root, name) for name in plainly_included(wanted.root, makefile)]
    texts = [path.read_text("utf-8", "replace") for path in paths if path.is_file()]
    whole = "\n".join(texts)
    if re.search(SETTING.format("VPATH"), whole):
        return "it sets VPATH, which GNU make obeys"
    for name in (*VARYING, *VALUES):
        own = re.escape(name)
        is_used = re.search(rf"\$[({{]{own}[)}}:]", whole) is not None
        if not is_used or re.search(SETTING.format(own), whole):
            continue
        asked = checker_of(replace(wanted, words=(*wanted.words, f"{name}={PROBE}")))
        if asked.ask("graph", "-c").shown != shown:
            return f"it uses {name}, which GNU make sets"
    return ""


def checker_of(wanted: Wanted, book: str = "") -> Checker:
    """The program mkcheck, for a makefile and footprints in the project's folder."""
    program = find_checker(own_folder())
    options = ("-f", wanted.makefile) if wanted.makefile else ()
    return Checker(program, Place.of(wanted.root), options, wanted.words, book)


def own_folder() -> Path:
    """The folder of this program, in which the others lie too."""
    return Path(sys.argv[0]).resolve().parent
