"""What an earlier build left in the project's folder.

Files that have a rule and are there are of two kinds. Some came with the project, or were written
when it was configured: `configure`, a manual page, `parser.c`. A clean build has them too. The
others are outputs of an earlier build, which a clean build makes anew: these are hidden.
"""

from __future__ import annotations

import os
import re
import subprocess
from collections.abc import Callable, Container, Iterable, Mapping, Sequence
from dataclasses import dataclass, replace
from pathlib import Path

from mkcheck_tools.faults import Fault
from mkcheck_tools.gnu.remade import is_telling
from mkcheck_tools.imports.answers import counted
from mkcheck_tools.imports.builds import Build, path_name
from mkcheck_tools.imports.copies import Copies, listing
from mkcheck_tools.imports.gnumake import Make, last_words, option_words
from mkcheck_tools.imports.inherited import reached
from mkcheck_tools.run.places import namespace

CLEAN = "clean"
# How long it may take.
CLEAN_SECONDS = 60
# A line of a makefile that includes files only where they are there.
OPTIONAL = re.compile(r"(?m)^ *(?:-include|sinclude)\b")
# The files of a release are made within that time, in nanoseconds.
A_DAY = 86_400 * 10**9
# Cleans in a copy: runs make with these words, and ends it after this number of seconds.
Cleaning = Callable[[Sequence[str], float], list[Make]]


@dataclass(frozen=True)
class Leftovers:
    """What an earlier build left in a project, of which copies are made."""

    copies: Copies
    there: frozenset[str]
    """The files and folders of the project before make reads."""

    times: Mapping[str, int]
    """The times of the files before make reads."""

    tracked: frozenset[str] | None = None
    """The files that git tracks."""

    is_cleaned: bool = False
    """Whether `make clean` has told what an earlier build left."""

    not_cleaned: str = ""
    """Why it hasn't, where the makefile has such a rule."""

    hidden: frozenset[str] = frozenset()
    """What copies don't have."""

    shown_again: tuple[str, ...] = ()
    """Files without which a build fails, so that they are taken as they are."""

    dependencies: frozenset[str] = frozenset()
    """Dependency files that say something before the build."""

    unsure: frozenset[str] = frozenset()
    """Those of them without which make does, and of which git doesn't tell whose they are."""

    def found(self, shown: list[Make], words: Sequence[str], run: Cleaning) -> Leftovers:
        """The same, with what an earlier build left.

        That is what `make clean` removes in a copy, by `run`, with the options among the words, but
        for files of a release. Where there is no such rule, or it fails, it is each target that git
        doesn't track. A dependency file that git doesn't track, and without which make does, is no
        part of a fresh clone either.
        """
        found = targets_there(self.copies.seen, shown, self.there)
        optional = self.optional(shown)
        tracked = tracked_files(self.copies.root) if found or optional else None
        found -= tracked or frozenset()
        unsure = frozenset(optional) if tracked is None else frozenset()
        optional = set() if tracked is None else optional - tracked
        if not found:
            return replace(self, tracked=tracked, hidden=frozenset(optional), unsure=unsure)
        is_cleaned, not_cleaned = False, ""
        if has_clean(shown[0]):
            options = [word for option in option_words(list(words)) for word in option]
            not_cleaned = clean([*options, CLEAN], run)
            is_cleaned = not not_cleaned
        if is_cleaned:
            left = listing(self.copies.place("clean").folder)
            found = set(self.there - left - (tracked or frozenset()))
            found -= self.of_release(found) if tracked is None else set()
        elif tracked is None:
            found = set()
        return replace(
            self,
            tracked=tracked,
            is_cleaned=is_cleaned,
            not_cleaned=not_cleaned,
            hidden=frozenset(found | optional),
            unsure=unsure,
        )

    def optional(self, shown: list[Make]) -> set[str]:
        """The dependency files that makes read, and that say something, where makefiles include
        files only if these are there."""
        place = self.copies.place("read")
        found: set[str] = set()
        for make in shown:
            names = [path_name(self.copies.seen, make.folder, text) for text in make.makefiles]
            paths = {name: os.path.join(place.folder, name) for name in names if name in self.there}
            told = {name for name, path in paths.items() if is_telling(path)}
            others = (path for name, path in paths.items() if name not in told)
            if told and any(OPTIONAL.search(text_of(path)) for path in others):
                found |= told
        return found

    def of_release(self, names: set[str]) -> set[str]:
        """Those of these files that came with a release, though `make clean` removes them: they
        were there when it was configured, and are about as old as its other files."""
        times = self.times
        configured = [
            stamp for name, stamp in times.items() if os.path.basename(name) == "config.status"
        ]
        if not configured:
            return set()
        others = (stamp for name, stamp in times.items() if name not in names)
        newest = max((stamp for stamp in others if stamp < min(configured)), default=0)
        limit = min(min(configured), newest + A_DAY)
        return {name for name in names if times.get(name, limit) < limit}

    def without(self, names: set[str]) -> Leftovers:
        """The same where copies have these files, since a build without them fails."""
        return replace(
            self,
            hidden=self.hidden - names,
            shown_again=(*self.shown_again, *sorted(names)),
        )

    def with_dependencies(self, folder: str, makes: list[Make]) -> Leftovers:
        """The same, with the dependency files in a folder that name prerequisites before any recipe
        has run."""
        found: dict[str, None] = {}
        for make in makes:
            for text in make.makefiles:
                name = path_name(self.copies.seen, make.folder, text)
                is_made = any(rule.has_recipe for rule in make.base.rules.get(text, []))
                if name in self.there and name not in self.hidden and not is_made:
                    found.setdefault(name)
        paths = {name: os.path.join(folder, name) for name in found}
        told = {name for name, path in paths.items() if is_telling(path)}
        return replace(self, dependencies=self.dependencies | told)

    def sentence(self) -> str:
        """What is added to the sentence on a build that fails."""
        if not self.hidden:
            return ""
        return (
            f" (it was built without {self.some(self.hidden)}, which an earlier build left;"
            " with mkcheck-import --keep what is there is taken as it is)"
        )

    def some(self, names: Iterable[str]) -> str:
        """How many files there are, and the first of them."""
        files = sorted(name for name in names if f"{name}/" not in self.there and name[-1:] != "/")
        return f"{counted(len(files), 'file')} ({', '.join(files[:5])}{', ..' * (len(files) > 5)})"

    def name(self, build: Build, times: Mapping[str, int], keep: bool) -> None:
        """Names what was hidden, and targets of which it isn't known whose they are. With `keep`
        all that is there is the project's. `times` are those of the files before the build."""
        if self.hidden:
            some = self.some(self.hidden)
            left, taken = ("is", "it is") if some.startswith("1 ") else ("are", "they are")
            build.note(
                f"{some} of an earlier build {left} left out, so that the build begins from"
                f" nothing; with mkcheck-import --keep {taken} taken as {taken}"
            )
        if self.shown_again:
            some = self.some(self.shown_again)
            which = "that `make clean` removes" if self.is_cleaned else "that git doesn't track"
            build.note(f"{some} {which} stayed as they are, since a build fails without them")
        build.old_dependencies = set(self.dependencies)
        build.unsure_dependencies = set(self.unsure & self.dependencies)
        if keep or self.is_cleaned:
            return
        why = ""
        if self.not_cleaned:
            why = (
                "`make clean` tells nothing, since it fails in a copy, where it can change nothing"
                f" else and has no network ({self.not_cleaned})"
            )
        given = self.there.intersection(build.given)
        old = {name for name in given if not self.came_with_it(build, name, times)}
        if old:
            build.problem(
                f"{self.some(old)} with rules are there already, and nothing tells whether they"
                " came with the project or an earlier build left them: run `make clean`, or remove"
                f" them; with mkcheck-import --keep they are taken as they are{why and '; ' + why}"
            )
        elif why:
            build.note(why)

    def came_with_it(self, build: Build, name: str, times: Mapping[str, int]) -> bool:
        """Whether a target came with the project: git tracks it, or it isn't newer than the
        makefile with its rule."""
        if self.tracked is not None:
            return name in self.tracked
        origin = build.nodes[name].origin if name in build.nodes else None
        makefile = times.get(origin.makefile if origin is not None else "")
        return makefile is not None and times.get(name, makefile + 1) <= makefile


def clean(words: list[str], run: Cleaning) -> str:
    """Runs `make clean` by `run` in a copy, where it can change nothing else; says why it failed,
    and nothing where it didn't."""
    if namespace() is None:
        return "this system allows no mount namespace"
    try:
        makes = run(words, CLEAN_SECONDS)
    except Fault as fault:
        return str(fault)
    return last_words(makes[0].errors) if makes[0].status != 0 else ""


def has_clean(make: Make) -> bool:
    """Whether a make has a rule to remove what it makes."""
    return any(rule.is_target for rule in make.base.rules.get(CLEAN, []))


def targets_there(root: str, makes: list[Make], there: Container[str]) -> set[str]:
    """The files that are there, though recipes of the goals make them."""
    found = set()
    for make in makes:
        for name in reached(make.base, make.goals):
            rules = make.base.rules.get(name, [])
            if any(rule.has_recipe and not rule.is_phony for rule in rules):
                found.add(path_name(root, make.folder, name))
    return {name for name in found if name in there and f"{name}/" not in there}


def tracked_files(folder: str) -> frozenset[str] | None:
    """The files of a folder that git tracks; None where it isn't one of git's, or where git isn't
    there."""
    words = ["git", "-C", folder, "ls-files", "-z", "--recurse-submodules"]
    environment = {**os.environ, "GIT_OPTIONAL_LOCKS": "0"}
    try:
        done = subprocess.run(
            words, env=environment, stdin=subprocess.DEVNULL, capture_output=True, check=False
        )
    except OSError:
        return None
    if done.returncode != 0:
        return None
    names = done.stdout.decode("utf-8", "surrogateescape").split("\0")
    return frozenset(filter(None, names)) or None


def text_of(path: str) -> str:
    """The text of a file; empty where it can't be read."""
    try:
        return Path(path).read_text(encoding="utf-8", errors="surrogateescape")
    except OSError:
        return ""
