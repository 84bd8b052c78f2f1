"""The two build tools as the steps of an import see them."""

from __future__ import annotations

import hashlib
import json
import os
import shutil
from collections import Counter
from collections.abc import Iterable
from dataclasses import asdict, dataclass, field, replace
from typing import Any, Protocol, TypeVar

from mkcheck_tools.book.states import State
from mkcheck_tools.faults import Fault
from mkcheck_tools.imports.answers import counted
from mkcheck_tools.imports.builds import Build, path_name
from mkcheck_tools.imports.configured import changed_since_cmake
from mkcheck_tools.imports.copies import Copies, Tail
from mkcheck_tools.imports.gnumake import Make, content, find_make, own_environment
from mkcheck_tools.imports.leftovers import targets_there
from mkcheck_tools.imports.make_built import MakeBuilt, built_by
from mkcheck_tools.imports.make_folder import MakeShown, make_folder, shown_by
from mkcheck_tools.imports.make_translation import DEPENDENCY_ENDINGS, made_build, shown_build
from mkcheck_tools.imports.ninja_folder import (
    NinjaFolder,
    NinjaShown,
    ninja_build,
    ninja_built,
    ninja_shown,
)
from mkcheck_tools.imports.ninja_recorded import laid_out, recordable
from mkcheck_tools.imports.real_commands import to_build
from mkcheck_tools.imports.request import Request
from mkcheck_tools.imports.telling import Far
from mkcheck_tools.run.paths import SeenPath

Shown = TypeVar("Shown")
Built = TypeVar("Built")


@dataclass(frozen=True)
class Basis:
    """What a translation depends on beside the contents of sources."""

    seen: frozenset[str] = frozenset()
    """The paths of the files that the tool, and what it starts, read or looked at when it read its
    own files."""

    reread: frozenset[str] = frozenset()
    """The files that recipes make, and that the tool reads in later builds."""

    anew: tuple[str, ...] = ()
    """Why all is to be translated anew after any edit."""

    alike: tuple[str, ...] = ()
    """The files whose recipes were seen to leave them as they were when nothing had changed, or,
    with `restat` of ninja, not to. Another edit than of what these depend on doesn't matter to
    that."""

    timed: tuple[str, ...] = ()
    """The files by whose times the tool decides whether targets are up to date that are there
    before the build."""


class Tool(Protocol[Shown, Built]):
    """What a build tool is asked; what a step gives the next one takes."""

    @property
    def far(self) -> Far:
        """How far the translation is."""

    def read(self) -> Shown:
        """Asks the tool what it would do."""

    def word(self, shown: Shown) -> str:
        """A word on that."""

    def said(self, shown: Shown) -> str:
        """A digest of it."""

    def hidden(self, shown: Shown) -> frozenset[str]:
        """The files of the project that count for nothing."""

    def unsure(self, shown: Shown) -> str:
        """Why only a build shows what the tool would do; empty where the tool has shown it."""

    def how_far(self, shown: Shown) -> str:
        """A text with counts of what the build has done so far."""

    def build(self, shown: Shown) -> Built:
        """Lets the tool build in a copy, and asks it again what it would do."""

    def recordable(self, shown: Shown) -> Build | None:
        """The build to be recorded before the tool builds; None where it has to build first."""

    def recorded(self, shown: Shown, state: State, store: str) -> Built | None:
        """The same as `build` by what recorded recipes left, which lies in a store; None where that
        doesn't show all."""

    def word_of_build(self, built: Built) -> str:
        """A word on that."""

    def translate(self, shown: Shown) -> Build:
        """The build without what is known only after one."""

    def translate_built(self, built: Built) -> Build:
        """The build with that."""

    def basis(self, built: Built) -> Basis:
        """What its translation depends on. It has to be asked before the translation."""


@dataclass(frozen=True)
class MakeTool:
    """GNU make."""

    request: Request
    copies: Copies
    scratch: str
    far: Far = field(default_factory=Far)

    def read(self) -> MakeShown:
        """Asks make what it would do. Raises `Fault` where make would let CMake write its makefiles
        anew first: they are those of the configure step, which is taken as it is."""
        request = self.request
        if changed := changed_since_cmake(request.root, request.folder):
            raise Fault(
                f"{changed} has changed since CMake configured {request.folder}, so make would let"
                f" CMake do so anew first: run `cmake {request.folder}`"
            )
        front = make_folder(self.copies, request.folder, request.make_words, self.scratch)
        return shown_by(replace(front, keep=request.keep, is_built=request.build))

    def word(self, shown: MakeShown) -> str:
        """How many makes there are, and the version of make."""
        return f"{counted(len(shown.makes), 'make')}, {shown.front.version}"

    def said(self, shown: MakeShown) -> str:
        """A digest of all that makes know and of the texts of their makefiles."""
        folder = self.copies.place("read").folder
        texts = [text_of_make(make, self.copies.seen, folder) for make in shown.makes]
        left = shown.leftovers
        texts += [*sorted(left.hidden), "", *sorted(left.dependencies), left.not_cleaned]
        return digest_of(text.replace(self.scratch, "scratch") for text in texts)

    def hidden(self, shown: MakeShown) -> frozenset[str]:
        """The files of the project that an earlier build left, and that count for nothing."""
        return shown.leftovers.hidden

    def unsure(self, shown: MakeShown) -> str:
        """That `make -n` fails, as where a make reads what one before it makes."""
        return to_build(shown.front, shown.makes, [])

    def how_far(self, shown: MakeShown) -> str:
        """How many commands the present make has begun, of those that `make -n` showed, unless it
        begins more, and which build it is after the first one; where make is only asked, how
        often."""
        front, total = shown.front, shown.commands
        if front.is_asked:
            return front.questions.text()
        which = f"{front.builds[-1]} " if front.builds else ""
        begun = front.begun()
        return f"[{which}{begun}/{total if begun < total else 0}]"

    def build(self, shown: MakeShown) -> MakeBuilt:
        """Lets make build in a copy."""
        return built_by(shown)

    def recordable(self, shown: MakeShown) -> Build | None:
        """None: what make knows after a build it only says in one."""

    def recorded(self, shown: MakeShown, state: State, store: str) -> MakeBuilt | None:
        """None."""

    def word_of_build(self, built: MakeBuilt) -> str:
        """How many recipes ran."""
        return counted(built.recipes, "recipe")

    def translate(self, shown: MakeShown) -> Build:
        """The build as `make -n` shows it."""
        return shown_build(shown)

    def translate_built(self, built: MakeBuilt) -> Build:
        """The build as make made it."""
        return made_build(built, self.far)

    def basis(self, built: MakeBuilt) -> Basis:
        """What the translation depends on: each edit of a file that make reads, and any edit where
        make goes by times, or what it does was only seen in a build."""
        shown, root = built.shown, self.copies.seen
        left = shown.leftovers
        there = {*left.dependencies, *left.shown_again}
        timed = timed_by(root, [*shown.makes, *built.makes], shown.files)
        written = {
            name
            for name in built.makefiles.all
            if name in built.made or built.times.get(name) != shown.times.get(name)
        }
        # What make makes before any recipe runs is the same where make knows the same.
        own = (shown.read_made & built.makefiles.dependencies) - built.makefiles.again
        reread = written | {name for name in built.made if name.endswith(DEPENDENCY_ENDINGS)}
        readings = built.readings
        why = to_build(shown.front, shown.makes, built.makes)
        reasons = {
            f"files of an earlier build are there ({', '.join(sorted(there)[:3])})": there,
            f"the commands are those of a real build: {why}": why,
            "make makes files when it reads its makefiles": shown.read_made - own,
            "what make reads beside its makefiles isn't known": readings.sentences,
            "make reads what a recipe makes": readings.outputs,
        }
        anew = tuple(text for text, holds in reasons.items() if holds)
        alike = tuple(sorted(built.unchanged))
        seen = frozenset(readings.seen)
        return Basis(seen, frozenset(reread - own), anew, alike, tuple(sorted(timed)))


def timed_by(root: str, makes: Iterable[Make], files: set[str]) -> set[str]:
    """The files by whose times makes decide whether targets are up to date that are there before
    the build: these, all that they are made from, and the makefiles."""
    found = targets_there(root, list(makes), files)
    needs: dict[str, set[str]] = {}
    makefiles: set[str] = set()
    for make in makes:
        makefiles.update(path_name(root, make.folder, text) for text in make.makefiles)
        for name, rules in make.base.rules.items():
            words = [word for rule in rules for word in (*rule.needs, *rule.order_only)]
            paths = (path_name(root, make.folder, word) for word in words)
            needs.setdefault(path_name(root, make.folder, name), set()).update(paths)
    waiting = list(found)
    while waiting:
        more = needs.get(waiting.pop(), set()) - found
        found |= more
        waiting += more
    return found | makefiles if found else set()


def text_of_make(make: Make, root: str, folder: str) -> str:
    """All that one make knows, and the texts of its makefiles, as they lie in a folder."""
    rules = {
        name: [plain(asdict(rule)) for rule in found] for name, found in make.base.rules.items()
    }
    names = [path_name(root, make.folder, text) for text in make.makefiles]
    return json.dumps(
        [
            make.words,
            make.folder,
            make.status,
            own_environment(make.environment),
            make.base.values,
            make.base.texts,
            [asdict(macro) for macro in make.base.pattern_macros],
            rules,
            {name: content(os.path.join(folder, name)).decode("latin-1") for name in names},
        ],
        sort_keys=True,
    )


def plain(rule: dict[str, Any]) -> dict[str, Any]:
    """A rule whose commands don't tell where they stood in what was printed."""
    for command in rule["commands"]:
        del command["offset"]
    return rule


def digest_of(texts: Iterable[str]) -> str:
    """A digest of texts."""
    digest = hashlib.sha256()
    for text in texts:
        digest.update(text.encode("utf-8", "surrogateescape") + b"\0")
    return digest.hexdigest()


@dataclass(frozen=True)
class NinjaTool:
    """Ninja."""

    request: Request
    copies: Copies
    tail: Tail = field(default_factory=Tail)
    far: Far = field(default_factory=Far)

    def read(self) -> NinjaShown:
        """Reads `build.ninja`, and asks ninja whether it could build."""
        return ninja_shown(NinjaFolder(self.copies, self.request.folder, self.request.words))

    def word(self, shown: NinjaShown) -> str:
        """How many build lines there are, and the version of ninja."""
        return f"{len(shown.manifest.edges)} build lines, ninja {shown.version}"

    def said(self, shown: NinjaShown) -> str:
        """A digest of the texts of all ninja files."""
        place = self.copies.place("read").folder
        paths = [os.path.join(place, shown.front.folder, name) for name in shown.manifest.files]
        return digest_of([shown.version, *(content(path).decode("latin-1") for path in paths)])

    def hidden(self, shown: NinjaShown) -> frozenset[str]:
        """None."""
        return frozenset()

    def unsure(self, shown: NinjaShown) -> str:
        """Nothing: `build.ninja` says all."""
        return ""

    def how_far(self, shown: NinjaShown) -> str:
        """The last lines of ninja, which count its commands."""
        return self.tail.text()

    def build(self, shown: NinjaShown) -> NinjaShown:
        """Lets ninja build in a copy."""
        return ninja_built(shown, self.tail)

    def recordable(self, shown: NinjaShown) -> Build | None:
        """The build as `build.ninja` says it, where recipes show the rest."""
        return recordable(shown)

    def recorded(self, shown: NinjaShown, state: State, store: str) -> NinjaShown | None:
        """The build with what recorded recipes left."""
        return laid_out(shown, state, store)

    def word_of_build(self, built: NinjaShown) -> str:
        """Nothing more."""
        return ""

    def translate(self, shown: NinjaShown) -> Build:
        """The build as `build.ninja` says it."""
        return ninja_build(shown, self.far)

    def translate_built(self, built: NinjaShown) -> Build:
        """The same, with what is known after a build."""
        return ninja_build(built, self.far)

    def basis(self, built: NinjaShown) -> Basis:
        """What the translation depends on: all edges are asked for what only a build shows of
        them."""
        manifest = built.manifest
        folder = os.path.normpath(os.path.join(self.copies.seen, built.front.folder))
        own = (os.path.join(folder, name) for name in manifest.files)
        told = [
            edge.value(what, escape=str)
            for edge in manifest.edges
            for what in ("depfile", "dyndep")
            if edge.value(what)
        ]
        place = self.copies.place("read")
        there = [
            path
            for path, edge in manifest.maker.items()
            if not edge.is_phony
            and not edge.value("generator")
            and os.path.lexists(place.real(SeenPath(os.path.normpath(os.path.join(folder, path)))))
        ]
        outputs = Counter(
            path_name(self.copies.seen, folder, path)
            for edge in manifest.edges
            for path in edge.outputs
        )
        restat = [edge.outputs[0] for edge in manifest.edges if edge.restat]
        tried = [path_name(self.copies.seen, folder, path) for path in restat]
        is_odd = any(name.startswith("/") or outputs[name] > 1 for name in tried)
        reasons = {
            f"targets are there before the build ({', '.join(there[:3])})": there,
            "a build line with `restat` has an output that another one has too": is_odd,
            "the first build fails, and the second one doesn't": built.is_late,
        }
        anew = tuple(text for text, holds in reasons.items() if holds)
        names = (path_name(self.copies.seen, folder, path) for path in told)
        return Basis(frozenset(own), frozenset(names), anew, tuple(sorted(tried)))


def tool_of(request: Request, copies: Copies, scratch: str) -> MakeTool | NinjaTool:
    """The build tool of an import."""
    if request.tool == "ninja":
        return NinjaTool(request, copies)
    return MakeTool(request, copies, os.path.join(scratch, "make"))


def program_of(request: Request) -> str:
    """The path of the program of the build tool; raises `Fault` where GNU make isn't there."""
    return shutil.which("ninja") or "" if request.tool == "ninja" else find_make()
