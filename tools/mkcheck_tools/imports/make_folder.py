"""A folder in which GNU make is started, and what make shows there before a build."""

from __future__ import annotations

import os
import re
from collections.abc import Mapping, Sequence
from dataclasses import dataclass, field, replace
from functools import partial
from types import MappingProxyType

from mkcheck_tools.faults import Fault
from mkcheck_tools.imports.builds import path_name
from mkcheck_tools.imports.commands import is_export
from mkcheck_tools.imports.confining import OWN, Confined
from mkcheck_tools.imports.copies import Copies, links_in, listing
from mkcheck_tools.imports.expanded import Expanded, expanded_in
from mkcheck_tools.imports.gnumake import (
    Make,
    Question,
    Start,
    Wait,
    content,
    find_make,
    last_words,
    run_make,
    version_of,
    wrapper_in,
)
from mkcheck_tools.imports.inherited import all_macros
from mkcheck_tools.imports.leaving import times_in
from mkcheck_tools.imports.leftovers import Leftovers
from mkcheck_tools.imports.questions import Questions
from mkcheck_tools.imports.telling import ASKED
from mkcheck_tools.imports.transcripts import MARK
from mkcheck_tools.run.paths import SeenPath

ENOUGH = (4, 0)
# What make says of a file for which it has no rule.
NO_RULE = re.compile(r"No rule to make target '(.+?)', needed by '")
# What stands in the output of a make before each command.
COMMAND_MARK = f"{MARK}\t".encode()


@dataclass(frozen=True)
class MakeFolder:
    """Starts GNU make in one folder of a project, always with the same words."""

    copies: Copies
    folder: str
    """The folder in which make starts, a path from the root."""

    words: tuple[str, ...]
    scratch: str
    keep: bool = False
    """Whether what is there already is taken as it is."""

    is_built: bool = False
    """Whether the translation is to be of a real build, and not of what `make -n` shows."""

    program: str = ""
    version: str = ""

    watched: tuple[str, ...] = ()
    """The macros whose values are shown with each command."""

    hint: str = ""
    """What is added to the sentence on makefiles that can't be read."""

    more: Mapping[str, str] = field(default_factory=dict)
    """Further variables of the environment."""

    builds: list[str] = field(default_factory=list, compare=False)
    """The words for the builds after the first one, up to the present one."""

    questions: Questions = field(default_factory=Questions, compare=False)
    """How many questions make is asked after them."""

    @property
    def wrapper(self) -> str:
        """The path of the script that stands for make in commands."""
        return wrapper_in(self.scratch)

    @property
    def top(self) -> str:
        """The path of the folder, as make sees it."""
        return os.path.normpath(os.path.join(self.copies.seen, self.folder))

    @property
    def start(self) -> Start:
        """How make is started."""
        return Start(self.program, self.top, self.words, self.more)

    def run(
        self,
        word: str,
        is_real: bool,
        seconds: float | None = None,
        lacks: Mapping[str, Sequence[str]] = MappingProxyType({}),
        waits: Sequence[Wait] = (),
    ) -> list[Make]:
        """Runs make in a copy. With `seconds`, a limit of its time, make can change nothing but the
        copy. By calls `lacks` has files that stand there while that make is asked, and `waits` what
        waits for something else than makefiles say."""
        place, start = self.copies.shut(word), self.start
        if seconds is not None:
            place = Confined(place.folder, place.seen, own=(self.scratch,))
            start = replace(start, more=OWN)
        question = Question(is_real, self.watched, seconds, lacks, waits)
        makes = run_make(start, place, self.scratch, question)
        self.questions.asked += self.is_asked
        if not makes[0].transcript.is_whole:
            said = last_words(makes[0].errors)
            raise Fault(f"GNU make could not read its makefile: {said}{self.hint}")
        return makes

    def asked_before(self) -> list[Make]:
        """What makes would do before a build.

        `make -n` fails where a make needs a file that another one makes, as a library of another
        folder: nothing has made it. So such a file stands there while that make is asked, empty and
        older than all.
        """
        place, lacks = self.copies.place("read"), dict[str, list[str]]()
        while True:
            makes = self.run("read", is_real=False, lacks=lacks)
            found = [
                (call, path)
                for call, path in made_by_others(self.copies.seen, makes)
                if path not in lacks.get(call, ()) and not os.path.lexists(place.real(path))
            ]
            if not found:
                return makes
            for call, path in found:
                lacks.setdefault(call, []).append(path)

    @property
    def is_asked(self) -> bool:
        """Whether all builds were made, and make is only asked what it would do."""
        return ASKED in self.builds

    def begun(self) -> int:
        """How many commands the present make has begun."""
        names = os.listdir(self.scratch) if os.path.isdir(self.scratch) else []
        outputs = (os.path.join(self.scratch, name) for name in names if name.endswith(".out"))
        return sum(content(path).count(COMMAND_MARK) for path in outputs)

    def own_words(self, text: str) -> str:
        """A command in which make goes by the name of its program."""
        return text.replace(self.wrapper, self.program)


@dataclass(frozen=True)
class MakeShown:
    """What makes show of a build before it is made, and what is there then."""

    front: MakeFolder
    makes: list[Make]
    leftovers: Leftovers
    exported: Mapping[str, set[str]]
    """For each folder of a make the macros that single targets export."""

    files: set[str]
    times: dict[str, int]
    """The times of the files before the build."""

    read_made: set[str]
    """The files that make made or changed when it read its makefiles."""

    links: dict[str, str]

    expanded: Mapping[str, Expanded] = field(default_factory=dict)
    """The files that make writes when it expands the commands of a recipe, which aren't there."""

    @property
    def commands(self) -> int:
        """How many commands are shown."""
        return sum(len(make.transcript.spots) for make in self.makes)


def made_by_others(root: str, makes: list[Make]) -> list[tuple[str, SeenPath]]:
    """The calls of makes that failed, each with the path of a file for which that make has no rule,
    and that another one makes."""
    makers: dict[str, Make] = {}
    for make in makes:
        for name, rules in make.base.rules.items():
            if any(rule.has_recipe and not rule.is_phony for rule in rules):
                makers.setdefault(path_name(root, make.folder, name), make)
    found = []
    for make in makes:
        for name in NO_RULE.findall(make.errors) if make.status != 0 else ():
            path = path_name(root, make.folder, name)
            if not path.startswith("/") and makers.get(path, make) is not make:
                found.append((make.call, SeenPath(os.path.join(root, path))))
    return found


def make_folder(copies: Copies, folder: str, words: tuple[str, ...], scratch: str) -> MakeFolder:
    """The folder of a build, with the program of GNU make; raises `Fault` where there is none that
    is new enough."""
    program = find_make()
    version = version_of(program)
    if tuple(map(int, version.split()[-1].split(".")[:2])) < ENOUGH:
        raise Fault(f"{version} is too old: GNU make 4.0 or a later one is needed")
    return MakeFolder(copies, folder, words, scratch, program=program, version=version)


def shown_by(front: MakeFolder) -> MakeShown:
    """What make would do, without what an earlier build left."""
    place = front.copies.place("read")
    times = times_in(place.folder)
    leftovers = Leftovers(front.copies, frozenset(listing(place.folder)), times)
    makes = front.asked_before()
    if not front.keep:
        leftovers = leftovers.found(makes, front.words, partial(cleaned, front))
        front.copies.hide(set(leftovers.hidden))
        front = replace(front, hint=leftovers.sentence())
        if leftovers.hidden:
            makes = front.asked_before()
    return learned(front, makes, leftovers, times)


def cleaned(front: MakeFolder, words: Sequence[str], seconds: float) -> list[Make]:
    """What make does with these words, by which it cleans, in a copy for that."""
    return replace(front, words=tuple(words)).run("clean", True, seconds)


def shown_with(shown: MakeShown, names: set[str]) -> MakeShown:
    """The same where the copies have files that were hidden, since a build without them fails."""
    leftovers = shown.leftovers.without(names)
    front = replace(shown.front, hint=leftovers.sentence())
    front.copies.show(names)
    times = times_in(front.copies.place("read").folder)
    found = learned(front, front.asked_before(), leftovers, times)
    return replace(found, exported={**shown.exported, **found.exported})


def learned(
    front: MakeFolder, makes: list[Make], leftovers: Leftovers, times: dict[str, int]
) -> MakeShown:
    """What makes showed, and what is there before a build. `times` are those of the files before a
    make read its makefiles."""
    place = front.copies.place("read")
    exported: dict[str, set[str]] = {}
    watched = dict.fromkeys(front.watched)
    for make in makes:
        own = exported_by(make, front.copies, place.folder)
        exported.setdefault(make.folder, set()).update(own)
        watched.update(dict.fromkeys(watched_in(make, own)))
    if len(watched) > len(front.watched):
        front = replace(front, watched=tuple(watched))
        makes = front.asked_before()
    after = times_in(place.folder)
    written = {name for name, stamp in after.items() if times.get(name) != stamp}
    expanded = expanded_in(front.copies.seen, place.folder, makes, written)
    front.copies.take_away(place.folder, {*expanded})
    return MakeShown(
        front,
        makes,
        leftovers.with_dependencies(place.folder, makes),
        {folder: names for folder, names in exported.items() if names},
        listing(place.folder),
        {name: stamp for name, stamp in after.items() if name not in expanded},
        written - expanded.keys(),
        links_in(place.folder),
        expanded,
    )


def watched_in(make: Make, exported: set[str]) -> list[str]:
    """The macros that are set for some targets alone, and that recipes find in their environment:
    those that single targets export, and those of the environment."""
    names = (macro.name for macro in all_macros(make.base))
    return [
        name
        for name in names
        if (name in exported or name in make.environment) and name not in ("SHELL", "MAKEFLAGS")
    ]


def exported_by(make: Make, copies: Copies, folder: str) -> set[str]:
    """The macros that single targets of a make export; the project lies in a folder."""
    inside = folder + make.folder[len(copies.seen) :]
    is_all = ".EXPORT_ALL_VARIABLES" in make.base.rules
    return {macro.name for macro in all_macros(make.base) if is_all or is_export(macro, inside)}
