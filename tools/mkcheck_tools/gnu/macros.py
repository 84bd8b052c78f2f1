"""Macros by which makes differ: SHELL, MAKEFLAGS, those that the environment sets, and the default
compiler.

mkcheck itself is asked, over a makefile that includes the project's, so that nothing is guessed of
its text.
"""

from __future__ import annotations

import os
import re
import shutil
import tempfile
from collections.abc import Mapping, Sequence
from dataclasses import dataclass, field, replace

from mkcheck_tools.answers.checkers import Checker
from mkcheck_tools.answers.graphs import Graph
from mkcheck_tools.answers.unrecorded import Unrecorded
from mkcheck_tools.faults import Fault
from mkcheck_tools.gnu.flags import check_options
from mkcheck_tools.judge.notes import Kind, Note, Warn
from mkcheck_tools.run.folders import PLAIN, plain_folder

NAME = re.compile(r"[A-Za-z_][A-Za-z0-9_]*")
# POSIX excepts the first two from the environment; make sets the others itself, and shells the
# last.
NOT_TAKEN = ("SHELL", "MAKEFLAGS", "MFLAGS", "MAKELEVEL", "MAKEOVERRIDES", "MAKE", "_", "SHLVL")
# Where the recipe begins. Shells set the first one, and a recording has its own.
STANDING = ("PWD", "OLDPWD")
PROBE = "mkcheck-record-probe"
SAYS = "value="
# Macros for which each makefile is asked, one after another: mkcheck is asked for all at once.
OFTEN = (
    *("SHELL", "MAKEFLAGS", "VPATH"),
    *(".SHELLFLAGS", ".DEFAULT_GOAL", ".RECIPEPREFIX", ".EXTRA_PREREQS"),
)
POSIX_SHELLS = ("", "sh", "/bin/sh", "/usr/bin/sh")
C17 = re.compile(r"(?:^|[;&|({]\s*)c17(?=\s|$)")


@dataclass(frozen=True)
class Prober:
    """Asks mkcheck about the makefile with other text around it."""

    build: Unrecorded
    known: dict[str, str] = field(default_factory=dict, compare=False)
    """The values of the macros `OFTEN`, where mkcheck was asked for them."""

    @property
    def checker(self) -> Checker:
        """The program mkcheck, and the makefile."""
        return self.build.checker

    @property
    def files(self) -> list[str]:
        """The files that may be sources."""
        return self.build.files

    @property
    def folder(self) -> str:
        """The folder of the makefile."""
        return self.checker.place.folder

    @property
    def makefile(self) -> str:
        """The name of the makefile."""
        return self.checker.makefile

    def ask(self, front: str, behind: str, words: tuple[str, ...]) -> Graph | None:
        """The graph with text before and behind the makefile; None where mkcheck refuses that."""
        return self.ask_of(f"{front}include {escaped(self.makefile)}\n{behind}", words)

    def ask_of(self, text: str, words: tuple[str, ...]) -> Graph | None:
        """The graph of a makefile with this text; None where mkcheck refuses that."""
        above = plain_folder(self.build.scratch)
        try:
            with tempfile.NamedTemporaryFile("wb", prefix="mkcheck-record-", dir=above) as file:
                file.write(os.fsencode(text))
                file.flush()
                options = (
                    "-f",
                    file.name,
                    *(option for option in self.checker.options if option == "-r"),
                )
                checker = replace(self.checker, options=options, words=words)
                return replace(self.build, checker=checker).graph()
        except Fault:
            return None

    def with_files(self, *names: str) -> Prober:
        """One that asks as if these files were there too."""
        return Prober(replace(self.build, files=[*self.files, *names]))

    def with_options(self, *options: str) -> Prober:
        """One that asks by these options too."""
        checker = replace(self.checker, options=(*self.checker.options, *options))
        return Prober(replace(self.build, checker=checker))

    def ruled(self, names: Sequence[str], user: str) -> list[str]:
        """Those of some names, none of which is there, that the makefile makes by recipes, and that
        `user` may need without a cycle; none where mkcheck refuses one of the rules."""
        names = [name for name in names if PLAIN.fullmatch(name) and not name.startswith("-")]
        words = (*self.checker.operands, *names)
        graph = self.with_files(*names).ask("", "", words) if names else None
        if graph is None:
            return []
        made, ancestors = graph.targets - graph.phony, graph.ancestors()
        return [name for name in names if name in made and not ancestors.any_before((user,), name)]

    def made(self, names: Sequence[str]) -> frozenset[str]:
        """Those of some names that have rules, as far as a makefile can name them; all where
        mkcheck refuses one of these."""
        plain = [name for name in names if PLAIN.fullmatch(name) and not name.startswith("-")]
        words = (*self.checker.operands, *plain)
        graph = self.with_files(*plain).ask("", "", words) if plain else None
        if graph is None:
            return frozenset(plain)
        return frozenset(name for name in plain if name in graph.targets or graph.needs(name))

    def values(self, *names: str, front: Mapping[str, str] | None = None) -> list[str]:
        """The values of macros, each empty where the makefile sets none. `front` has macros that
        are set before it."""
        if front is not None or not set(names) <= set(OFTEN):
            return self.expanded(*(f"$({name})" for name in names), front=front)
        if not self.known:
            texts = [f"$({name})" for name in OFTEN]
            found = self.tried(texts, {}) or [self.expanded(text)[0] for text in texts]
            self.known.update(zip(OFTEN, found))
        return [self.known[name] for name in names]

    def expanded(self, *texts: str, front: Mapping[str, str] | None = None) -> list[str]:
        """What texts of a command give, or nothing for each where mkcheck refuses one."""
        return self.tried(texts, front or {}) or ["" for _ in texts]

    def tried(self, texts: Sequence[str], front: Mapping[str, str]) -> list[str] | None:
        """The same, or None where mkcheck refuses one."""
        lines = "".join(f"\t{SAYS}{text}\n" for text in texts)
        graph = self.ask(assigned(front), f"{PROBE}:\n{lines}", (*self.checker.operands, PROBE))
        if graph is None or not graph.recipes or len(graph.recipes[-1].lines) != len(texts):
            return None
        return [line[len(SAYS) :].strip() for line in graph.recipes[-1].lines]

    def read_behind(self, text: str, line: str) -> str:
        """What a line gives that is expanded where it is read, behind this text of a makefile; or
        nothing where mkcheck refuses it."""
        graph = self.ask_of(f"{text}{PROBE}:\n\t{SAYS}{line}\n", (*self.checker.operands, PROBE))
        if graph is None or not graph.recipes or len(graph.recipes[-1].lines) != 1:
            return ""
        return graph.recipes[-1].lines[0][len(SAYS) :].strip()

    def after(self, texts: Mapping[str, str]) -> dict[str, str]:
        """The values of macros that have these texts before the makefile; without those for which
        mkcheck refuses it."""
        names = list(texts)
        found = self.tried([f"$({name})" for name in names], texts) if names else []
        if found is not None:
            return dict(zip(names, found))
        if len(names) == 1:
            return {}
        middle = len(names) // 2
        halves = (names[:middle], names[middle:])
        return {
            name: value
            for half in halves
            for name, value in self.after({one: texts[one] for one in half}).items()
        }

    def taken(self, graph: Graph, environment: Mapping[str, str]) -> list[str]:
        """The variables of the environment that would give another graph as macros."""
        names = [name for name, value in environment.items() if is_macro(name, value)]
        texts = {name: escaped(environment[name]) for name in names}
        return self.differing(graph, names, texts, False)

    def changing(self, graph: Graph, names: list[str], texts: Mapping[str, str]) -> list[str]:
        """The macros that change the graph, or for which mkcheck refuses it, where they have these
        texts before the makefile."""
        plain = self.ask("", "", self.checker.words)
        return self.differing(graph, names, texts, plain is not None and plain.text == graph.text)

    def differing(
        self, graph: Graph, names: list[str], texts: Mapping[str, str], refusals: bool
    ) -> list[str]:
        """Those of some macros that change the graph, found by halves; if `refusals`, also those
        for which mkcheck refuses it."""
        if not names:
            return []
        front = assigned({name: texts[name] for name in names})
        other = self.ask(front, "", self.checker.words)
        if other is not None and other.text == graph.text:
            return []
        if len(names) == 1:
            return names if refusals or other is not None else []
        middle = len(names) // 2
        halves = (names[:middle], names[middle:])
        return [name for half in halves for name in self.differing(graph, half, texts, refusals)]


def is_macro(name: str, value: str) -> bool:
    """Whether a variable of the environment can be written down as a macro of a makefile."""
    return (
        NAME.fullmatch(name) is not None
        and name not in NOT_TAKEN
        and "\n" not in value
        and value[-1:] != "\\"
    )


def assigned(texts: Mapping[str, str]) -> str:
    """Lines of a makefile that give macros these texts."""
    return "".join(f"{name} = {text}\n" for name, text in texts.items())


def escaped(value: str) -> str:
    """A value as text of a makefile."""
    return value.replace("$", "$$").replace("#", "\\#")


def with_shell(graph: Graph, prober: Prober, strict: bool, warn: Warn) -> Graph:
    """The graph, whose commands are run by the shell that the makefile names, and end early where
    it is `strict`.

    Options that the makefile gives to make are told, or refused.
    """
    shell, options = prober.values("SHELL", "MAKEFLAGS")
    check_options(options, "-r" in prober.checker.options, warn)
    own = "/bin/sh" if shell in POSIX_SHELLS else shell
    if shell not in POSIX_SHELLS and shutil.which(shell.split()[0]) is None:
        raise Fault(
            f"the makefile sets SHELL to {shell}, which isn't there: give SHELL=/bin/sh, to"
            " mkcheck too"
        )
    if shell not in POSIX_SHELLS:
        text = (
            f"the makefile sets SHELL to {shell}, so commands are run by it, as GNU make does;"
            " other makes run them by /bin/sh"
        )
        warn(Note("", Kind.SHELL, text))
    recipes = [replace(recipe, shell=own, strict=strict) for recipe in graph.recipes]
    return replace(graph, recipes=recipes)


def warn_of_environment(
    graph: Graph, prober: Prober, operands: Mapping[str, str], warn: Warn
) -> None:
    """Warns of each macro that makes would take from the environment, and that mkcheck doesn't."""
    environment = {name: value for name, value in os.environ.items() if name not in operands}
    for name in prober.taken(graph, environment):
        text = (
            f"the makefile uses the macro {name}, which the environment sets: makes take that"
            f' value, but mkcheck and this recording don\'t; give {name}="${name}" to both as an'
            " operand, or unset it when make is started"
        )
        warn(Note("", Kind.ENVIRONMENT, text))


def handed_down(prober: Prober, operands: Mapping[str, str]) -> dict[str, str]:
    """The variables of the environment to which the makefile gives other values: make hands these
    to commands."""
    environment = {
        name: value
        for name, value in os.environ.items()
        if is_macro(name, value) and name not in operands and name not in STANDING
    }
    values = prober.after({name: escaped(value) for name, value in environment.items()})
    return {name: value for name, value in values.items() if value != environment[name].strip()}


def refuse_absent_compiler(graph: Graph) -> None:
    """c17 is the compiler of the default rules, by POSIX, and few systems have it."""
    if shutil.which("c17") is not None:
        return
    for recipe in graph.recipes:
        if any(C17.search(command.text) for command in recipe.commands):
            raise Fault(
                f"the recipe of {recipe.target} starts c17, the default compiler of POSIX, which"
                " isn't there: give CC=cc, to mkcheck too"
            )
