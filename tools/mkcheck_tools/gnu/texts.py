"""What the texts of a makefile say that mkcheck doesn't tell: rules with their commands as written,
whether `.POSIX` is a target, for which targets `.IGNORE` stands, and a byte order mark at the
beginning."""

from __future__ import annotations

import os
import re
from collections.abc import Iterator, Sequence
from dataclasses import dataclass, replace

from mkcheck_tools.answers.graphs import Graph
from mkcheck_tools.faults import Fault
from mkcheck_tools.gnu.flags import ends_early
from mkcheck_tools.gnu.macros import Prober
from mkcheck_tools.gnu.remade import COMMENT, INCLUDE, JOINED, included

MARK = b"\xef\xbb\xbf"
# A line that gives a macro a text.
ASSIGNMENT = re.compile(r"\s*([^\s:=#+?!]+)\s*(?:[+?!]|:{1,3})?=(.*)", re.DOTALL)
# What stands in front of the colon of a rule; a colon in a reference is none.
FRONT = re.compile(r"(?:\$\([^()]*\)|\$\{[^{}]*\}|\$.|[^:$])*(?=:)", re.DOTALL)
STRICT = ".POSIX"
IGNORING = ".IGNORE"
# A line of a makefile that mkcheck-import writes for a tool which runs a recipe that failed again,
# whatever it left, as ninja, and GNU make where the makefile has `.DELETE_ON_ERROR`.
FAILED_RUN_AGAIN = "# Recipes that failed run again, whatever they left."


@dataclass(frozen=True)
class Rule:
    """A rule line: its targets and prerequisites, expanded, and its commands as written."""

    targets: tuple[str, ...]
    prerequisites: tuple[str, ...]
    commands: tuple[str, ...]


@dataclass(frozen=True)
class Text:
    """What all texts of a makefile say: rules, and the texts of macros, in their order."""

    rules: tuple[Rule, ...]
    macros: tuple[tuple[str, str], ...]


def names_of_texts(prober: Prober) -> list[str]:
    """The makefile, and the files that it includes, there or not."""
    return list(dict.fromkeys([prober.makefile, *included(prober)]))


def plainly_included(folder: str, makefile: str) -> list[str]:
    """The makefile, and the files that it includes by plain names, as far as these are there."""
    found: dict[str, None] = {}
    waiting = [makefile]
    while waiting:
        name = waiting.pop()
        found[name] = None
        try:
            path = os.path.join(folder, name)
            with open(path, encoding="utf-8-sig", errors="replace") as file:
                lines = JOINED.sub(" ", file.read()).split("\n")
        except OSError:
            continue
        matches = (INCLUDE.fullmatch(COMMENT.sub("", line)) for line in lines)
        words = [word for match in matches if match for word in match[1].split()]
        waiting += [word for word in words if "$" not in word and word not in found]
    return list(found)


def refuse_mark(folder: str, names: Sequence[str]) -> None:
    """Refuses a text that begins with a byte order mark. GNU make passes over that, and to POSIX it
    is a part of the first name."""
    for name in names:
        try:
            with open(os.path.join(folder, name), "rb") as file:
                marked = file.read(len(MARK)) == MARK
        except OSError:
            continue
        if marked:
            raise Fault(
                f"{name} begins with a byte order mark, which GNU make passes over, and which other"
                f" makes and mkcheck take for a part of the first word: take it away (sed -i"
                f" '1s/^\\xEF\\xBB\\xBF//' {name})"
            )


def text_of(prober: Prober) -> Text:
    """What the texts of the makefile say."""
    fronts: list[str] = []
    behind: list[str] = []
    commands: list[list[str]] = []
    macros: list[tuple[str, str]] = []
    for line in lines_of(prober):
        if line.startswith("\t"):
            if commands:
                commands[-1].append(line[1:])
            continue
        plain = COMMENT.sub("", line)
        assigned = ASSIGNMENT.fullmatch(plain)
        front = FRONT.match(plain)
        if assigned is not None:
            macros.append((assigned[1], assigned[2]))
        elif front is not None:
            fronts.append(front.group())
            needs, _, own = line[front.end() :].partition(";")
            behind.append(COMMENT.sub("", needs).lstrip(":"))
            commands.append([own] if own.strip() else [])
    values = expanded(prober, [*fronts, *behind])
    parts = zip(values[: len(fronts)], values[len(fronts) :], commands)
    rules = (Rule(tuple(one.split()), tuple(two.split()), tuple(own)) for one, two, own in parts)
    return Text(tuple(rules), tuple(macros))


def lines_of(prober: Prober) -> Iterator[str]:
    """The logical lines of the texts. A line that goes on is one line, as a command too."""
    for name in names_of_texts(prober):
        try:
            path = os.path.join(prober.folder, name)
            with open(path, encoding="utf-8", errors="replace") as file:
                yield from JOINED.sub(" ", file.read()).split("\n")
        except OSError:
            continue


def expanded(prober: Prober, texts: Sequence[str]) -> list[str]:
    """The values of texts; nothing for one that mkcheck refuses."""
    asked = [text for text in dict.fromkeys(texts) if "$" in text]
    values = dict(zip(asked, expanded_by_halves(prober, asked)))
    return [values.get(text, text) for text in texts]


def expanded_by_halves(prober: Prober, texts: Sequence[str]) -> list[str]:
    """The values of texts, found by halves, since one that is refused hides all others."""
    found = prober.tried(texts, {}) if texts else []
    if found is not None:
        return found
    if len(texts) == 1:
        return [""]
    middle = len(texts) // 2
    return [
        *expanded_by_halves(prober, texts[:middle]),
        *expanded_by_halves(prober, texts[middle:]),
    ]


def is_strict(flags: str, text: Text) -> bool:
    """Whether make starts the shell so that a command ends at the first part of it that fails: as
    the value of .SHELLFLAGS says, or where `.POSIX` is a target."""
    if flags:
        return ends_early(flags)
    return any(STRICT in rule.targets for rule in text.rules)


def ignoring(graph: Graph, text: Text) -> Graph:
    """The graph, where recipes go on after a command that fails: those of the prerequisites of
    `.IGNORE`, or all if it has none."""
    found = [rule.prerequisites for rule in text.rules if IGNORING in rule.targets]
    names = {name for needs in found for name in needs}
    is_for_all = any(not needs for needs in found)
    recipes = [
        replace(recipe, ignoring=is_for_all or recipe.target in names) for recipe in graph.recipes
    ]
    return replace(graph, recipes=recipes)
