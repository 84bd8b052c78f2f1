"""What GNU make does before it looks at the goals: it makes the files that it reads, and takes the
goal that the makefile names."""

from __future__ import annotations

import os
import re
from dataclasses import dataclass, field

from mkcheck_tools.answers.graphs import Graph
from mkcheck_tools.gnu.macros import PROBE, Prober, escaped
from mkcheck_tools.judge.notes import Kind, Note, Warn
from mkcheck_tools.run.folders import is_plain_path

JOINED = re.compile(r"\\\n[ \t]*")
COMMENT = re.compile(r"(?<!\\)#.*")
INCLUDE = re.compile(r"[ ]*-?include[ \t]+(.*)")
# A line of a dependency file: a rule without a recipe, or nothing.
DEPENDENCIES = re.compile(r"(?:[^\s:=#$][^:=#$]*:(?![:=])[^=#$;]*|\s*)$")
# At this level a text may include none; the makefile is at level 0.
LEVELS = 16


@dataclass(frozen=True)
class Reading:
    """Reads the texts of a makefile in their order, and notes the files that they include."""

    prober: Prober
    found: dict[str, bool] = field(default_factory=dict)
    """The names, each with whether make does without such a file."""

    def read(self, name: str, before: str, level: int = 0) -> None:
        """Reads a text, where that of the makefile goes so far, `before`."""
        lines = lines_of(self.prober.folder, name)
        for number, line in enumerate(lines):
            match = INCLUDE.fullmatch(COMMENT.sub("", line))
            if match is not None and level < LEVELS:
                text = before + "".join(f"{line}\n" for line in lines[:number])
                self.include(match[1], text, level + 1, line.lstrip().startswith("-"))

    def include(self, words: str, before: str, level: int, is_optional: bool) -> None:
        """Reads the files that an include line names."""
        if "$" in words:
            words = self.prober.read_behind(before, words)
        for name in filter(is_plain_path, words.split()):
            self.found[name] = is_optional and self.found.get(name, True)
            self.read(name, before, level)
            before += f"-include {escaped(name)}\n"


def lines_of(folder: str, name: str) -> list[str]:
    """The lines of a text, each joined with those on which it goes on; none where there is none."""
    try:
        with open(os.path.join(folder, name), encoding="utf-8", errors="replace") as file:
            return JOINED.sub(" ", file.read()).split("\n")
    except OSError:
        return []


def included(prober: Prober) -> list[str]:
    """The names of the files that the makefile includes, and those that these do, there or not.
    Macros have the values that they have where the line is read."""
    reading = Reading(prober)
    reading.read(prober.makefile, "")
    return list(reading.found)


def optional_dependencies(prober: Prober) -> list[str]:
    """The dependency files that the makefile includes where they are there."""
    reading = Reading(prober)
    reading.read(prober.makefile, "")
    names = [name for name, is_optional in reading.found.items() if is_optional]
    return [name for name in names if is_telling(os.path.join(prober.folder, name))]


def is_dependency_file(path: str) -> bool:
    """Whether a makefile has rules without recipes and nothing else, so that it only adds
    prerequisites."""
    lines = lines_without_comments(path)
    return lines is not None and all(map(DEPENDENCIES.match, lines))


def is_telling(path: str) -> bool:
    """Whether it is a dependency file that has a rule."""
    return is_dependency_file(path) and any(map(str.strip, lines_without_comments(path) or ()))


def lines_without_comments(path: str) -> list[str] | None:
    """The lines of a text without those that are comments; None where it can't be read."""
    try:
        with open(path, encoding="utf-8", errors="surrogateescape") as file:
            text = file.read()
    except OSError:
        return None
    return re.sub(r"(?m)^#.*$", "", text.replace("\\\n", " ")).split("\n")


def made_first(prober: Prober) -> list[str]:
    """The texts of the makefile that have recipes, itself among them."""
    names = [prober.makefile, *included(prober)]
    names = [name for name in dict.fromkeys(names) if is_plain_path(name)]
    graph = prober.with_files(*names).ask("", "", (*prober.checker.operands, *names))
    targets = graph.targets if graph is not None else frozenset()
    return [name for name in names if name in targets]


def warn_of_remade(prober: Prober, made: list[str], warn: Warn) -> None:
    """Warns of each text of the makefile that has a recipe, as `made_first` gives them: GNU make
    makes it and reads it anew."""
    for name in made:
        own = name == prober.makefile
        when = "first and reads it anew" if own else "before it reads the makefile"
        text = (
            f"GNU make makes {name} {when}: targets that use its macros aren't made again when it"
            " changes"
        )
        warn(Note("", Kind.REMADE, text))


def warn_of_goal(graph: Graph, prober: Prober, made: list[str], warn: Warn) -> None:
    """Warns where GNU make may take another goal than the one that is recorded: one that the
    makefile names by a macro, or one of an included text that it makes first (`made_first`)."""
    if any("=" not in word for word in prober.checker.words):
        return
    (goal,) = prober.values(".DEFAULT_GOAL")
    if goal:
        if [goal] != graph.goals:
            warn(Note("", Kind.GOAL, f"GNU make takes {goal} as the goal: give it as a word"))
        return
    goal = graph.goals[0]
    for name in made:
        there = os.path.exists(os.path.join(prober.folder, name))
        if not there and gives_goal(prober, name):
            text = (
                f"GNU make makes {name}, which isn't there yet, before it reads the makefile: if it"
                f" has a target, the first one is the goal, and not {goal}; make {name} first, and"
                f" give {goal} as a word, to make too"
            )
            warn(Note("", Kind.GOAL, text))


def gives_goal(prober: Prober, name: str) -> bool:
    """Whether the first target of a text would be the goal: no other stands before the line that
    includes it."""
    lines = lines_of(prober.folder, prober.makefile)
    matches = [INCLUDE.fullmatch(COMMENT.sub("", line)) for line in lines]
    texts = [match.group(1) if match else "" for match in matches]
    for number, text in enumerate(prober.expanded(*texts)):
        if name in text.split():
            # These rules come again with the makefile, and two rules with commands are refused.
            front = "".join(f"{line}\n" for line in lines[:number] if line[:1] != "\t")
            graph = prober.ask(f"{front}{PROBE}:\n", "", prober.checker.operands)
            return graph is not None and graph.goals == [PROBE]
    return False
