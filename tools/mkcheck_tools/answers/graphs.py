"""What mkcheck says of the makefile: its targets in serial order, with their commands."""

from __future__ import annotations

import functools
import hashlib
from collections import deque
from collections.abc import Iterable
from dataclasses import dataclass, field, replace

PREFIXES = "@-+ \t"


@dataclass(frozen=True)
class Command:
    """A command as make runs it: without its prefixes, its failure ignored or not. A `strict` one
    ends at the first part of it that fails."""

    text: str
    ignored: bool
    shell: str = "/bin/sh"
    strict: bool = False

    @classmethod
    def of(cls, line: str, shell: str = "/bin/sh", strict: bool = False) -> Command:
        """The command that a line of a recipe gives."""
        text = line.lstrip(PREFIXES)
        ignored = "-" in line[: len(line) - len(text)]
        return cls(text, ignored, shell, strict and not ignored)

    @property
    def words(self) -> list[str]:
        """The words by which the shell is started, which may have words of its own."""
        return [*self.shell.split(), "-ec" if self.strict else "-c", self.text]


@dataclass(frozen=True)
class Recipe:
    """A target with its lines as mkcheck shows them, and the shell that runs them. A `strict` one
    ends a command at the first part of it that fails. One that is `ignoring` goes on with the next
    command, as `.IGNORE` has it."""

    target: str
    lines: list[str] = field(default_factory=list)
    shell: str = "/bin/sh"
    strict: bool = False
    ignoring: bool = False

    @property
    def commands(self) -> list[Command]:
        """What is to be run: lines of prefixes alone are passed over."""
        commands = (Command.of(line, self.shell, self.strict) for line in self.lines)
        return [
            replace(command, ignored=command.ignored or self.ignoring)
            for command in commands
            if command.text.strip()
        ]


def firsts_of(recipes: Iterable[Recipe]) -> dict[str, str]:
    """The targets of some recipes, each with the first of them whose commands are the same, as
    those of a rule with several targets are."""
    firsts: dict[tuple[str, ...], str] = {}
    return {one.target: firsts.setdefault(tuple(one.lines), one.target) for one in recipes}


@dataclass(frozen=True)
class Node:
    """A name of the graph, with the groups of its prerequisites, which `.WAIT` parts."""

    name: str
    recipe: bool = False
    phony: bool = False
    groups: tuple[tuple[str, ...], ...] = ()

    @classmethod
    def of(cls, line: str) -> Node:
        """The node of a line of `mkcheck graph`. No name holds a colon."""
        front, _, behind = line.partition(":")
        name, *marks = front.split(" ")
        groups: list[list[str]] = [[]]
        for word in filter(None, behind.split(" ")):
            if word == ".WAIT":
                groups.append([])
            else:
                groups[-1].append(word)
        parts = tuple(tuple(group) for group in groups if group)
        return cls(name, "recipe" in marks, "phony" in marks, parts)

    @property
    def prerequisites(self) -> list[str]:
        """The prerequisites, each once."""
        return list(dict.fromkeys(name for group in self.groups for name in group))


@dataclass
class Ancestors:
    """For each name those that are always made before it: its prerequisites, theirs, and so on.

    Each name has a bit, and the bits of its ancestors. `serial` tells that no two names are ever
    made side by side.
    """

    bits: dict[str, int] = field(default_factory=dict)
    above: dict[str, int] = field(default_factory=dict)
    serial: bool = False

    def add(self, name: str, prerequisites: Iterable[str]) -> None:
        """A name whose prerequisites were added before it."""
        self.bits[name] = 1 << len(self.bits)
        self.above[name] = 0
        for other in prerequisites:
            self.above[name] |= self.bits.get(other, 0) | self.above.get(other, 0)

    def any_before(self, others: Iterable[str], name: str) -> bool:
        """Whether one of these is always made before a name."""
        above = self.above.get(name, 0)
        return any(above & self.bits.get(other, 0) for other in others)

    def union(self, names: Iterable[str]) -> int:
        """The bits of all that is always made before one of some names."""
        above = 0
        for name in names:
            above |= self.above.get(name, 0)
        return above

    def in_order(self, one: str, other: str) -> bool:
        """Whether two names are never made side by side, as far as prerequisites tell."""
        return self.serial or self.any_before((one,), other) or self.any_before((other,), one)


@dataclass(frozen=True)
class Graph:
    """The goals, the nodes in serial order, the recipes among them, and the whole text."""

    goals: list[str] = field(default_factory=list)
    nodes: dict[str, Node] = field(default_factory=dict)
    recipes: list[Recipe] = field(default_factory=list)
    text: str = ""

    @functools.cached_property
    def names(self) -> list[str]:
        """The names, in serial order."""
        return list(self.nodes)

    @functools.cached_property
    def prerequisites(self) -> dict[str, list[str]]:
        """The prerequisites of each name."""
        return {name: node.prerequisites for name, node in self.nodes.items()}

    @functools.cached_property
    def users(self) -> dict[str, list[str]]:
        """For each name those whose prerequisite it is."""
        found: dict[str, list[str]] = {}
        for user, names in self.prerequisites.items():
            for name in names:
                found.setdefault(name, []).append(user)
        return found

    @functools.cached_property
    def phony(self) -> frozenset[str]:
        """The phony names."""
        return frozenset(name for name, node in self.nodes.items() if node.phony)

    @property
    def waits(self) -> bool:
        """Whether `.WAIT` parts prerequisites of a name."""
        return any(len(node.groups) > 1 for node in self.nodes.values())

    @property
    def serial(self) -> bool:
        """Whether `.WAIT` parts all, so that recipes of the one goal never run side by side."""
        parted = all(len(part) == 1 for node in self.nodes.values() for part in node.groups)
        return parted and len(self.goals) == 1

    @functools.cached_property
    def targets(self) -> frozenset[str]:
        """The names that have recipes."""
        return frozenset(recipe.target for recipe in self.recipes)

    @property
    def once(self) -> frozenset[str]:
        """The targets that no make makes again while they are there."""
        return frozenset(
            name
            for name in self.targets
            if name not in self.phony and not self.prerequisites.get(name)
        )

    def needs(self, name: str) -> list[str]:
        """The prerequisites of a name."""
        return self.prerequisites.get(name, [])

    def above(self, name: str) -> set[str]:
        """The names that lead to a name from the goals, and the name."""
        seen, left = {name}, deque([name])
        while left:
            for user in self.users.get(left.popleft(), []):
                if user not in seen:
                    seen.add(user)
                    left.append(user)
        return seen

    def path_to(self, name: str) -> list[str]:
        """A shortest path from a goal to a name; empty where there is none."""
        before: dict[str, str | None] = {name: None}
        left = deque([name])
        while left:
            one = left.popleft()
            if one in self.goals:
                path: list[str] = []
                step: str | None = one
                while step is not None:
                    path.append(step)
                    step = before[step]
                return path
            for user in self.users.get(one, []):
                if user not in before:
                    before[user] = one
                    left.append(user)
        return []

    def orders(self) -> dict[str, str]:
        """For each name a digest of what is always made before it, and in which order."""
        found: dict[str, str] = {}
        for name in self.names:
            above = sorted(found.get(one, one) for one in self.prerequisites.get(name, []))
            found[name] = hashlib.sha256("\0".join([name, *above]).encode("utf-8")).hexdigest()
        return found

    def ancestors(self) -> Ancestors:
        """What is always made before what."""
        found = Ancestors(serial=self.serial)
        for name in self.names:
            found.add(name, self.prerequisites.get(name, []))
        return found


def read_graph(text: str) -> Graph:
    """The graph that `mkcheck graph` printed, with the commands that it has by `-c`.

    A line behind one that ends in an odd number of backslashes is part of the same command.
    """
    head, *lines = text.split("\n")[:-1]
    graph = Graph(head.split(" ")[1:], text=text)
    open_ended = False
    for line in lines:
        if open_ended:
            graph.recipes[-1].lines[-1] += "\n" + line
        elif line.startswith("\t"):
            graph.recipes[-1].lines.append(line[1:])
        else:
            node = Node.of(line)
            graph.nodes[node.name] = node
            graph.recipes.extend([Recipe(node.name)] if node.recipe else [])
            continue
        open_ended = goes_on(line)
    return graph


def names_in(text: str) -> list[str]:
    """The names in the graph that `mkcheck graph` printed without commands."""
    return [Node.of(line).name for line in text.split("\n")[1:-1]]


def target_that_is_not_utf8(text: bytes) -> str:
    """The target whose commands in what `mkcheck graph -c` printed aren't UTF-8."""
    target = b""
    for line in text.split(b"\n"):
        try:
            line.decode("utf-8")
        except UnicodeDecodeError:
            break
        if not line.startswith(b"\t"):
            target = line.split(b" ")[0].split(b":")[0]
    return target.decode("utf-8", "replace")


def goes_on(line: str) -> bool:
    """Whether a line ends in a backslash that nothing escapes, so that the next one goes on with
    it."""
    return (len(line) - len(line.rstrip("\\"))) % 2 == 1
