"""Inference rules, goals, the graph of what they reach, and the commands of its nodes."""

from __future__ import annotations

from collections.abc import Callable, Container, Iterable, Iterator
from typing import NamedTuple

from lines import Refused, Unplaced, place, tested_name
from macros import Locals
from reading import SPECIAL, Command, Makefile, Rule

NODE_LIMIT = 4096


class Node:
    """A name that the goals reach."""

    def __init__(self, name: bytes, groups: list[list[bytes]], recipe: bool, phony: bool) -> None:
        self.name = name
        self.groups = groups
        self.recipe = recipe
        self.phony = phony
        self.prerequisites = [one for group in groups for one in group]


class There:
    """What counts as there, and as given, besides the targets of the makefile."""

    def __init__(
        self,
        sources: Iterable[bytes] = (),
        fixed: Iterable[bytes] = (),
        texts: Iterable[bytes] = (),
        any_leaf: bool = False,
        more: Iterable[bytes] = (),
    ) -> None:
        self.sources = set(sources)
        self.fixed = list(fixed)
        self.texts = set(texts)
        self.any_leaf = any_leaf
        self.more = set(more)

    def with_more(self, more: Iterable[bytes]) -> There:
        """The same, where these names count as there, too, but not as given."""
        return There(self.sources, self.fixed, self.texts, self.any_leaf, more)

    def is_fixed(self, name: bytes) -> bool:
        return any(name.startswith(front) for front in self.fixed)

    def is_given(self, name: bytes) -> bool:
        return name in self.sources or name in self.texts or self.is_fixed(name)

    def is_editable(self, name: bytes) -> bool:
        return name in self.sources and name not in self.texts


class Choice(NamedTuple):
    """An inference rule, by the suffixes of its target, and the prerequisite that it takes."""

    suffixes: bytes
    made_from: bytes


class Expanded(NamedTuple):
    """The commands of a node, and whether they vary from make to make."""

    texts: list[bytes]
    varies: bool


class Rules:
    """What the rule lines say of names, once all is read."""

    def __init__(self, makefile: Makefile) -> None:
        self.makefile = makefile
        self.suffixes = makefile.suffixes
        self.phony = set(makefile.phony)
        self.known = set(makefile.suffixes)
        self.targets: set[bytes] = set()
        self.words: dict[bytes, list[bytes]] = {}
        self.commands: dict[bytes, list[Command]] = {}
        for rule in makefile.rules:
            self.take(rule)

    def needing(self, name: bytes, target: bytes | None = None) -> bytes | None:
        """The place of the first rule line, of the target if there is one, that has the name as a
        prerequisite."""
        for rule in self.makefile.rules:
            if name in rule.words and (target is None or target in rule.targets):
                return rule.where
        return None

    def take(self, rule: Rule) -> None:
        for target in dict.fromkeys(rule.targets):
            inference = self.is_inference(target)
            if rule.default and not inference:
                continue
            if not inference:
                self.targets.add(target)
                self.words.setdefault(target, []).extend(rule.words)
            if rule.commands is not None:
                self.commands[target] = rule.commands

    def is_inference(self, name: bytes) -> bool:
        """Whether a name is a known suffix, or two in a row; a special target is none."""
        if SPECIAL.match(name):
            return False
        return name in self.known or any(
            name.endswith(suffix) and name[: -len(suffix)] in self.known for suffix in self.known
        )

    def own_commands(self, name: bytes) -> list[Command] | None:
        """The commands of a target by its rule lines, or None without any."""
        return self.commands.get(name) if name in self.targets else None

    def cut(self, name: bytes) -> tuple[bytes, bytes]:
        """The name without its known suffix, and this suffix; the name and nothing without one."""
        for suffix in self.known:
            if name.endswith(suffix) and len(name) > len(suffix):
                return name[: -len(suffix)], suffix
        return name, b""

    def choice(self, name: bytes, there: There, more: Container[bytes] = ()) -> Choice | None:
        """The suffix whose inference rule makes the name, and the prerequisite; or None."""
        if self.own_commands(name) is not None or name in self.phony or there.is_fixed(name):
            return None
        rest, ending = self.cut(name)
        for suffix in self.suffixes:
            made_from = rest + suffix
            is_there = (
                made_from in there.sources
                or made_from in there.texts
                or made_from in self.targets
                or made_from in there.more
                or made_from in more
            )
            if suffix + ending in self.commands and is_there:
                return Choice(suffix + ending, made_from)
        return None

    def groups(self, name: bytes, chosen: Choice | None) -> list[list[bytes]]:
        """The groups of prerequisites, the inferred one first."""
        groups: list[list[bytes]] = [[]]
        for word in self.words.get(name, []):
            if word == b".WAIT":
                groups.append([])
            elif self.makefile.not_parallel:
                groups.append([word])
            else:
                groups[-1].append(word)
        groups = [group for group in groups if group]
        if chosen is None:
            return groups
        if not groups or self.makefile.not_parallel:
            return [[chosen.made_from]] + groups
        return [[chosen.made_from] + groups[0]] + groups[1:]

    def node(self, name: bytes, there: There) -> Node:
        chosen = self.choice(name, there)
        lines = self.commands[chosen.suffixes] if chosen else self.own_commands(name)
        return Node(name, self.groups(name, chosen), bool(lines), name in self.phony)

    def expanded(self, node: Node, there: There) -> Expanded:
        """The commands of a node, and whether they vary from make to make."""
        chosen = self.choice(node.name, there)
        lines = self.commands[chosen.suffixes] if chosen else self.own_commands(node.name)
        local = Locals(node.name, self.cut(node.name)[0], node.prerequisites)
        texts = []
        varies = False
        for where, text in lines or []:
            try:
                expanded, varying = self.makefile.macros.expand(text, local)
            except Unplaced as fault:
                raise fault.at(where)
            texts.append(expanded)
            varies = varies or varying
        return Expanded(texts, varies)


def goal_names(rules: Rules, given: list[bytes]) -> list[bytes]:
    """45, then the goals: those given, each once, or the first target that may be one."""
    for rule in rules.makefile.rules:
        inference = any(rules.is_inference(target) for target in rule.targets)
        if inference and any(word != b".WAIT" for word in rule.words):
            raise Refused(45, where=rule.where)
    for number, goal in enumerate(given, 1):
        where = place(b"goal", number)
        tested_name(goal, where, "GoalIsMember", "BadGoal")
        if goal in (b".WAIT", b"-"):
            raise Refused(27, where=where, name="BadGoal")
    if given:
        return list(dict.fromkeys(given))
    for rule in rules.makefile.rules:
        for target in rule.targets:
            if target in rules.targets and not rule.default:
                return [target]
    raise Refused(44)


class Graph:
    """The nodes that the goals reach, by name, in the order in which a walk meets them."""

    def __init__(self, rules: Rules, goals: list[bytes], there: There) -> None:
        self.rules = rules
        self.goals = goals
        self.there = there
        self.nodes: dict[bytes, Node] = {}
        self.meet_all()
        self.serial = self.serial_order()

    def meet_all(self) -> None:
        waiting = list(reversed(self.goals))
        while waiting:
            name = waiting.pop()
            if name in self.nodes:
                continue
            if len(self.nodes) == NODE_LIMIT:
                raise Refused(43)
            node = self.rules.node(name, self.there)
            made = (
                name in self.rules.targets
                or node.phony
                or self.rules.choice(name, self.there) is not None
            )
            if not made and not self.there.any_leaf and not self.there.is_given(name):
                raise Refused(41, name, near=self.rules.needing(name))
            self.nodes[name] = node
            waiting.extend(reversed(node.prerequisites))

    def serial_order(self) -> list[Node]:
        """Depth first, left to right, each node after its prerequisites; or 42."""
        done: dict[bytes, bool] = {}
        path: list[bytes] = []
        on_path: set[bytes] = set()
        for goal in self.goals:
            stack: list[tuple[bytes, Iterator[bytes] | None]] = [(goal, None)]
            while stack:
                name, rest = stack.pop()
                if rest is None:
                    if name in done:
                        continue
                    if name in on_path:
                        cycle = path[path.index(name) :]
                        near = self.rules.needing(name, cycle[-1])
                        raise Refused(42, *cycle, name, near=near)
                    path.append(name)
                    on_path.add(name)
                    rest = iter(self.nodes[name].prerequisites)
                following = next(rest, None)
                if following is None:
                    done[name] = True
                    on_path.remove(path.pop())
                else:
                    stack.append((name, rest))
                    stack.append((following, None))
        return [self.nodes[name] for name in done]

    def recipes(self) -> list[Node]:
        return [node for node in self.serial if node.recipe]

    def text(self, commands: bool) -> bytes:
        """What `graph` prints."""
        lines = [b" ".join([b"goals"] + self.goals)]
        for node in self.serial:
            head = node.name + b" recipe" * node.recipe + b" phony" * node.phony + b":"
            listed = b" .WAIT ".join(b" ".join(group) for group in node.groups)
            lines.append(head + (b" " + listed if listed else b""))
            for text in self.rules.expanded(node, self.there).texts if commands else []:
                lines.append(b"\t" + text)
        return b"".join(line + b"\n" for line in lines)


def cycle_from(
    goals: Iterable[bytes], needs: Callable[[bytes], Iterable[bytes]]
) -> list[bytes]:
    """The names of the first cycle that a walk from the goals closes, the first one repeated; empty
    where there is none."""
    done: set[bytes] = set()
    path: list[bytes] = []
    waiting = [iter(goals)]
    while waiting:
        name = next(waiting[-1], None)
        if name is None:
            waiting.pop()
            if path:
                done.add(path.pop())
        elif name in path:
            return [*path[path.index(name) :], name]
        elif name not in done:
            path.append(name)
            waiting.append(iter(needs(name)))
    return []


def cycle_with(graph: Graph, steps: Iterable[tuple[bytes, bytes]]) -> list[bytes]:
    """The same of the graph, where the first name of each step has the second one as a
    prerequisite, too, if both are nodes."""
    nodes = graph.nodes
    needed = {name: list(node.prerequisites) for name, node in nodes.items()}
    for target, prerequisite in steps:
        if target in nodes and prerequisite in nodes:
            needed[target].append(prerequisite)
    return cycle_from(graph.goals, needed.__getitem__)
