"""What stands against a build, the ways of a yes, and the check of a certificate."""

from __future__ import annotations

from collections.abc import Container

from book import Book, Way, certificate_text, read_certificate
from graph import Graph, Node
from lines import Refused

# A finding in its printed words, without the first one, `no`.
Finding = list[bytes]


class Subject:
    """A graph with what was recorded of its recipes, and their commands."""

    def __init__(self, graph: Graph, book: Book, passed_over: Container[bytes]) -> None:
        self.graph = graph
        self.rules = graph.rules
        self.there = graph.there
        self.passed_over = passed_over
        self.records = book.records
        self.commands = {
            node.name: graph.rules.expanded(node, graph.there) for node in graph.serial
        }
        self.recipes = [node.name for node in graph.recipes()]
        self.writers: dict[bytes, list[bytes]] = {}
        for recipe in self.recipes:
            for file in self.writes(recipe):
                self.writers.setdefault(file, []).append(recipe)

    def reads(self, recipe: bytes) -> list[bytes]:
        return self.records[recipe].reads if recipe in self.records else []

    def writes(self, recipe: bytes) -> list[bytes]:
        return self.records[recipe].writes if recipe in self.records else []

    def node(self, name: bytes) -> Node:
        return self.graph.nodes[name]

    def counts(self) -> bytes:
        return b"yes %d recipes %d reads" % (
            len(self.recipes),
            sum(len(self.reads(recipe)) for recipe in self.recipes),
        )

    # Findings, each as its printed words, in the order in which they are told.

    def static_findings(self) -> list[Finding]:
        found: list[Finding] = []
        for told in (
            self.no_record,
            self.other_commands,
            self.varying,
            self.no_target,
            self.two_writers,
            self.given,
            self.own,
            self.unknown,
            self.loose,
            self.selection,
        ):
            found.extend(told())
        return found

    def no_record(self) -> list[Finding]:
        return [[b"record", recipe] for recipe in self.recipes if recipe not in self.records]

    def other_commands(self) -> list[Finding]:
        return [
            [b"commands", recipe]
            for recipe in self.recipes
            if recipe in self.records
            and not self.commands[recipe].varies
            and self.records[recipe].commands != self.commands[recipe].texts
        ]

    def varying(self) -> list[Finding]:
        return [[b"varying", recipe] for recipe in self.recipes if self.commands[recipe].varies]

    def no_target(self) -> list[Finding]:
        return [
            [b"target", recipe]
            for recipe in self.recipes
            if recipe in self.records
            and not self.node(recipe).phony
            and recipe not in self.writes(recipe)
        ]

    def two_writers(self) -> list[Finding]:
        return [
            [b"writers", first, second, file]
            for place, first in enumerate(self.recipes)
            for file in self.writes(first)
            for second in self.recipes[place + 1 :]
            if file in self.writes(second)
        ]

    def given(self) -> list[Finding]:
        return [
            [b"given", recipe, file]
            for recipe in self.recipes
            for file in self.writes(recipe)
            if self.there.is_given(file) or file in self.rules.phony or file in self.passed_over
        ]

    def own(self) -> list[Finding]:
        return [
            [b"own", recipe, file]
            for recipe in self.recipes
            for file in self.reads(recipe)
            if file in self.writes(recipe)
        ]

    def unknown(self) -> list[Finding]:
        return [
            [b"unknown", recipe, file]
            for recipe in self.recipes
            for file in self.reads(recipe)
            if not self.there.is_given(file) and file not in self.writers
        ]

    def loose(self) -> list[Finding]:
        return [
            [b"loose", node.name, recipe]
            for node in self.graph.serial
            if not node.recipe
            for recipe in self.writers.get(node.name, [])
            if recipe not in node.prerequisites
        ]

    def selection(self) -> list[Finding]:
        found = []
        for node in self.graph.serial:
            now = self.rules.choice(node.name, self.there)
            then = self.rules.choice(node.name, self.there, self.writers)
            if now != then:
                assert then is not None
                found.append([b"selection", node.name, then.made_from])
        return found

    def races(self) -> list[Finding]:
        return [
            [b"race", recipe, writer, file]
            for recipe in self.recipes
            for file in self.reads(recipe)
            for writer in self.writers.get(file, [])
            if writer != recipe and not is_before(self.graph, writer, recipe)
        ]

    def stale(self) -> list[Finding]:
        return [
            [b"stale", recipe, file]
            for recipe, file in self.pairs()
            if self.way(recipe, file) is None
        ]

    def findings(self) -> list[Finding]:
        found = self.static_findings()
        return found if found else self.races() + self.stale()

    def hidden(self, found: list[Finding], phony: list[bytes]) -> list[Finding]:
        """The races, and the stale reads of files that the recipe doesn't write, that can be seen
        beside these other findings, but for those that mending these may settle. The lines that
        mend these make some targets phony."""
        unsettled = {
            finding[1] if finding[0] == b"loose" else finding[-1]
            for finding in found
            if finding[0]
            in (b"record", b"target", b"given", b"own", b"unknown", b"writers", b"loose")
        }
        stale = [
            finding
            for finding in self.stale()
            if finding[2] not in self.writes(finding[1]) and finding[1] not in phony
        ]
        return [finding for finding in self.races() + stale if finding[-1] not in unsettled]

    # Ways.

    def needs_way(self, file: bytes) -> bool:
        return self.there.is_editable(file) or not self.there.is_given(file)

    def pairs(self) -> list[tuple[bytes, bytes]]:
        """Each read of a file that can change."""
        return [
            (recipe, file)
            for recipe in self.recipes
            for file in self.reads(recipe)
            if self.needs_way(file)
        ]

    def carried(self, recipe: bytes) -> list[bytes]:
        """The recipes that write a direct prerequisite of a recipe."""
        return list(
            dict.fromkeys(
                writer
                for name in self.node(recipe).prerequisites
                for writer in self.writers.get(name, [])
            )
        )

    def ends(self, path: list[bytes], file: bytes) -> list[bytes]:
        """What the last recipe of a path has to do with the file."""
        last = self.node(path[-1])
        told = []
        if len(path) > 1 and file in self.writes(last.name):
            told.append(b"written")
        if self.there.is_editable(file) and file in last.prerequisites:
            told.append(b"source")
        if last.phony or any(self.node(name).phony for name in last.prerequisites):
            told.append(b"always")
        return told

    def way(self, recipe: bytes, file: bytes) -> Way | None:
        """The shortest way, the first of these by the order of direct prerequisites, or None."""
        paths = [[recipe]]
        seen = {recipe}
        while paths:
            longer: list[list[bytes]] = []
            for path in paths:
                ends = self.ends(path, file)
                if ends:
                    return Way(recipe, file, path, ends[0])
                for writer in self.carried(path[-1]):
                    if writer not in seen:
                        seen.add(writer)
                        longer.append(path + [writer])
            paths = longer
        return None

    def ways(self) -> list[Way]:
        """The way of each pair, which has one where there is no stale read."""
        found = []
        for recipe, file in self.pairs():
            way = self.way(recipe, file)
            assert way is not None
            found.append(way)
        return found

    def certificate(self) -> bytes:
        return certificate_text(self.graph.goals, self.ways())

    # A certificate, entry by entry.

    def is_way(self, way: Way) -> bool:
        path = way.path
        if not path or path[0] != way.recipe:
            return False
        if any(name not in self.recipes for name in path):
            return False
        for name, following in zip(path, path[1:]):
            if following not in self.carried(name):
                return False
        return way.end in self.ends(path, way.file)

    def verify(self, data: bytes) -> None:
        goals, ways = read_certificate(data)
        if goals != self.graph.goals:
            raise Refused(73)
        found = self.static_findings() or self.races()
        if found:
            raise Refused(76, *found[0])
        pairs = set(self.pairs())
        with_entry = set()
        for way in ways:
            pair = (way.recipe, way.file)
            if pair not in pairs or pair in with_entry or not self.is_way(way):
                raise Refused(75, *pair)
            with_entry.add(pair)
        for pair in self.pairs():
            if pair not in with_entry:
                raise Refused(74, *pair)


def wanted(graph: Graph, goals: list[bytes], done: set[bytes]) -> set[bytes]:
    """The names to which a path leads from a goal, at each step into a group whose
    earlier groups are all done."""
    met: set[bytes] = set()
    waiting = list(goals)
    while waiting:
        name = waiting.pop()
        if name in met:
            continue
        met.add(name)
        for group in graph.nodes[name].groups:
            waiting.extend(group)
            if not all(one in done for one in group):
                break
    return met


def turns(graph: Graph, goals: list[bytes], done: set[bytes]) -> list[bytes]:
    """The names, not done, whose turn may come once these are done, in serial order."""
    met = wanted(graph, goals, done)
    return [
        node.name
        for node in graph.serial
        if node.name in met
        and node.name not in done
        and all(name in done for name in node.prerequisites)
    ]


def is_before(graph: Graph, first: bytes, second: bytes) -> bool:
    """Whether the first is done in every make whenever the turn of the second may come:
    make all that can be made without the first, and see whether the second is among it."""
    done: set[bytes] = set()
    while True:
        coming = [name for name in turns(graph, graph.goals, done) if name != first]
        if not coming:
            return second not in done
        done.update(coming)
