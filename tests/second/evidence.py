"""Plans that show a finding, for `check -e N`: those that the second program writes, and a
judge of those that mkcheck writes, since a race can be shown by more than one."""

from __future__ import annotations

from collections.abc import Container

from book import Book
from graph import Graph
from judge import Subject, turns
from lines import Refused
from reading import Files
from request import Answer, Request, prepared
from world import Fault, PlanLine, World, read_plan, take


class Written:
    """Steps that are taken in a world, and written down as lines of a plan."""

    def __init__(self, graph: Graph, book: Book) -> None:
        self.world = World(graph, book)
        self.lines: list[bytes] = []

    def step(self, word: bytes, *names: bytes, number: int | None = None) -> None:
        """Takes the steps of one line, and writes it down."""
        line = PlanLine(word, list(names), number)
        take(self.world, line)
        self.lines.append(line.text())

    def run(self, name: bytes) -> None:
        """A recipe from its begin to its end, each step a line."""
        world = self.world
        self.step(b"begin", name)
        seen = {file: world.content(file) for file in world.reads[name]}
        known = world.outcomes.get(world.seen_of(name, seen))
        for file in world.reads[name]:
            self.step(b"look", name, file)
        for place, file in enumerate(world.writes[name]):
            content = known[place] if known is not None else world.clock + 1
            self.step(b"put", name, file, number=content)
        self.step(b"done", name)

    def make(self, passed: Container[bytes]) -> None:
        """A make with one job of all goals, in serial order, which passes these recipes."""
        self.step(b"make", number=1)
        for node in self.world.graph.serial:
            if node.recipe and node.name in passed:
                self.step(b"pass", node.name)
            elif node.recipe:
                self.run(node.name)
        self.step(b"end")

    def text(self) -> bytes:
        return b"".join(line + b"\n" for line in self.lines)


def carried_from(subject: Subject, recipe: bytes) -> list[bytes]:
    """A recipe, and those that it reaches by carrying."""
    met: list[bytes] = []
    waiting = [recipe]
    while waiting:
        name = waiting.pop()
        if name not in met:
            met.append(name)
            waiting.extend(subject.carried(name))
    return met


def stale_plan(subject: Subject, book: Book, recipe: bytes, file: bytes) -> bytes:
    """All is made, the file is edited if it may be, and all is made again without the recipe."""
    plan = Written(subject.graph, book)
    plan.make([])
    if subject.there.is_editable(file):
        plan.step(b"edit", file, number=plan.world.clock + 1)
    plan.make(carried_from(subject, recipe))
    return plan.text()


def race_plan(subject: Subject, book: Book, recipe: bytes, writer: bytes) -> bytes:
    """What can be made without the writer is made, and the recipe begins."""
    plan = Written(subject.graph, book)
    plan.step(b"make", number=1)
    while True:
        plan.world.pass_without_recipe()
        ready = [
            name
            for name in turns(plan.world.graph, plan.world.goals, plan.world.done)
            if name != writer
        ]
        if recipe in ready:
            plan.step(b"begin", recipe)
            return plan.text()
        plan.run(ready[0])


def plan_of_finding(subject: Subject, book: Book, number: int) -> bytes:
    """The plan of the finding of this number, counted from 1, or that it has none."""
    found = subject.findings()
    words = found[number - 1] if number <= len(found) else [b""]
    if words[0] == b"stale":
        return stale_plan(subject, book, words[1], words[2])
    if words[0] == b"race":
        return race_plan(subject, book, words[1], words[2])
    return b"no plan\n"


def shows_race(data: bytes, subject: Subject, book: Book, recipe: bytes, writer: bytes) -> bool:
    """Whether a plan is allowed, and begins the recipe last while the writer isn't done."""
    world = World(subject.graph, book)
    try:
        plan = [line for _number, line in read_plan(data)]
        for line in plan[:-1]:
            take(world, line)
        shown = bool(plan) and plan[-1] == PlanLine(b"begin", [recipe])
        take(world, plan[-1] if plan else PlanLine(b"end", []))
        return shown and writer not in world.done
    except (Fault, Refused):
        return False


def shows(first: Answer, second: Answer, words: list[str], files: Files) -> bool:
    """Whether what mkcheck printed for a race shows it, where the second program's plan is another
    one."""
    request = Request(list(words))
    if "e" not in request.values or first[1] != 1 or second[1] != 1:
        return False
    graph, book, passed_over = prepared(request, files)
    subject = Subject(graph, book, passed_over)
    found = subject.findings()
    number = request.finding
    if number > len(found) or found[number - 1][0] != b"race":
        return False
    return shows_race(first[0], subject, book, *found[number - 1][1:3])
