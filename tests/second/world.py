"""Worlds of files in which makes, recipes and edits take steps, and plans of them."""

from __future__ import annotations

import re
from typing import NamedTuple

from book import Book
from graph import Graph
from judge import turns
from lines import Refused, number_of, words

CLOCK_LIMIT = 2**64 - 1
PLAN_LIMIT = 65536
JOB_LIMIT = 4096
NUMBER = re.compile(rb"[0-9]+\Z")


class Fault(Exception):
    """A step that isn't allowed, by its number."""


def need(holds: object, number: int) -> None:
    if not holds:
        raise Fault(number)


class State(NamedTuple):
    """What a file holds, as a number, and when it was written."""

    content: int
    stamp: int


# What some files hold, in their order; None for a file that isn't there.
Held = tuple[int | None, ...]
# A recipe, and what it saw in the files that it reads.
Seen = tuple[bytes, Held]


class Running:
    """What a running recipe has seen and put in this run."""

    def __init__(self) -> None:
        self.seen: dict[bytes, int | None] = {}
        self.put: dict[bytes, int | None] = {}


class World:
    def __init__(self, graph: Graph, book: Book) -> None:
        self.graph = graph
        self.there = graph.there
        self.reads: dict[bytes, list[bytes]] = {}
        self.writes: dict[bytes, list[bytes]] = {}
        names = set(graph.nodes) | set(book.sources)
        for node in graph.recipes():
            record = book.records.get(node.name)
            self.reads[node.name] = record.reads if record else []
            self.writes[node.name] = record.writes if record else []
            names.update(self.reads[node.name], self.writes[node.name])
        self.names = names
        given = sorted(name for name in names if self.there.is_given(name))
        self.files = {name: State(number, number) for number, name in enumerate(given, 1)}
        self.clock = len(given)
        self.outcomes: dict[Seen, Held] = {}
        self.making = False
        self.jobs = 0
        self.goals: list[bytes] = []
        self.done: set[bytes] = set()
        self.running: dict[bytes, Running] = {}
        self.broken: set[bytes] = set()

    # What holds.

    def ready(self) -> list[bytes]:
        return [
            name
            for name in turns(self.graph, self.goals, self.done)
            if name not in self.running and name not in self.broken
        ]

    def must_run(self, name: bytes) -> bool:
        node = self.graph.nodes[name]
        if node.phony or name not in self.files:
            return True
        stamp = self.files[name].stamp
        return any(
            self.graph.nodes[one].phony or one in self.files and self.files[one].stamp > stamp
            for one in node.prerequisites
        )

    def content(self, file: bytes) -> int | None:
        return self.files[file].content if file in self.files else None

    def seen_of(self, name: bytes, seen: dict[bytes, int | None]) -> Seen:
        return name, tuple(seen[file] for file in self.reads[name])

    def write(self, file: bytes, content: int | None) -> None:
        need(self.clock < CLOCK_LIMIT, 59)
        self.clock += 1
        self.files[file] = State(self.clock if content is None else content, self.clock)

    def is_running(self, name: bytes) -> None:
        need(self.making, 61)
        need(name in self.running, 66)

    # The steps.

    def edit(self, file: bytes, content: int | None) -> None:
        need(not self.making, 62)
        need(self.there.is_editable(file), 70)
        self.write(file, content)

    def make(self, jobs: int, goals: list[bytes]) -> None:
        need(not self.making, 62)
        need(jobs >= 1, 64)
        need(goals and all(goal in self.graph.goals for goal in goals), 77)
        self.making = True
        self.jobs = jobs
        self.goals = goals
        self.done = set()
        self.running = {}
        self.broken = set()

    def begin(self, name: bytes) -> None:
        need(self.making, 61)
        need(name in self.ready() and self.graph.nodes[name].recipe, 63)
        need(len(self.running) < self.jobs, 64)
        self.running[name] = Running()

    def look(self, name: bytes, file: bytes) -> None:
        self.is_running(name)
        need(file in self.reads[name], 67)
        self.running[name].seen[file] = self.content(file)

    def put(self, name: bytes, file: bytes, content: int | None) -> None:
        self.is_running(name)
        need(file in self.writes[name], 67)
        self.write(file, content)
        self.running[name].put[file] = self.content(file)

    def end_recipe(self, name: bytes) -> None:
        self.is_running(name)
        run = self.running[name]
        need(all(file in run.seen for file in self.reads[name]), 68)
        need(all(file in run.put for file in self.writes[name]), 68)
        outcome = tuple(run.put[file] for file in self.writes[name])
        known = self.outcomes.get(self.seen_of(name, run.seen), outcome)
        need(known == outcome, 60)
        self.outcomes[self.seen_of(name, run.seen)] = outcome
        del self.running[name]
        self.done.add(name)

    def break_off(self, name: bytes, removed: bool) -> None:
        self.is_running(name)
        if removed:
            need(name in self.writes[name], 78)
            self.files.pop(name, None)
        else:
            need(self.must_run(name), 78)
        del self.running[name]
        self.broken.add(name)

    def pass_by(self, name: bytes) -> None:
        need(self.making, 61)
        need(name in self.ready(), 63)
        need(not self.graph.nodes[name].recipe or not self.must_run(name), 65)
        self.done.add(name)

    def stop(self) -> None:
        need(self.making, 61)
        need(not self.running, 68)
        self.making = False

    def end_make(self) -> None:
        need(self.making, 61)
        need(not self.running and all(goal in self.done for goal in self.goals), 68)
        self.making = False

    # What a plan's line does by several steps.

    def pass_without_recipe(self) -> None:
        while self.making:
            ready = [name for name in self.ready() if not self.graph.nodes[name].recipe]
            if not ready:
                return
            self.pass_by(ready[0])

    def finish(self, name: bytes) -> None:
        self.is_running(name)
        seen = {file: self.content(file) for file in self.reads[name]}
        known = self.outcomes.get(self.seen_of(name, seen))
        for file in self.reads[name]:
            self.look(name, file)
        for place_of, file in enumerate(self.writes[name]):
            self.put(name, file, known[place_of] if known else None)
        self.end_recipe(name)

    def listing(self) -> bytes:
        return b"".join(b"%s %d %d\n" % (name, *self.files[name]) for name in sorted(self.files))


# Plans.


class PlanLine(NamedTuple):
    """A line of a plan: its word, its names, its number of jobs or the content that it puts, and
    whether it removes the target of a recipe that breaks off."""

    word: bytes
    names: list[bytes]
    number: int | None = None
    removes: bool = False

    def text(self) -> bytes:
        """The line as a plan has it."""
        number = [] if self.number is None else [b"%d" % self.number]
        told = number + self.names if self.word == b"make" else self.names + number
        return b" ".join([self.word] + told + [b"removed"] * self.removes)


# The lines of a plan, each with its number.
Plan = list[tuple[int, PlanLine]]

SHAPES = {
    b"stop": (0, 0),
    b"end": (0, 0),
    b"begin": (1, 1),
    b"look": (2, 2),
    b"put": (2, 3),
    b"done": (1, 1),
    b"break": (1, 2),
    b"finish": (1, 1),
    b"run": (1, 1),
    b"pass": (1, 1),
    b"edit": (1, 2),
}


def told_number(word: bytes) -> int:
    number = number_of(word, CLOCK_LIMIT) if NUMBER.match(word) else None
    if number is None:
        raise ValueError
    return number


def plan_line(told: list[bytes]) -> PlanLine:
    """The line of these words; ValueError where it is malformed."""
    for word in told:
        word.decode("utf-8")
    if told[0] == b"make":
        if len(told) < 2 or not 1 <= told_number(told[1]) <= JOB_LIMIT:
            raise ValueError
        return PlanLine(told[0], told[2:], told_number(told[1]))
    least, most = SHAPES.get(told[0], (1, 0))
    if not least <= len(told) - 1 <= most:
        raise ValueError
    if told[0] in (b"put", b"edit"):
        content = told_number(told[-1]) if len(told) - 1 == most else None
        return PlanLine(told[0], told[1:most], content)
    if told[0] == b"break":
        if told[2:] not in ([], [b"removed"]):
            raise ValueError
        return PlanLine(told[0], told[1:2], removes=len(told) == 3)
    return PlanLine(told[0], told[1:])


def read_plan(data: bytes) -> Plan:
    """The lines of a plan with their numbers, or 69."""
    lines = data.split(b"\n")
    if lines[-1] == b"":
        lines.pop()
    plan: Plan = []
    for number, line in enumerate(lines, 1):
        told = words(line)
        try:
            if number > PLAN_LIMIT:
                raise ValueError
            if told and not told[0].startswith(b"#"):
                plan.append((number, plan_line(told)))
        except ValueError:
            raise Refused(69, b"line", str(number).encode(), name="BadPlanLine")
    return plan


def known_names(world: World, line: PlanLine) -> None:
    """69 where a name of the line is no target, or no file of the build."""
    nodes, files = line.names[:1], line.names[1:]
    if line.word == b"make":
        nodes, files = line.names, []
    elif line.word == b"edit":
        nodes, files = [], line.names
    need(all(name in world.graph.nodes for name in nodes), 69)
    need(all(name in world.names for name in files), 69)


def take(world: World, line: PlanLine) -> None:
    """The steps of one line."""
    known_names(world, line)
    word, names, number, removes = line
    if word in (b"begin", b"run", b"pass", b"end"):
        world.pass_without_recipe()
    if word == b"make":
        assert number is not None
        world.make(number, names or world.graph.goals)
    elif word == b"run":
        world.begin(names[0])
        world.finish(names[0])
    elif word == b"look":
        world.look(names[0], names[1])
    elif word == b"put":
        world.put(names[0], names[1], number)
    elif word == b"edit":
        world.edit(names[0], number)
    elif word == b"break":
        world.break_off(names[0], removes)
    elif word in (b"stop", b"end"):
        {b"stop": world.stop, b"end": world.end_make}[word]()
    else:
        {
            b"begin": world.begin,
            b"done": world.end_recipe,
            b"finish": world.finish,
            b"pass": world.pass_by,
        }[word](names[0])


class Run(NamedTuple):
    """The run of a plan: what its lines print, the fault of the line that is refused with the number
    of that line, and the files that are left then."""

    printed: bytes
    refused: Refused | None = None
    line: int = 0
    left: bytes = b""


def run_plan(world: World, plan: Plan) -> Run:
    """The run of a plan in a world."""
    printed = b""
    for number, line in plan:
        try:
            take(world, line)
        except Fault as fault:
            refused = Refused(fault.args[0], b"line", b"%d" % number)
            return Run(printed, refused, number, world.listing())
        if line.word == b"end":
            printed += world.listing()
    return Run(printed)
