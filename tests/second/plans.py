"""Random plans: walks of the second program's own world, and lines that go wrong."""

from __future__ import annotations

from random import Random

from book import Book
from graph import Graph
from lines import Refused
from world import Fault, PlanLine, World, read_plan, take

WRONG = [
    b"make",
    b"make 0",
    b"make 4097",
    b"make x",
    b"make 1 nowhere",
    b"make -1",
    b"begin",
    b"begin nowhere",
    b"look",
    b"put",
    b"end x",
    b"stop x",
    b"done",
    b"edit",
    b"edit nowhere",
    b"run a b",
    b"pass",
    b"jump",
    b"END",
    b"put a b c",
    b"make +1",
    b"make 1.0",
    b"edit a 18446744073709551616",
    b"finish nowhere",
    b"run \xff",
    b"make 18446744073709551616",
    b"look nowhere nowhere",
    b"pass nowhere",
    b"edit a x",
    b"\x0bend",
    b"begin #x",
    b"# \xff",
    b"\xc2\xa0",
    b"make 1 #",
    b"put a a -1",
    b"begin ./a",
    b"end\r",
    b"break",
    b"break nowhere",
    b"break nowhere removed",
    b"break a b",
    b"break a removed b",
]


def copied(world: World) -> World:
    """A world that takes steps without the first one's taking them."""
    twin = World.__new__(World)
    twin.__dict__.update(world.__dict__)
    twin.files = dict(world.files)
    twin.outcomes = dict(world.outcomes)
    twin.done = set(world.done)
    twin.broken = set(world.broken)
    twin.running = {}
    for name, run in world.running.items():
        twin.running[name] = type(run)()
        twin.running[name].seen = dict(run.seen)
        twin.running[name].put = dict(run.put)
    return twin


def line_of(rng: Random, world: World) -> PlanLine:
    """The words of a line that may be allowed now."""
    if not world.making:
        editable = sorted(name for name in world.names if world.there.is_editable(name))
        if editable and rng.random() < 0.4:
            file = rng.choice(editable)
            content = rng.choice([1, 2, 7, 2**64 - 1]) if rng.random() < 0.3 else None
            return PlanLine(b"edit", [file], content)
        goals = list(world.graph.goals)
        chosen = rng.sample(goals, rng.randint(1, len(goals))) if rng.random() < 0.3 else []
        return PlanLine(b"make", chosen, rng.choice([1, 1, 2, 2, 3, 4096]))
    world = copied(world)
    world.pass_without_recipe()
    goals_done = all(goal in world.done for goal in world.goals)
    if not world.running and (goals_done or rng.random() < 0.03):
        ending = goals_done and rng.random() < 0.95
        return PlanLine(b"end" if ending else b"stop", [])
    ready = [name for name in world.ready() if world.graph.nodes[name].recipe]
    if ready and (not world.running or len(world.running) < world.jobs and rng.random() < 0.5):
        return begin_line(rng, world, rng.choice(ready))
    if not world.running:
        return PlanLine(b"end", [])
    return running_line(rng, world, rng.choice(sorted(world.running)))


def begin_line(rng: Random, world: World, name: bytes) -> PlanLine:
    if not world.must_run(name) and rng.random() < 0.75:
        return PlanLine(b"pass", [name])
    return PlanLine(rng.choice([b"run", b"run", b"begin"]), [name])


def running_line(rng: Random, world: World, name: bytes) -> PlanLine:
    run = world.running[name]
    unseen = [file for file in world.reads[name] if file not in run.seen]
    unput = [file for file in world.writes[name] if file not in run.put]
    draw = rng.random()
    if rng.random() < 0.05:
        return PlanLine(b"break", [name], removes=rng.random() < 0.5)
    if not unseen and not unput and draw < 0.9:
        return PlanLine(b"done", [name])
    if draw < 0.15:
        return PlanLine(b"finish", [name])
    if unseen and (not unput or draw < 0.6):
        return PlanLine(b"look", [name, rng.choice(unseen)])
    if unput:
        file = rng.choice(unput)
        content = rng.choice([1, 2, 7]) if rng.random() < 0.25 else None
        return PlanLine(b"put", [name, file], content)
    return PlanLine(b"finish", [name])


def tempting(rng: Random, world: World) -> bytes:
    """A line that is nearly allowed: a pass of what must run, one job too many, an early end, a
    break of what needn't run."""
    twin = copied(world)
    twin.pass_without_recipe()
    ready = [name for name in twin.ready() if world.graph.nodes[name].recipe]
    lines = [b"done " + name for name in sorted(world.running)]
    lines += [b"break " + name + rng.choice([b"", b" removed"]) for name in sorted(world.running)]
    lines += [b"pass " + name for name in ready]
    if len(world.running) >= world.jobs:
        lines += [b"begin " + name for name in ready] * 2
    return rng.choice(lines or [b"end"])


def wrong_line(rng: Random, world: World) -> bytes:
    """A line that is often refused."""
    if rng.random() < 0.25:
        return rng.choice(WRONG)
    names = sorted(world.graph.nodes)
    files = sorted(world.names)
    fitting = [b"edit", b"make", b"make"]
    if world.making:
        fitting = [b"begin", b"pass", b"run", b"end", b"stop"]
    if world.running:
        fitting = [b"look", b"put", b"done", b"break", b"finish", b"begin", b"end", b"stop"]
    if rng.random() < 0.25:
        fitting = [
            b"begin",
            b"look",
            b"put",
            b"done",
            b"break",
            b"finish",
            b"run",
            b"pass",
            b"end",
            b"stop",
            b"edit",
            b"make",
        ]
    word = rng.choice(fitting)
    line = [word]
    if word == b"make":
        line += [b"1"] + [rng.choice(names) for _ in range(rng.randint(0, 2))]
    elif word == b"edit":
        line.append(rng.choice(files))
    elif word in (b"look", b"put"):
        node = rng.choice(sorted(world.running) or names)
        line += [node, rng.choice(files)]
        if word == b"put" and rng.random() < 0.5:
            line.append(b"5")
    elif word not in (b"end", b"stop"):
        twin = copied(world)
        twin.pass_without_recipe()
        of_running = word in (b"done", b"break", b"finish")
        likely = sorted(world.running) if of_running else twin.ready()
        line.append(rng.choice(likely if likely and rng.random() < 0.7 else names))
        if word == b"break" and rng.random() < 0.4:
            line.append(b"removed")
    return b" ".join(line)


def spelled(rng: Random, line: PlanLine) -> bytes:
    text = line.text()
    if rng.random() < 0.03:
        text = text.replace(b" ", rng.choice([b"  ", b"\t", b" \t "]))
    if rng.random() < 0.02:
        text = rng.choice([b" ", b"\t"]) + text + rng.choice([b"", b" "])
    if rng.random() < 0.02 and line.word == b"make":
        text = text.replace(b"make ", b"make 00")
    return text


def refused(world: World, text: bytes) -> bool:
    """Whether a line is refused; where it isn't, the world takes its steps."""
    try:
        for _number, line in read_plan(text):
            take(world, line)
    except (Fault, Refused):
        return True
    return False


def plan_of(rng: Random, graph: Graph, book: Book) -> bytes:
    """The bytes of a plan."""
    world = World(graph, book)
    out: list[bytes] = []
    wrong = rng.random() < 0.5
    for _ in range(rng.choice([2, 5, 10, 20, 30])):
        if rng.random() < 0.06:
            out.append(rng.choice([b"", b"# note", b" \t", b"  # x", b"#\xff"]))
        if wrong and rng.random() < 0.12:
            out.append((wrong_line if rng.random() < 0.5 else tempting)(rng, world))
            if refused(world, out[-1]) and rng.random() < 0.9:
                break
            continue
        line = line_of(rng, world)
        twin = copied(world)
        try:
            take(twin, line)
        except Fault:
            continue
        out.append(spelled(rng, line))
        world = twin
    text = b"\n".join(out)
    return text + rng.choice([b"\n", b"\n", b"\n", b"", b"\n\n"])
