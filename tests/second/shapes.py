"""Random makefiles of three narrower shapes: macros, orders by `.WAIT`, and inference."""

from __future__ import annotations

from random import Random

from makefiles import (
    LEAVES,
    SUFFIXES,
    Project,
    commands,
    included,
    prerequisites,
    shuffled_blocks,
    written,
)
from texts import blanks, expression, macro_line


def jungle(rng: Random) -> Project:
    """Macros that are made of one another, and a rule whose command shows them."""
    project = Project(rng)
    names = [b"A", b"B", b"C", b"AB", b"a.b", b"_", b"x-y"]
    rng.shuffle(names)
    project.add(b"N = B")
    project.add(b"I ::= " + rng.choice([b"y", b"@", b"^", b"<", b"A", b"B B"]))
    wild = project.chance(0.2)
    for number in range(rng.randint(1, 8)):
        left = rng.choice(names)
        if project.chance(0.05):
            left = rng.choice([b"A$(N)", b"$(N)", b"$(NONE)B", b" _ ", expression(rng, 1, True)])
        text = expression(rng, 2, safe=not wild or project.chance(0.7))
        if not wild:
            text = text.replace(left, names[number % 3] if left != names[number % 3] else b"no")
        project.add(macro_line(rng, left, None, text))
    shown = b" ".join(
        b"[" + expression(rng, 2, safe=not wild or project.chance(0.6)) + b"]"
        for _ in range(rng.randint(1, 4))
    )
    words = expression(rng, 1, safe=True) if project.chance(0.1) else b"y.c d/z"
    target = expression(rng, 1, safe=True) if project.chance(0.05) else b"t.o"
    project.add(target + b":" + blanks(rng) + words)
    project.add(b"\t" + shown)
    if project.chance(0.3):
        project.add(macro_line(rng, rng.choice(names), None, expression(rng, 1, safe=True)))
    project.targets = [b"t.o"]
    project.names = [b"t.o", b"y.c", b"d/z"]
    blocks = shuffled_blocks(project)
    included(project, blocks)
    project.files[b"makefile"] = written(project, blocks)
    return project


def ended(project: Project) -> Project:
    blocks = shuffled_blocks(project)
    included(project, blocks)
    project.files[b"makefile"] = written(project, blocks)
    return project


def orders(rng: Random) -> Project:
    """Small recipes, of which much is phony and much is ordered by `.WAIT` alone."""
    project = Project(rng)
    project.crossing = True
    pool = [b"a", b"b", b"c", b"d", b"e", b"f", b"g"][: rng.randint(3, 7)]
    if rng.random() < 0.04:
        pool = [b"n%d" % number for number in range(rng.randint(8, 40))]
    head = [b"all", b"x", b"y"][: rng.randint(1, 3)]
    project.names = head + pool
    project.targets = head + pool
    phony = [name for name in project.names if rng.random() < 0.3]
    if rng.random() < 0.15:
        project.add(b".NOTPARALLEL:")
    if phony:
        project.add(b".PHONY: " + b" ".join(phony))
    for place, name in enumerate(project.names):
        later = project.names[place + 1 :]
        count = rng.choice([1, 2, 3, 4]) if name in head else rng.choice([0, 0, 1, 1, 2, 3])
        chosen = []
        for one in [rng.choice(later) for _ in range(count if later else 0)]:
            chosen += [b".WAIT"] * (rng.random() < 0.4) + [one]
        project.add(name + b": " + b" ".join(chosen))
        if name not in head or rng.random() < 0.4:
            project.add(b"\tdo " + name)
    if rng.random() < 0.3:
        one, other = rng.sample(project.names, 2)
        if project.names.index(one) < project.names.index(other):
            project.add(one + b": .WAIT " + other)
    return ended(project)


def inferences(rng: Random) -> Project:
    """Many inference rules, over names of few stems."""
    project = Project(rng)
    project.inferring = True
    stems = rng.sample([b"x", b"y", b"d/x", b"x.tar", b".q"], rng.randint(1, 3))
    endings = [b".o", b".c", b".y", b".sh", b".x", b""]
    project.names = [stem + ending for stem in stems for ending in endings]
    rng.shuffle(project.names)
    order = rng.sample(SUFFIXES, rng.randint(1, 5))
    if rng.random() < 0.5:
        project.add(b".SUFFIXES:")
    project.add(b".SUFFIXES: " + b" ".join(order))
    for _ in range(rng.randint(1, 6)):
        first, second = rng.choice(SUFFIXES), rng.choice(SUFFIXES + [b"", b""])
        if first != second and first + second not in project.made:
            commands(
                project,
                first + second + b":" + b" .WAIT" * (rng.random() < 0.02),
                [first + second],
                0.93,
            )
    wanted = rng.sample(project.names, rng.randint(1, min(5, len(project.names))))
    project.add(b"all: " + b" ".join(wanted))
    project.targets = [b"all"] + wanted
    for name in wanted:
        if rng.random() < 0.4:
            commands(project, name + b": " + b" ".join(prerequisites(project, LEAVES)), [name], 0.3)
    if rng.random() < 0.3:
        project.add(b".PHONY: " + rng.choice(project.names))
    if rng.random() < 0.15:
        project.add(b".NOTPARALLEL:")
    return ended(project)
