"""Random builds for `repair`: a build as it truly is, and a makefile that says too little of it."""

from __future__ import annotations

import json
from random import Random

from book import RecordValue
from footprints import Memory, format_one, format_two
from graph import Rules, There, goal_names
from lines import Refused
from makefiles import Project, WithoutFolders, included, shuffled_blocks, written
from reading import read_makefile
from request import Request, Usage

ODD_HEADERS = [
    "a%b.h",
    "q:y.h",
    "p(q).h",
    "é/ü.h",
    ".WAIT",
    ".PHONY",
    "-",
    "../up.h",
    "x=y",
    ".c.o",
]
# How a makefile may end, which decides what becomes of lines that are appended.
ENDS = [b"", b"", b"# end", b"# end \\", b"V = x \\", b"V = x \\\n", b"\\", b"\t", b" \t", b"#\\\\"]


class Recipe:
    """A recipe as it truly is: what it reads and writes, and what its rule names."""

    def __init__(self, target: str, reads: list[str], writes: list[str]) -> None:
        self.target = target
        self.reads = reads
        self.writes = writes
        self.named = list(reads)
        self.inferred = False


class Truth:
    """A build in the making: its sources and its recipes, each behind those that it needs.

    `wrong` is how often it has one thing more that no line mends.
    """

    def __init__(self, rng: Random, wrong: float) -> None:
        self.rng = rng
        self.wrong = wrong
        self.sources: list[str] = []
        self.recipes: list[Recipe] = []
        self.loose: list[tuple[str, list[str]]] = []
        self.fixed = ["/usr/"] if rng.random() < 0.2 else []
        self.goals: list[bytes] = []
        self.share = rng.choice([0.0, 0.0, 0.1, 0.4])

    def chance(self, share: float) -> bool:
        return self.rng.random() < share

    def some(self, names: list[str], most: int) -> list[str]:
        return self.rng.sample(names, min(len(names), self.rng.randint(0, most)))

    def source(self, name: str) -> str:
        if name not in self.sources:
            self.sources.append(name)
        return name

    def made(self) -> list[str]:
        """The files that recipes write."""
        return [file for recipe in self.recipes for file in recipe.writes]

    def writer(self, file: str) -> str | None:
        return next((one.target for one in self.recipes if file in one.writes), None)

    def add(self, target: str, reads: list[str], writes: list[str]) -> Recipe:
        recipe = Recipe(target, list(dict.fromkeys(reads)), writes)
        self.recipes.append(recipe)
        return recipe


def headers(truth: Truth) -> list[str]:
    """The names of sources that many recipes read."""
    count = truth.rng.randint(1, 4)
    names = ["h%d.h" % number for number in range(count)]
    if truth.chance(0.12):
        names.append(truth.rng.choice(ODD_HEADERS))
    if truth.chance(0.06):
        names += ["%s%d.h" % ("h" * truth.rng.choice([300, 995, 1995, 2001]), n) for n in range(9)]
    return [truth.source(name) for name in names]


def generators(truth: Truth) -> None:
    """Recipes that write headers, some of them beside their targets."""
    for number in range(truth.rng.choice([0, 1, 1, 2])):
        target = "g%d.h" % number
        writes = [target]
        if truth.chance(0.4):
            writes.append(truth.rng.choice(["side%d.h", "y%d.tab.c", "d/s%d", "g%d.o.d"]) % number)
        reads = [truth.source("g%d.in" % number)] if truth.chance(0.8) else []
        truth.add(target, reads + truth.some(truth.made(), 1), writes)


def compilations(truth: Truth, shared: list[str]) -> None:
    for number in range(truth.rng.randint(1, 5)):
        source = truth.source("o%d.c" % number)
        reads = [source] + truth.some(shared, 10) + truth.some(truth.made(), 2)
        if truth.chance(0.15) and truth.fixed:
            reads.append("/usr/k.h")
        recipe = truth.add("o%d.o" % number, reads, ["o%d.o" % number])
        recipe.inferred = truth.chance(0.15)


def programs(truth: Truth) -> None:
    for number in range(truth.rng.choice([0, 1, 1, 2])):
        target = "p%d" % number
        writes = [target] + (["p%d.map" % number] if truth.chance(0.2) else [])
        truth.add(target, truth.some(truth.made(), 5), writes)


def trials(truth: Truth) -> None:
    """Recipes that write no file of their name."""
    for number in range(truth.rng.choice([0, 0, 1, 1, 2])):
        writes = ["log%d" % number] if truth.chance(0.2) else []
        truth.add("try%d" % number, truth.some(truth.made() + truth.sources, 4), writes)


def uncovered(truth: Truth) -> None:
    """A chain of sources whose rules lead to recipes that nothing else needs: each round of a
    repair finds the next one."""
    before = truth.rng.choice(truth.recipes)
    for number in range(truth.rng.choice([1, 1, 2, 3, 8])):
        source, target = "u%d.c" % number, "v%d" % number
        before.reads.append(truth.source(source))
        truth.loose.append((source, [target]))
        before = truth.add(target, [], truth.rng.choice([[target], [target], [], [target, source]]))


def wronged(truth: Truth) -> None:
    """One thing that nothing mends, or that needs more than the name of a file."""
    rng = truth.rng
    one, other = rng.choice(truth.recipes), rng.choice(truth.recipes)
    kind = rng.randrange(11)
    if kind == 0 and other.writes:
        one.writes.append(rng.choice(other.writes))
    elif kind == 1 and other.writes:
        one.reads.append(rng.choice(other.writes))
    elif kind == 2:
        one.reads.append(rng.choice(["nowhere", "makefile", "/usr/x.h", *one.writes]))
    elif kind == 3:
        one.writes.append(rng.choice(["makefile", "gone.d", *truth.sources]))
    elif kind == 4:
        one.writes.append(rng.choice(["other", "o0.s", "h0.h", "side0.h", ".hid"]))
    elif kind == 5 and other.target not in one.named:
        one.named.append(other.target)
    elif kind == 6:
        truth.loose.append((rng.choice(truth.sources), [one.target]))
    elif kind == 7:
        side = rng.choice(["s.h", "t.h", "o9.c"])
        one.writes.append(side)
        other.reads.append(side)
        truth.loose.append((side, []))
    elif kind == 8:
        truth.loose.append((".PHONY", [rng.choice([one.target, "x"])]))
    else:
        # Each of two needs what the other one makes, of which the makefile names one half or none.
        one.reads += other.writes[:1]
        other.reads += one.writes[:1]


def name_of(truth: Truth, file: str) -> str:
    """What a rule names so that the file is made: the file, or the target of its recipe."""
    writer = truth.writer(file)
    if writer is None or writer == file or truth.chance(0.5):
        return writer or file
    truth.loose.append((file, [writer] if truth.chance(0.4) else []))
    return file


def named(truth: Truth) -> None:
    """What the rules name: less than is read."""
    share = truth.rng.choice([0.0, 0.5, 0.7, 0.8, 0.9])
    for recipe in truth.recipes:
        recipe.named = [
            name_of(truth, file)
            for file in recipe.named
            if truth.chance(0.02 if file in ODD_HEADERS or file.startswith("/") else share)
        ]
        if truth.chance(0.04) and truth.recipes:
            recipe.named.append(truth.rng.choice(truth.recipes).target)
        for file in recipe.writes[1:]:
            if truth.chance(0.4):
                truth.loose.append((file, [recipe.target] if truth.chance(0.3) else []))


COMMANDS = ["do $@", "do $(@F) $*", "cc -c $<", "ld -o $@ $^", "ld $+", "x $(X)"]


def command(truth: Truth) -> str:
    """A command; one that has `$^` is another one where a prerequisite is added."""
    if truth.chance(truth.wrong / 20):
        return "ar r $@ $?"
    return truth.rng.choice(COMMANDS) if truth.chance(truth.share) else "do"


def gathering(truth: Truth, names: list[str]) -> list[str]:
    """The words of a target that gathers others, some of them behind `.WAIT`."""
    out = []
    share = truth.rng.choice([0.0, 0.0, 0.3, 1.0])
    for name in names:
        if truth.chance(share):
            out.append(".WAIT")
        out.append(name)
    return out


def text_of(truth: Truth, project: Project) -> None:
    """The rules of the makefile."""
    rng = truth.rng
    targets = [recipe.target for recipe in truth.recipes]
    share = 0.6 if truth.chance(0.1) else 1.0
    top = [name for name in targets if truth.chance(share)] or targets[-1:]
    if truth.chance(0.3):
        rng.shuffle(top)
    heads = [("all", gathering(truth, top))]
    if truth.chance(0.2):
        heads.append(("sub", gathering(truth, truth.some(targets, 3))))
        heads[0][1].insert(rng.randint(0, len(heads[0][1])), "sub")
    rules: list[tuple[str, list[str], str | None]]
    rules = [(name, words, None) for name, words in heads]
    for recipe in truth.recipes:
        words = gathering(truth, recipe.named) if truth.chance(0.2) else recipe.named
        rules.append((recipe.target, words, None if recipe.inferred else command(truth)))
    rules += [(name, words, None) for name, words in truth.loose]
    if truth.chance(0.5):
        rng.shuffle(rules)
    for name, words, text in rules:
        line = "%s: %s" % (name, " ".join(words))
        project.add(line.rstrip(" ").encode())
        if text is not None:
            project.add(b"\t" + text.encode())
    if truth.chance(0.1):
        project.lines.insert(0, b".NOTPARALLEL:")
    tried = [name for name in targets if name.startswith("try") and truth.chance(0.4)]
    tried += [rng.choice(targets)] if truth.chance(0.05) else []
    tried += ["all"] if truth.chance(0.4) else []
    if tried:
        project.add(b".PHONY: " + " ".join(tried).encode())
    if truth.chance(0.1):
        project.add(b".SUFFIXES: " + rng.choice([b".c .o", b".o .s .c", b".in .h", b".h .c"]))
        project.add(rng.choice([b".in.h:", b".s.o:", b".c.o:", b".o:", b".c.h:"]))
        project.add(b"\tinfer $< $@")
    if truth.chance(0.05):
        project.add(b"-include gone.d")
    project.targets = [b"all"] * 20 + [name.encode() for name in targets]


def ended(truth: Truth, project: Project) -> Project:
    """The text of the makefile, with one of the ends that makefiles have."""
    blocks = shuffled_blocks(project)
    if truth.chance(0.3):
        included(project, blocks)
    text = written(project, blocks)
    if truth.chance(0.2):
        text = text.rstrip(b"\n") if truth.chance(0.3) else text
        text += truth.rng.choice(ENDS)
    project.files[b"makefile"] = text
    return project


def truth_of(rng: Random, wrong: float) -> Truth:
    truth = Truth(rng, wrong)
    shared = headers(truth)
    for makes in (generators, lambda one: compilations(one, shared), programs, trials):
        if rng.random() < 0.9 or makes is trials and not truth.recipes:
            makes(truth)
    if not truth.recipes:
        truth.add("a", shared[:1], ["a"])
    named(truth)
    if truth.chance(0.15):
        uncovered(truth)
    while truth.chance(wrong):
        wronged(truth)
    return truth


def commands_of(project: WithoutFolders, words: list[str], truth: Truth) -> dict[str, list[bytes]]:
    """The commands that the makefile gives each target, as the second program reads it; and the
    goals."""
    request = Request(list(words))
    makefile = read_makefile(
        Memory(project.files),
        request.values.get("f"),
        "r" not in request.flags,
        request.operands,
    )
    rules = Rules(makefile)
    there = There(
        [name.encode() for name in truth.sources],
        [front.encode() for front in truth.fixed],
        makefile.texts,
    )
    truth.goals = goal_names(rules, request.goals)
    told = {}
    for recipe in truth.recipes:
        node = rules.node(recipe.target.encode(), there)
        told[recipe.target] = rules.expanded(node, there).texts
    return told


def book_of(truth: Truth, project: WithoutFolders, words: list[str]) -> bytes:
    """The bytes of the footprints."""
    try:
        commands = commands_of(project, words, truth)
    except (Refused, Usage):
        commands = {}
    records: list[RecordValue] = [
        {
            "target": recipe.target,
            "commands": [
                text.decode("utf-8", "replace") for text in commands.get(recipe.target, [])
            ]
            + ["old"] * truth.chance(truth.wrong / 20),
            "reads": list(dict.fromkeys(recipe.reads)),
            "writes": list(dict.fromkeys(recipe.writes)),
        }
        for recipe in truth.recipes
        if not truth.chance(truth.wrong / 20)
    ]
    truth.rng.shuffle(records)
    make = format_two if truth.chance(0.3) else format_one
    return json.dumps(make(truth, records), ensure_ascii=False).encode("utf-8")


def lacking(rng: Random, wrong: float = 0.2) -> tuple[Truth, Project]:
    """A build, and its makefile as a project."""
    truth = truth_of(rng, wrong)
    project = Project(rng)
    text_of(truth, project)
    project.names = [name.encode() for name in truth.sources]
    return truth, ended(truth, project)
