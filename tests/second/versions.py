"""Two versions of a build for `since`: the second one is the first with some edits."""

from __future__ import annotations

import copy
import json
from collections.abc import Callable
from random import Random

from makefiles import FOLDER, Contents

# Folders for what the old build was made from, as they are given.
FOLDERS = ["old", "old/", ".mkcheck/built", "o//d"]


class Recipe:
    """A recipe: its command, what it reads and writes, and its prerequisites."""

    def __init__(self, command: str, reads: list[str], writes: list[str]) -> None:
        self.command = command
        self.reads = reads
        self.writes = writes
        self.prerequisites: list[str] = []
        self.phony = False


class Version:
    """A build: its sources, its recipes by their targets, and its goals."""

    def __init__(self) -> None:
        self.sources: list[str] = []
        self.recipes: dict[str, Recipe] = {}
        self.goals: list[str] = []
        self.fixed: list[str] = []
        self.waits = False

    def writer(self, file: str) -> str | None:
        """The target of the recipe that writes a file."""
        return next((t for t, one in self.recipes.items() if file in one.writes), None)

    def needed(self, file: str) -> str:
        """What a recipe names that reads a file."""
        return file if file in self.recipes else self.writer(file) or file

    def makefile(self) -> bytes:
        """The text of the makefile."""
        lines = ["all: " + (" .WAIT " if self.waits else " ").join(self.goals)]
        phony = [target for target, one in self.recipes.items() if one.phony]
        lines += [".PHONY: " + " ".join(["all", "force", *phony]), "force:"]
        for target, one in self.recipes.items():
            lines += [f"{target}: " + " ".join(one.prerequisites), "\t" + one.command]
        return ("\n".join(lines) + "\n").encode()

    def book(self) -> bytes:
        """The text of the footprint file."""
        records = [
            {"target": target, "commands": [one.command], "reads": one.reads, "writes": one.writes}
            for target, one in self.recipes.items()
        ]
        value = {
            "format": 1,
            "fixed": self.fixed,
            "sources": self.sources,
            "records": records,
        }
        return json.dumps(value).encode()


def version(rng: Random) -> Version:
    """A build whose recipes mostly name what they read."""
    made = Version()
    made.sources = [f"s{n}" for n in range(rng.randint(2, 4))]
    made.fixed = ["/usr/"] if rng.random() < 0.2 else []
    for number in range(rng.randint(2, 5)):
        target = f"t{number}"
        lower = made.sources + [file for one in made.recipes.values() for file in one.writes]
        reads = rng.sample(lower, min(len(lower), rng.randint(1, 3)))
        writes = [target] + ([f"x{number}"] if rng.random() < 0.3 else [])
        if made.fixed and rng.random() < 0.3:
            reads.append("/usr/k.h")
        recipe = Recipe(f"make {target}", reads, writes)
        names = [made.needed(file) for file in reads if rng.random() < 0.95]
        recipe.prerequisites = list(dict.fromkeys(names))
        recipe.phony = rng.random() < 0.05
        if recipe.phony and rng.random() < 0.8:
            recipe.writes.remove(target)
        made.recipes[target] = recipe
    made.goals = list(made.recipes)[-1:] + rng.sample(list(made.recipes), 1)
    made.goals = list(dict.fromkeys(made.goals))
    if rng.random() < 0.4:
        made.goals = rng.sample(list(made.recipes), len(made.recipes))
    return made


def some(rng: Random, made: Version) -> tuple[str, Recipe]:
    """One of the recipes."""
    return rng.choice(list(made.recipes.items()))


def lower_files(made: Version, target: str) -> list[str]:
    """The sources, and what recipes before this one write."""
    files = list(made.sources)
    for other, one in made.recipes.items():
        if other == target:
            break
        files += one.writes
    return files


def other_command(rng: Random, made: Version) -> None:
    """A recipe has other commands."""
    some(rng, made)[1].command += rng.choice([" -O", " -g", ""])


def new_source(rng: Random, made: Version) -> None:
    """A recipe reads one source more."""
    name = rng.choice(["n0", "n1"])
    if name not in made.sources:
        made.sources.append(name)
    _, recipe = some(rng, made)
    if name not in recipe.reads:
        recipe.reads.append(name)
        recipe.prerequisites.append(name)


def dropped_source(rng: Random, made: Version) -> None:
    """A source is gone, and nobody reads it any more."""
    if len(made.sources) > 1:
        name = made.sources.pop(rng.randrange(len(made.sources)))
        for one in made.recipes.values():
            one.reads = [file for file in one.reads if file != name]
            one.prerequisites = [file for file in one.prerequisites if file != name]


def renamed_output(rng: Random, made: Version) -> None:
    """A recipe's other output has another name, comes or goes."""
    target, recipe = some(rng, made)
    others = [file for file in recipe.writes if file != target]
    name = rng.choice(["x", "y"]) + target[1:]
    for file in others:
        recipe.writes.remove(file)
    if name not in others or rng.random() < 0.5:
        recipe.writes.append(name)
    if rng.random() < 0.3:
        recipe.writes.reverse()
    if rng.random() < 0.5:
        recipe.command += " " + name
    for one in made.recipes.values():
        one.reads = [name if file in others else file for file in one.reads]


def other_prerequisite(rng: Random, made: Version) -> None:
    """A recipe names one prerequisite more, or one less."""
    target, recipe = some(rng, made)
    if recipe.prerequisites and rng.random() < 0.5:
        recipe.prerequisites.pop(rng.randrange(len(recipe.prerequisites)))
        return
    name = made.needed(rng.choice(lower_files(made, target)))
    if name not in recipe.prerequisites and name != target:
        recipe.prerequisites.append(name)


def other_read(rng: Random, made: Version) -> None:
    """A recipe reads another file, which it names."""
    target, recipe = some(rng, made)
    file = rng.choice(lower_files(made, target))
    if file not in recipe.reads and file not in recipe.writes:
        recipe.reads.append(file)
        recipe.prerequisites.append(made.needed(file))


def new_recipe(rng: Random, made: Version) -> None:
    """One recipe more, often a goal."""
    target = f"t{len(made.recipes) + rng.randint(0, 1)}"
    if target in made.recipes:
        return
    source = rng.choice(made.sources) if made.sources else None
    recipe = Recipe(f"make {target}", [source] if source else [], [target])
    recipe.prerequisites = list(recipe.reads)
    made.recipes[target] = recipe
    if rng.random() < 0.8:
        made.goals.append(target)


def to_source(rng: Random, made: Version) -> None:
    """What a recipe wrote is a source now."""
    target, recipe = some(rng, made)
    if len(made.recipes) > 1:
        del made.recipes[target]
        made.sources += recipe.writes


def to_recipe(rng: Random, made: Version) -> None:
    """A source is written by a recipe now."""
    if len(made.sources) > 1:
        name = made.sources.pop(rng.randrange(len(made.sources)))
        recipe = Recipe(f"make {name}", [made.sources[0]], [name])
        recipe.prerequisites = list(recipe.reads)
        made.recipes = {name: recipe, **made.recipes}


def phony(rng: Random, made: Version) -> None:
    """A recipe is made in every make now, or no more."""
    recipe = some(rng, made)[1]
    recipe.phony = not recipe.phony


def forced(rng: Random, made: Version) -> None:
    """A recipe is made in every make now, by a prerequisite, or no more."""
    recipe = some(rng, made)[1]
    if "force" in recipe.prerequisites:
        recipe.prerequisites.remove("force")
    else:
        recipe.prerequisites.append("force")


def other_goals(rng: Random, made: Version) -> None:
    """Other goals."""
    made.goals = rng.sample(list(made.recipes), rng.randint(1, len(made.recipes)))


EDITS: list[Callable[[Random, Version], None]] = [
    other_command,
    new_source,
    dropped_source,
    renamed_output,
    other_prerequisite,
    other_read,
    new_recipe,
    to_source,
    to_recipe,
    phony,
    forced,
    other_goals,
]


def changed(rng: Random, made: Version) -> Version:
    """The version after some edits."""
    later = copy.deepcopy(made)
    for _ in range(rng.choice([0, 1, 1, 1, 2, 3])):
        rng.choice(EDITS)(rng, later)
    later.goals = [goal for goal in later.goals if goal in later.recipes]
    later.goals = list(dict.fromkeys(later.goals)) or list(later.recipes)[-1:]
    return later


def two_writers(_rng: Random, made: Version) -> None:
    """The last recipe writes what the first one writes."""
    first, last = list(made.recipes.values())[0], list(made.recipes.values())[-1]
    last.writes += [file for file in first.writes if file not in last.writes]


def own_read(rng: Random, made: Version) -> None:
    """A recipe reads what it writes."""
    recipe = some(rng, made)[1]
    recipe.reads += [file for file in recipe.writes if file not in recipe.reads]


def unknown_read(rng: Random, made: Version) -> None:
    """A recipe reads what nobody makes."""
    some(rng, made)[1].reads.append("note")


def lacking(rng: Random, made: Version) -> Version:
    """The version with fewer prerequisites: mostly it has races and stale reads, and at times
    another finding too."""
    less = copy.deepcopy(made)
    kept = rng.choice([0.5, 0.8, 0.9])
    for recipe in less.recipes.values():
        recipe.prerequisites = [name for name in recipe.prerequisites if rng.random() < kept]
    if rng.random() < 0.8:
        less.goals = rng.sample(list(less.recipes), len(less.recipes))
    if rng.random() < 0.2:
        forced(rng, less)
    less.waits = rng.random() < 0.2
    if rng.random() < 0.15:
        rng.choice([two_writers, own_read, unknown_read])(rng, less)
    return less


def old_words(rng: Random, made: Version) -> bytes | None:
    """What `words` of the old build holds, or None where there is no such file."""
    draw = rng.random()
    if draw < 0.6:
        return None
    words = rng.sample(list(made.recipes), 1) if draw < 0.9 else ["X=1", "all"]
    if draw > 0.95:
        words = rng.choice([["x(y)"], ["A+=1"], ["\udcff"], ["none"], ["", "", "all", ""]])
    end = rng.choice(["\n", ""])
    return ("\n".join(words) + end).encode("utf-8", "surrogateescape")


def spoiled(rng: Random, files: dict[bytes, Contents]) -> None:
    """A file missing, a folder in its place, or with a line that is refused."""
    name = rng.choice(sorted(files))
    draw = rng.randrange(4)
    data = files[name]
    if draw == 0:
        del files[name]
    elif draw == 1:
        files[name] = FOLDER
    elif data is not FOLDER:
        files[name] = data + rng.choice([b"x y\n", b"include no.mk\n", b"\x00\n", b"t:\n\ta $(\n"])


def keep_options(rng: Random, old: dict[bytes, Contents], name: bytes) -> None:
    """Keeps the old build's options, at times with another makefile, or with damage."""
    kept = name
    if rng.random() < 0.5:
        kept = rng.choice([b"old.mk", b"lib/old.mk", b"old.mk", b"./old.mk", b"-", b"-f"])
        old[kept.removeprefix(b"./")] = old.pop(name)
    lines = [b"-f", kept] if kept != b"makefile" or rng.random() < 0.3 else []
    lines += [b"-r"] * rng.choice([0, 0, 1])
    if rng.random() < 0.2:
        damage = rng.choice([b"", b"-f", b"-r", b"-x", b"\xff"])
        lines.insert(rng.randrange(len(lines) + 1), damage)
    if lines and rng.random() < 0.1:
        lines.pop(rng.randrange(len(lines)))
    old[b"options"] = b"\n".join([*lines, *([b""] if rng.random() < 0.9 else [])])


def put_below(folder: str, files: dict[bytes, Contents]) -> dict[bytes, Contents]:
    """The files, in a folder."""
    front = folder.rstrip("/").replace("//", "/").encode() + b"/"
    return {front + name: data for name, data in files.items()}


def two_versions(rng: Random, name: bytes) -> tuple[str, dict[bytes, Contents], Version]:
    """A folder with the old build, all files, and the new build. The makefile has this name."""
    first = version(rng)
    second = changed(rng, first)
    if rng.random() < 0.6:
        first = lacking(rng, first)
    old: dict[bytes, Contents] = {name: first.makefile(), b"footprint.json": first.book()}
    words = old_words(rng, first)
    if words is not None:
        old[b"words"] = words
    if rng.random() < 0.4:
        keep_options(rng, old, name)
    if rng.random() < 0.06:
        spoiled(rng, old)
    folder = rng.choice(FOLDERS)
    new: dict[bytes, Contents] = {name: second.makefile(), b"B": second.book()}
    if rng.random() < 0.03:
        spoiled(rng, new)
    return folder, {**put_below(folder, old), **new}, second
