"""Writes large makefiles, the same text each time for the same sizes."""

import argparse
import json
import sys
from collections.abc import Callable
from dataclasses import dataclass, field
from pathlib import Path

PREREQUISITES_A_LINE = 20


@dataclass(frozen=True)
class Generated:
    """A makefile, how many nodes and recipes its graph has, and the other files that it names, by
    their names."""

    text: str
    nodes: int
    recipes: int
    files: dict[str, str] = field(default_factory=dict)

    @property
    def size(self) -> int:
        """How many bytes of text are read."""
        return len(self.text) + sum(len(text) for text in self.files.values())

    def write(self, file: Path) -> None:
        """Writes the makefile to this file, and the other files beside it."""
        file.write_text(self.text)
        for name, text in self.files.items():
            (file.parent / name).parent.mkdir(exist_ok=True)
            (file.parent / name).write_text(text)


def recipe(name: str, prerequisites: list[str]) -> str:
    """The rule of a target with a command."""
    return f"{' '.join([f'{name}:', *prerequisites])}\n\ttouch {name}\n"


def gather(names: list[str]) -> str:
    """Rule lines that make all the names prerequisites of the first target, `all`."""
    starts = range(0, len(names), PREREQUISITES_A_LINE)
    lines = [names[start : start + PREREQUISITES_A_LINE] for start in starts]
    return "".join(f"all: {' '.join(line)}\n" for line in lines)


def flat(count: int) -> Generated:
    """One target with `count` prerequisites."""
    names = [f"f{number}" for number in range(1, count + 1)]
    text = gather(names) + "".join(recipe(name, []) for name in names)
    return Generated(text, nodes=count + 1, recipes=count)


def deep(count: int) -> Generated:
    """A chain of `count` targets, each the one prerequisite of that before it."""
    names = [f"f{number}" for number in range(1, count + 1)]
    chain = [recipe(name, [below]) for name, below in zip(names, names[1:])]
    return Generated("".join([*chain, recipe(names[-1], [])]), nodes=count, recipes=count)


def layered(layers: int, width: int) -> Generated:
    """Layers of `width` targets, each with three prerequisites in the next layer."""
    if width < 3:
        raise ValueError("a layer of less than three targets has no three prerequisites")

    def name(layer: int, column: int) -> str:
        return f"l{layer}n{column % width}"

    rules = []
    for layer in range(layers):
        # Two neighbours, and one that is further off from layer to layer.
        offsets = [0, 1, 2 + layer % (width - 2)] if layer + 1 < layers else []
        for column in range(width):
            below = [name(layer + 1, column + offset) for offset in offsets]
            rules.append(recipe(name(layer, column), below))
    top = gather([name(0, column) for column in range(width)])
    return Generated(top + "".join(rules), nodes=layers * width + 1, recipes=layers * width)


def long(count: int) -> Generated:
    """Targets on rule lines of 62 KB, each with 2,800 prerequisites that two macros lead."""
    names = [f"part{number % 20}/f{number}" for number in range(1, 2801)]
    words = " ".join(f"$(TOP)/$(PART{number % 20})/f{number}" for number in range(1, 2801))
    targets = [f"t{number}" for number in range(1, count + 1)]
    assignments = ["TOP = build\n", *(f"PART{part} = part{part}\n" for part in range(20))]
    rules = [recipe(target, [words]) for target in targets]
    leaves = [recipe(f"build/{name}", []) for name in names]
    text = "".join([*assignments, gather(targets), *rules, *leaves])
    return Generated(text, nodes=count + len(names) + 1, recipes=count + len(names))


def compiled(number: int, headers: list[str]) -> str:
    """The rule of an object, over many physical lines, as a compiler writes it."""
    chosen = [headers[(7 * number + column) % len(headers)] for column in range(100)]
    return recipe(f"x{number}.o", [f"x{number}.c", *(f"\\\n  {name}" for name in chosen)])


def includes(count: int) -> Generated:
    """Files of 3 KB, each included by the makefile, with the rule of an object and its 100 headers."""
    numbers = range(1, count + 1)
    headers = [f"include/module/header{number}.h" for number in range(min(400, 7 * count + 93))]
    files = {f"includes/x{number}.mk": compiled(number, headers) for number in numbers}
    leaves = [recipe(name, []) for name in [*headers, *(f"x{number}.c" for number in numbers)]]
    top = gather([f"x{number}.o" for number in numbers])
    text = "".join([top, *(f"include {name}\n" for name in files), *leaves])
    return Generated(
        text, nodes=2 * count + len(headers) + 1, recipes=2 * count + len(headers), files=files
    )


def chain(number: int) -> str:
    """Twenty macros: each of the first 19 stands in the value of the next one, and the last has a
    part of a name."""
    part = f"part{(number - 1) % 10}"
    first = f"NAMES_{number}_1 = {part}/f1.c\n"
    links = [
        f"NAMES_{number}_{link} = $(NAMES_{number}_{link - 1}) {part}/f{link}.c\n"
        for link in range(2, 20)
    ]
    return "".join([first, *links, f"LAST_{number} = {number}_19\n"])


def macros(count: int) -> Generated:
    """Targets with 20 macros each, which give its 19 prerequisites."""
    numbers = range(1, count + 1)
    rules = [recipe(f"t{number}", [f"$(NAMES_$(LAST_{number}):.c=.o)"]) for number in numbers]
    leaves = [
        recipe(f"part{part}/f{link}.o", [])
        for part in range(min(10, count))
        for link in range(1, 20)
    ]
    top = gather([f"t{number}" for number in numbers])
    text = "".join([top, *(chain(number) for number in numbers), *rules, *leaves])
    return Generated(text, nodes=count + len(leaves) + 1, recipes=count + len(leaves))


# The footprints of `infer`, which say what is there before the make.
BOOK = "infer/footprints.json"


def infer(count: int) -> Generated:
    """A program of `count` objects, each made by an inference rule, with ten headers; and
    footprints of its sources."""
    numbers = range(1, count + 1)
    objects = [f"infer/x{number}.o" for number in numbers]
    headers = [f"infer/h{number}.h" for number in range(min(80, 7 * count + 3))]
    needed = [
        [headers[(7 * number + column) % len(headers)] for column in range(10)]
        for number in numbers
    ]
    rules = [f"{name}: {' '.join(chosen)}\n" for name, chosen in zip(objects, needed)]
    inference = ".SUFFIXES:\n.SUFFIXES: .o .c\n.c.o:\n\ttouch $@\n"
    text = "".join([inference, recipe("infer/program", objects), *rules])
    sources = [*headers, *(f"infer/x{number}.c" for number in numbers)]
    book = json.dumps({"format": 1, "fixed": [], "sources": sources, "records": []})
    files = {**dict.fromkeys(sources, ""), BOOK: book}
    return Generated(text, nodes=2 * count + len(headers) + 1, recipes=count + 1, files=files)


# The footprints of `suffixes`, by which its objects are there.
SUFFIXES_BOOK = "suffixes/footprints.json"


def suffixes(count: int) -> Generated:
    """A program of `count` objects that are there, made by twice as many rules: half onto `.o`,
    half onto `.a`."""
    numbers = range(1, 2 * count + 1)
    names = [f".s{number}" for number in numbers]
    objects = [f"suffixes/x{number}.o" for number in range(1, count + 1)]
    starts = range(0, len(names), PREREQUISITES_A_LINE)
    lists = [
        f".SUFFIXES: {' '.join(names[start : start + PREREQUISITES_A_LINE])}\n" for start in starts
    ]
    inference = [".SUFFIXES:\n", *lists, ".SUFFIXES: .c .o .a\n.c.o:\n\ttouch $@\n"]
    endings = [".o" if number % 2 else ".a" for number in numbers]
    others = [f"{name}{ending}:\n\ttouch $@\n" for name, ending in zip(names, endings)]
    text = "".join([*inference, recipe("all", []), gather(objects), *others])
    book = json.dumps({"format": 1, "fixed": [], "sources": objects, "records": []})
    return Generated(
        text, nodes=count + 1, recipes=1, files={**dict.fromkeys(objects, ""), SUFFIXES_BOOK: book}
    )


# Each shape, and the sizes that it takes.
SHAPES: dict[Callable[..., Generated], tuple[str, ...]] = {
    flat: ("count",),
    deep: ("count",),
    layered: ("layers", "width"),
    long: ("count",),
    includes: ("count",),
    macros: ("count",),
    infer: ("count",),
    suffixes: ("count",),
}


def write(makefile: Generated, file: Path) -> None:
    """Writes the makefile, and beside it the other files that it needs."""
    file.write_text(makefile.text)
    for name, text in makefile.files.items():
        other = file.parent / name
        other.parent.mkdir(exist_ok=True)
        other.write_text(text)


def size(word: str) -> int:
    """A size on the command line."""
    number = int(word)
    if number < 1:
        raise ValueError("a size is at least 1")
    return number


def main() -> None:
    parser = argparse.ArgumentParser(description=__doc__)
    told = "write it to this file, the files that it needs beside it, and print its nodes, recipes and bytes"
    parser.add_argument("--into", type=Path, help=told)
    shapes = parser.add_subparsers(dest="shape", required=True)
    for shape, sizes in SHAPES.items():
        command = shapes.add_parser(shape.__name__, help=shape.__doc__)
        command.set_defaults(generate=shape)
        for name in sizes:
            command.add_argument(name, type=size)
    arguments = vars(parser.parse_args())
    generate, file = arguments.pop("generate"), arguments.pop("into")
    del arguments["shape"]
    try:
        makefile = generate(**arguments)
    except ValueError as problem:
        parser.error(str(problem))
    if file is None:
        sys.stdout.write(makefile.text)
    else:
        write(makefile, file)
        print(makefile.nodes, makefile.recipes, makefile.size)


if __name__ == "__main__":
    main()
