"""What dyndep files say: inputs and outputs of build lines that ninja learns while it builds.

Ninja loads such a file before it runs a line that names it. So after a build, when the files are
there, it is as if all had stood in the manifest.
"""

from __future__ import annotations

from collections.abc import Callable
from dataclasses import dataclass, field

from mkcheck_tools.imports.ninja_files import Edge, Manifest, canonical
from mkcheck_tools.imports.ninja_text import NinjaFault, Reader


@dataclass
class Addition:
    """What a dyndep file says of one build line."""

    outputs: list[str] = field(default_factory=list)
    inputs: list[str] = field(default_factory=list)
    restat: bool = False


def add_dyndeps(manifest: Manifest, real: Callable[[str], str]) -> None:
    """Adds to the lines of a manifest what their dyndep files say, and marks these lines.

    `real` gives the place of a file after a build. A line whose file isn't there, since the goals
    don't reach it, stays as it is. Raises `NinjaFault` where ninja refuses a file.
    """
    named = manifest.names - set(manifest.maker)
    read: dict[str, dict[str, Addition]] = {}
    for edge in manifest.edges:
        path = edge.value("dyndep", escape=str)
        if not path:
            continue
        if path not in read:
            try:
                with open(real(path), "rb") as file:
                    text = file.read().decode("utf-8", "surrogateescape")
            except FileNotFoundError:
                continue
            read[path] = read_dyndeps(path, text)
        addition = read[path].get(edge.outputs[0])
        if addition is None:
            raise NinjaFault(path, 1, f"{edge.outputs[0]} isn't mentioned in it")
        add(manifest, edge, addition, named)


def add(manifest: Manifest, edge: Edge, addition: Addition, named: set[str]) -> None:
    """Adds what is said of one line."""
    for path in addition.outputs:
        other = manifest.maker.setdefault(path, edge)
        if other is not edge:
            what = f"{path} is an output of {other.file}:{other.line} too"
            raise NinjaFault(edge.file, edge.line, what)
        if path in named:
            edge.told_too_late.append(path)
    edge.implicit_outputs += [path for path in addition.outputs if path not in edge.outputs]
    edge.implicit_inputs += [path for path in addition.inputs if path not in edge.inputs]
    edge.dyndep_is_known = True
    edge.dyndep_restat = addition.restat


def read_dyndeps(name: str, text: str) -> dict[str, Addition]:
    """What a dyndep file says, by the first output of each build line."""
    reader = Reader(name, text)
    found: dict[str, Addition] = {}
    has_version = False
    while True:
        kind, word = reader.token()
        if kind == "end":
            break
        if kind == "newline":
            continue
        if kind == "build" and has_version:
            output, addition = read_line(reader)
            if output in found:
                raise reader.fault(f"{output} is mentioned twice")
            found[output] = addition
        elif kind == "name" and word == "ninja_dyndep_version" and not has_version:
            reader.place = reader.last_start
            version = reader.assignment()[1].expand(lambda _: "")
            if version.partition("-")[0] not in ("1", "1.0"):
                raise reader.fault(f"ninja_dyndep_version {version} isn't known")
            has_version = True
        else:
            raise reader.fault(f"{word.strip() or kind} isn't expected in a dyndep file")
    if not has_version:
        raise reader.fault("ninja_dyndep_version is missing")
    return found


def read_line(reader: Reader) -> tuple[str, Addition]:
    """A build line of a dyndep file: its output, and what is said of it."""
    outputs = reader.paths()
    implicit = reader.paths() if reader.peek("|") else []
    reader.expect(":")
    rule = reader.name()
    if len(outputs) != 1 or rule != "dyndep":
        raise reader.fault("a line of a dyndep file has one output, and dyndep as its rule")
    explicit = reader.paths()
    inputs = reader.paths() if reader.peek("|") else []
    if explicit or reader.peek("||"):
        raise reader.fault("a line of a dyndep file has implicit inputs alone")
    reader.expect("newline")
    addition = Addition(
        [canonical(one.expand(lambda _: "")) for one in implicit],
        [canonical(one.expand(lambda _: "")) for one in inputs],
    )
    while reader.peek("indent"):
        key, value = reader.assignment()
        if key != "restat":
            raise reader.fault(f"{key} is no variable of a dyndep file")
        addition.restat = bool(value.expand(lambda _: ""))
    return canonical(outputs[0].expand(lambda _: "")), addition
