"""The manifest of a ninja build: its build lines, with their rules, variables and scopes.

This follows ninja's manual ("Ninja file reference"). Only what ninja itself refuses is a fault.
"""

from __future__ import annotations

import os
import re
from collections.abc import Callable
from dataclasses import dataclass, field

from mkcheck_tools.imports.ninja_text import NinjaFault, Pattern, Reader

RULE_VARIABLES = (
    "command",
    "depfile",
    "dyndep",
    "description",
    "deps",
    "generator",
    "pool",
    "restat",
    "rspfile",
    "rspfile_content",
    "msvc_deps_prefix",
)
DEEPEST = 100
SAFE = re.compile(r"[A-Za-z0-9_+./-]*")


def canonical(path: str) -> str:
    """A path as ninja compares it: without `.`, doubled slashes and `x/..`."""
    found = os.path.normpath(path)
    return found[1:] if found.startswith("//") else found


def quoted(path: str) -> str:
    """A path as ninja writes it into a command for the shell."""
    return path if SAFE.fullmatch(path) else "'" + path.replace("'", "'\\''") + "'"


@dataclass
class Scope:
    """The variables and rules of a file, above those of the file that has it by `subninja`."""

    parent: Scope | None = None
    variables: dict[str, str] = field(default_factory=dict)
    rules: dict[str, Rule] = field(default_factory=dict)

    def value(self, name: str) -> str:
        """The value of a variable; an empty text where there is none."""
        scope: Scope | None = self
        while scope is not None:
            if name in scope.variables:
                return scope.variables[name]
            scope = scope.parent
        return ""

    def rule(self, name: str) -> Rule | None:
        """The rule of a name."""
        scope: Scope | None = self
        while scope is not None:
            if name in scope.rules:
                return scope.rules[name]
            scope = scope.parent
        return None


@dataclass
class Rule:
    """A rule; its variables are expanded where it is used."""

    name: str
    variables: dict[str, Pattern] = field(default_factory=dict)


@dataclass
class Edge:
    """A build line. All paths are canonical, as they are spelled in the file."""

    rule: Rule
    scope: Scope
    file: str
    line: int
    explicit_outputs: list[str] = field(default_factory=list)
    implicit_outputs: list[str] = field(default_factory=list)
    explicit_inputs: list[str] = field(default_factory=list)
    implicit_inputs: list[str] = field(default_factory=list)
    order_only: list[str] = field(default_factory=list)
    validations: list[str] = field(default_factory=list)
    dyndep_is_known: bool = False
    """Whether the lists have what the dyndep file of the line says."""

    dyndep_restat: bool = False
    told_too_late: list[str] = field(default_factory=list)
    """Outputs that only the dyndep file tells, and that a line of the manifest takes."""

    @property
    def outputs(self) -> list[str]:
        """All outputs, the explicit ones first."""
        return self.explicit_outputs + self.implicit_outputs

    @property
    def inputs(self) -> list[str]:
        """All inputs that make the outputs out of date."""
        return self.explicit_inputs + self.implicit_inputs

    @property
    def restat(self) -> bool:
        """Whether ninja looks whether the outputs were written, and stops where they weren't."""
        return bool(self.value("restat")) or self.dyndep_restat

    @property
    def is_phony(self) -> bool:
        """Whether the line only gives names to other files."""
        return self.rule.name == "phony" and not self.rule.variables

    def value(self, name: str, escape: Callable[[str], str] = quoted) -> str:
        """The value of a variable for this line."""
        return self.lookup(name, escape, ())

    def lookup(self, name: str, escape: Callable[[str], str], within: tuple[str, ...]) -> str:
        """The value of a variable that the values of others, `within`, use."""
        if name in ("in", "in_newline"):
            return (" " if name == "in" else "\n").join(map(escape, self.explicit_inputs))
        if name == "out":
            return " ".join(map(escape, self.explicit_outputs))
        if name in self.scope.variables:
            return self.scope.variables[name]
        pattern = self.rule.variables.get(name)
        if pattern is not None:
            if name in within:
                chain = " -> ".join([*within[within.index(name) :], name])
                what = f"a cycle in the variables of rule {self.rule.name}: {chain}"
                raise NinjaFault(self.file, self.line, what)
            return pattern.expand(lambda other: self.lookup(other, escape, (*within, name)))
        return self.scope.parent.value(name) if self.scope.parent is not None else ""


@dataclass
class Manifest:
    """All that the ninja files of a build say."""

    folder: str
    edges: list[Edge] = field(default_factory=list)
    defaults: list[str] = field(default_factory=list)
    pools: dict[str, str] = field(default_factory=lambda: {"": "", "console": "1"})
    files: list[str] = field(default_factory=list)
    maker: dict[str, Edge] = field(default_factory=dict)
    names: set[str] = field(default_factory=set)
    top: Scope = field(default_factory=Scope)

    def roots(self) -> list[str]:
        """What ninja builds without a goal: its `default` lines, else what no line takes."""
        if self.defaults:
            return list(dict.fromkeys(self.defaults))
        taken = {path for edge in self.edges for path in edge.inputs + edge.order_only}
        return [path for edge in self.edges for path in edge.outputs if path not in taken]


def read_manifest(folder: str, name: str = "build.ninja") -> Manifest:
    """Reads a ninja file and those that it includes, whose names begin at the folder.

    Raises `NinjaFault` where a file can't be read, or ninja would refuse it.
    """
    manifest = Manifest(folder)
    manifest.top.rules["phony"] = Rule("phony")
    FileParser(manifest, manifest.top, name).parse()
    return manifest


class FileParser:
    """Reads one file into a manifest and a scope."""

    def __init__(
        self,
        manifest: Manifest,
        scope: Scope,
        name: str,
        above: Reader | None = None,
        depth: int = 0,
    ):
        self.manifest, self.scope, self.depth = manifest, scope, depth
        if depth > DEEPEST:
            raise NinjaFault(name, 1, f"files that include each other over {DEEPEST} deep")
        try:
            with open(os.path.join(manifest.folder, name), "rb") as file:
                text = file.read().decode("utf-8", "surrogateescape")
        except OSError as error:
            if above is None:
                raise NinjaFault(name, 1, error.strerror or str(error)) from None
            raise above.fault(f"{name} can't be read: {error.strerror}") from None
        manifest.files.append(name)
        self.reader = Reader(name, text)

    def parse(self) -> None:
        """Reads all declarations."""
        while True:
            kind, text = self.reader.token()
            if kind == "end":
                return
            if kind == "name":
                self.reader.place = self.reader.last_start
                self.variable()
            elif kind in ("build", "rule", "pool", "default", "include", "subninja"):
                getattr(self, f"read_{kind}")()
            elif kind == "indent":
                raise self.reader.fault("an indented line that belongs to no declaration")
            elif kind != "newline":
                raise self.reader.fault(f"{text.strip()} isn't expected here")

    def variable(self) -> None:
        """A variable of the file."""
        name, pattern = self.reader.assignment()
        self.scope.variables[name] = pattern.expand(self.scope.value)

    def block(self) -> list[tuple[str, Pattern]]:
        """The indented assignments below a declaration."""
        found = []
        while self.reader.peek("indent"):
            found.append(self.reader.assignment())
        return found

    def read_pool(self) -> None:
        """A pool and its depth."""
        name = self.reader.name()
        self.reader.expect("newline")
        if name in self.manifest.pools:
            raise self.reader.fault(f"a second pool {name}")
        depth = None
        for key, pattern in self.block():
            if key != "depth":
                raise self.reader.fault(f"{key} is no variable of a pool")
            depth = pattern.expand(self.scope.value)
        if depth is None:
            raise self.reader.fault(f"pool {name} has no depth")
        self.manifest.pools[name] = depth

    def read_rule(self) -> None:
        """A rule and its variables."""
        name = self.reader.name()
        self.reader.expect("newline")
        if name in self.scope.rules:
            raise self.reader.fault(f"a second rule {name}")
        rule = Rule(name)
        for key, pattern in self.block():
            if key not in RULE_VARIABLES:
                raise self.reader.fault(f"{key} is no variable of a rule")
            rule.variables[key] = pattern
        if bool(rule.variables.get("rspfile")) != bool(rule.variables.get("rspfile_content")):
            raise self.reader.fault(f"rule {name} has only one of rspfile and rspfile_content")
        if not rule.variables.get("command"):
            raise self.reader.fault(f"rule {name} has no command")
        self.scope.rules[name] = rule

    def read_default(self) -> None:
        """Goals of a ninja without goals."""
        found = self.reader.paths()
        if not found:
            raise self.reader.fault("a goal is expected after default")
        self.reader.expect("newline")
        for pattern in found:
            path = self.canonical(pattern, self.scope)
            if path not in self.manifest.names:
                what = f"default names {path}, which no build line before it names"
                raise self.reader.fault(what)
            self.manifest.defaults.append(path)

    def read_include(self) -> None:
        """A file in the same scope."""
        self.include(self.scope)

    def read_subninja(self) -> None:
        """A file in a scope of its own."""
        self.include(Scope(self.scope))

    def include(self, scope: Scope) -> None:
        """Reads another file."""
        name = self.reader.path().expand(self.scope.value)
        FileParser(self.manifest, scope, name, self.reader, self.depth + 1).parse()
        self.reader.expect("newline")

    def canonical(self, pattern: Pattern, scope: Scope) -> str:
        """A path that isn't empty."""
        path = pattern.expand(scope.value)
        if not path:
            raise self.reader.fault("an empty path")
        return canonical(path)

    def read_build(self) -> None:
        """A build line and its variables."""
        reader = self.reader
        line = reader.line()
        outputs = reader.paths()
        implicit_outputs = reader.paths() if reader.peek("|") else []
        if not outputs and not implicit_outputs:
            raise reader.fault("a path is expected after build")
        reader.expect(":")
        name = reader.name()
        rule = self.scope.rule(name)
        if rule is None:
            raise reader.fault(f"there is no rule {name}")
        inputs = reader.paths()
        implicit, order_only, validations = (
            reader.paths() if reader.peek(mark) else [] for mark in ("|", "||", "|@")
        )
        reader.expect("newline")
        scope = self.edge_scope()
        edge = Edge(rule, scope, reader.file, line)
        edge.explicit_outputs = self.outputs(edge, outputs)
        edge.implicit_outputs = self.outputs(edge, implicit_outputs)
        edge.explicit_inputs = [self.canonical(pattern, scope) for pattern in inputs]
        edge.implicit_inputs = [self.canonical(pattern, scope) for pattern in implicit]
        edge.order_only = [self.canonical(pattern, scope) for pattern in order_only]
        edge.validations = [self.canonical(pattern, scope) for pattern in validations]
        if edge.is_phony and len(edge.outputs) == 1 and not implicit:
            # Ninja forgives a name that stands for itself, which an old CMake wrote.
            own = edge.outputs[0]
            edge.explicit_inputs = [path for path in edge.explicit_inputs if path != own]
            edge.order_only = [path for path in edge.order_only if path != own]
        pool = edge.value("pool")
        if pool not in self.manifest.pools:
            raise NinjaFault(reader.file, line, f"there is no pool {pool}")
        self.manifest.edges.append(edge)
        self.manifest.names.update(edge.outputs, edge.inputs, edge.order_only, edge.validations)

    def edge_scope(self) -> Scope:
        """The scope of a build line: its own variables, where it has some, above the file's.

        The values are expanded in the scope of the file, so they don't see each other.
        """
        own = {name: pattern.expand(self.scope.value) for name, pattern in self.block()}
        return Scope(self.scope, own) if own else self.scope

    def outputs(self, edge: Edge, patterns: list[Pattern]) -> list[str]:
        """The outputs of a list, which no earlier line may have."""
        found = []
        for pattern in patterns:
            path = self.canonical(pattern, edge.scope)
            earlier = self.manifest.maker.get(path)
            if earlier is not None:
                what = f"{path} is an output of {earlier.file}:{earlier.line} too"
                raise NinjaFault(edge.file, edge.line, what)
            self.manifest.maker[path] = edge
            found.append(path)
        return found
