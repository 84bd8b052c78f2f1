"""What the names among ninja's inputs stand for: files, once phony names are replaced."""

from __future__ import annotations

from collections.abc import Callable
from dataclasses import dataclass, field

from mkcheck_tools.imports.ninja_files import Edge, Manifest


@dataclass
class Inputs:
    """What some inputs come to when phony names are replaced by what they stand for."""

    normal: list[str] = field(default_factory=list)
    """Files by which the outputs are out of date, as they are spelled."""

    order_only: list[str] = field(default_factory=list)
    """Files that only have to be done before."""

    always: bool = False
    """Whether one is out of date in each build: a phony name without inputs that is no file."""

    through: list[str] = field(default_factory=list)
    """Phony names with inputs that were replaced, and by which the outputs are out of date."""

    validations: list[str] = field(default_factory=list)
    """The validations of phony names that were replaced."""

    def add(self, other: Inputs, order_only: bool = False) -> None:
        """Adds what another name stands for."""
        (self.order_only if order_only else self.normal).extend(other.normal)
        self.order_only.extend(other.order_only)
        self.validations.extend(other.validations)
        if not order_only:
            self.through.extend(other.through)
            self.always = self.always or other.always


class Resolver:
    """Finds what names stand for.

    `is_there` says whether there is a file of a name before the build, and `tell` is told of phony
    names that are files too.
    """

    def __init__(
        self, manifest: Manifest, is_there: Callable[[str], bool], tell: Callable[[str, Edge], None]
    ):
        self.manifest, self.is_there, self.tell = manifest, is_there, tell
        self.known: dict[str, Inputs] = {}

    def resolve(self, path: str) -> Inputs:
        """What a name stands for: itself, or what a phony name stands for."""
        stack, within = [path], set[str]()
        while stack:
            top = stack[-1]
            edge = self.manifest.maker.get(top)
            if top in self.known:
                stack.pop()
            elif edge is None or not edge.is_phony:
                self.known[top] = Inputs([top])
            else:
                needed = [one for one in edge.inputs + edge.order_only if one not in self.known]
                if needed and top not in within:
                    within.add(top)
                    stack += needed
                else:
                    self.known[top] = self.resolve_phony(top, edge)
        return self.known[path]

    def resolve_phony(self, path: str, edge: Edge) -> Inputs:
        """What a phony name stands for, once that is known of its inputs."""
        is_there = self.is_there(path)
        found = Inputs()
        for one in edge.inputs:
            inputs = self.known.get(one, Inputs())
            found.add(inputs, order_only=is_there)
            found.always = found.always or inputs.always
        for one in edge.order_only:
            found.add(self.known.get(one, Inputs()), order_only=True)
        if is_there:
            # Ninja compares the file's own time, so what its inputs are doesn't count.
            found.normal.append(path)
            if edge.inputs:
                self.tell(path, edge)
        elif not edge.inputs and not edge.order_only:
            found.always = True
        found.validations = list(dict.fromkeys([*found.validations, *edge.validations]))
        if edge.inputs and not is_there:
            found.through = list(dict.fromkeys([*found.through, path]))
        return found
