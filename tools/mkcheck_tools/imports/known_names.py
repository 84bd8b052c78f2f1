"""Names of the translated makefile in sentences of other programs, as people know them."""

from __future__ import annotations

import re
from collections.abc import Mapping
from dataclasses import dataclass

from mkcheck_tools.imports.builds import Build, Node
from mkcheck_tools.imports.plain import Names

# What may be such a name.
WORD = re.compile(r"[^\s,;:'\"()`]*@[^\s,;:'\"()`]*[^\s,;:.'\"()`]")


@dataclass(frozen=True)
class KnownNames:
    """For the names of the translated makefile that a makefile of the project doesn't have those of
    the targets that they stand for."""

    names: Mapping[str, str]

    @classmethod
    def of(cls, build: Build, names: Names) -> KnownNames:
        """Those of a build."""
        found = {}
        for name, word in names.written.items():
            node = build.nodes.get(name)
            if "@" in word and node is not None:
                found[word] = known_as(build, node)
        return cls(found)

    def replace(self, text: str) -> str:
        """A text that names them so."""
        return WORD.sub(lambda match: self.names.get(match.group(), match.group()), text)


def whole_of(build: Build, node: Node) -> Node:
    """The node of which one is a part, or itself."""
    while node.piece_of and node.piece_of in build.nodes:
        node = build.nodes[node.piece_of]
    return node


def known_as(build: Build, node: Node) -> str:
    """How people know a node: its path, or its name in its makefile."""
    node = whole_of(build, node)
    return node.name if "@" not in node.name else node.known_as or node.name
