"""What is always done before what, in the first build."""

from __future__ import annotations

from mkcheck_tools.imports.builds import Build, Node


class Order:
    """What is always done before what, in the first build. Sets of nodes are bits of a number."""

    def __init__(self, build: Build) -> None:
        self.build = build
        names = build.reached(later=False)
        self.bit = {name: 1 << number for number, name in enumerate(names)}
        self.below: dict[str, int] = {}
        """Each node with all that it reaches."""
        for name in names:
            self.below[name] = self.bit[name] | self.union(build.needs(name, later=False))
        self.before: dict[str, int] = {name: 0 for name in build.goals}
        """For each node what is done when it is first wanted, whoever wants it."""
        for name in reversed(names):
            node = build.nodes.get(name)
            if node is not None and node.has_rule:
                self.hand_down(node)

    def union(self, names: list[str]) -> int:
        """All that these reach."""
        found = 0
        for name in names:
            found |= self.below.get(name, 0)
        return found

    def hand_down(self, node: Node) -> None:
        """Tells the prerequisites of a node what is done when they are wanted."""
        done = self.before.get(node.name, 0)
        for number, group in enumerate(node.groups):
            for name in [*group, *(node.order_only if number == 0 else [])]:
                self.before[name] = done & self.before.get(name, done)
            done |= self.union(group)
            if number == 0:
                done |= self.union(node.order_only)

    def done_at(self, name: str, group: int) -> int:
        """What is done when the prerequisites of a group of a node are wanted."""
        node = self.build.nodes[name]
        earlier = [word for words in node.groups[:group] for word in words]
        earlier += node.order_only if group else []
        return self.before.get(name, 0) | self.union(earlier)

    def done_before(self, name: str) -> int:
        """What is done when the recipe of a node begins."""
        return self.before.get(name, 0) | self.union(self.build.needs(name, later=False))

    def is_before(self, earlier: str, later: str) -> bool:
        """Whether one recipe is always done when another one begins."""
        return bool(self.done_before(later) & self.bit.get(earlier, 0))
