"""Targets that several makes of one build can run at the same time."""

from __future__ import annotations

from mkcheck_tools.imports.builds import Kind, Node, in_folder
from mkcheck_tools.imports.gnumake import Make
from mkcheck_tools.imports.ordering import Order
from mkcheck_tools.imports.translating import Translation


def name_overlaps(translation: Translation) -> None:
    """Adds a problem for targets that two makes have recipes for, unless one make begins when the
    target is done."""
    build = translation.build
    order = Order(build)
    starts = translation.starts
    done: dict[int, int] = {id(make): order.done_at(name, at) for make, name, at in starts}
    makes = [translation.makes[0], *(make for make, _, _ in translation.starts)]
    users: dict[str, list[Make]] = {}
    for make in makes:
        for name in dict.fromkeys(recipes_of(translation, make)):
            users.setdefault(name, []).append(make)
    found: dict[tuple[str, str], list[str]] = {}
    for name, sharing in users.items():
        if len(sharing) < 2:
            continue
        node = build.nodes[name]
        if node.kind is Kind.PHONY and node.commands:
            node.writes_no_files = (
                f"{name}: several makes run its recipe, one of them perhaps while another one reads"
                " what it writes, {file}; that isn't judged; let one make run it"
            )
        bit = order.bit.get(name, 0)
        free = [make for make in sharing if not done.get(id(make), 0) & bit]
        if len(free) > 1:
            folders = (translation.short(free[0].folder), translation.short(free[1].folder))
            found.setdefault(folders, []).append(name)
    for (one, other), names in found.items():
        some = ", ".join(names[:5]) + (f" and {len(names) - 5} more" if len(names) > 5 else "")
        build.problem(
            f"two makes, {in_folder(one)} and {in_folder(other)}, can run the recipes of the same"
            f" targets at the same time ({some}), which isn't judged; let one make be done before"
            " the other begins"
        )


def recipes_of(translation: Translation, make: Make) -> list[str]:
    """The nodes with recipes that the goals of a make reach, by the rules of that make."""
    view = translation.views.get(make.key)
    if view is None:
        return []
    found: list[str] = []
    seen: set[str] = set()
    waiting = list(make.goals)
    while waiting:
        text = waiting.pop()
        if text in seen or text not in view.rules:
            continue
        seen.add(text)
        for rule in view.rules[text]:
            waiting += [*rule.needs, *rule.order_only]
        name = translation.visited.get((view.number, text))
        node = translation.build.nodes.get(name) if name is not None else None
        if node is not None and (
            node.commands or any(word.startswith(f"{name}@") for word in parts(node))
        ):
            found.append(node.name)
    return found


def parts(node: Node) -> list[str]:
    """The names of the nodes that may be parts of a node."""
    return [word for group in node.groups for word in group]
