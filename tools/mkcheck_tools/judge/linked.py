"""Files that the makefile names over a symbolic link of the project. A footprint then has that
name, since make asks by it for the file, and follows the link."""

from __future__ import annotations

import os
from collections import Counter
from collections.abc import Container, Iterable, Mapping
from dataclasses import dataclass, replace

from mkcheck_tools.judge.footprints import Footprint
from mkcheck_tools.run.paths import Name, RealPath, real_in


@dataclass(frozen=True)
class Over:
    """A name of the makefile, and the link over which it leads."""

    name: Name
    link: Name


def names_over_links(folder: RealPath, names: Iterable[str]) -> dict[Name, Over]:
    """By the names of files without links the names that a makefile has for them, where it has only
    one, which leads over one link that is there. The file needn't be there yet."""
    known = dict.fromkeys(names)
    found: dict[Name, Over] = {}
    for name in known:
        link = only_link(folder, name)
        if link is not None and not os.path.isdir(real_in(folder, name)):
            real = os.path.relpath(os.path.realpath(real_in(folder, name)), folder)
            found[Name(name)] = Over(Name(real), link)
    counts = Counter(over.name for over in found.values())
    return {
        over.name: Over(name, over.link)
        for name, over in found.items()
        if counts[over.name] == 1
        and over.name not in known
        and not over.name.startswith("../")
    }


def only_link(folder: RealPath, name: str) -> Name | None:
    """The one link of the project over which a name leads; None where there is none, or more."""
    parts = name.split("/")
    if name.startswith("/") or ".." in parts:
        return None
    fronts = ["/".join(parts[: count + 1]) for count in range(len(parts))]
    links = [front for front in fronts if os.path.islink(real_in(folder, front))]
    if len(links) != 1:
        return None
    path = real_in(folder, links[0])
    goal = os.path.normpath(os.path.join(os.path.dirname(path), os.readlink(path)))
    return Name(links[0]) if os.path.realpath(path) == goal else None


def with_names(footprints: list[Footprint], over: Mapping[Name, Over]) -> list[Footprint]:
    """The footprints, with the names that the makefile has, but for those over a link that a recipe
    writes."""
    written = {name for one in footprints for name in one.writes}
    return [
        replace(
            one, reads=renamed(one.reads, over, written), writes=renamed(one.writes, over, written)
        )
        for one in footprints
    ]


def renamed(
    names: Iterable[Name], over: Mapping[Name, Over], written: Container[Name]
) -> list[Name]:
    """These names, as the makefile has them."""
    found = (
        over[name].name if name in over and over[name].link not in written else name
        for name in names
    )
    return list(dict.fromkeys(found))
