"""A build of ninja that is recorded before ninja builds: what recipes left shows what ninja would
know after a build.
"""

from __future__ import annotations

import os
from collections.abc import Iterable
from dataclasses import replace

from mkcheck_tools.book.states import State
from mkcheck_tools.imports.builds import Build
from mkcheck_tools.imports.depfiles import DepfileFault, read_depfile
from mkcheck_tools.imports.ninja import NinjaBuild
from mkcheck_tools.imports.ninja_files import Edge
from mkcheck_tools.imports.ninja_folder import NinjaShown, translation_of
from mkcheck_tools.imports.ninja_text import NinjaFault
from mkcheck_tools.replay.versions import FILE, LINK, lay
from mkcheck_tools.run import places
from mkcheck_tools.run.paths import RealPath
from mkcheck_tools.run.places import Place


def recordable(shown: NinjaShown) -> Build | None:
    """The build as `build.ninja` says it, where its recording shows all that ninja knows after a
    build; None where ninja has to build before: what dyndep files say decides which lines run, a
    line with `restat` has to be tried before it is replayed, and files of an earlier build may help
    this one."""
    if places.namespace() is None:
        return None
    try:
        translation = translation_of(shown, shown.front.copies.place("read"), None)
        build = translation.translate(shown.front.words)
    except NinjaFault:
        return None
    for edge in translation.reached:
        if edge.restat or edge.value("dyndep") or edge.value("deps") not in ("", "gcc"):
            return None
    edges = (edge for edge in shown.manifest.edges if not edge.is_phony)
    if any(translation.is_there(path) for edge in edges for path in left_by(edge)):
        return None
    return build


def left_by(edge: Edge) -> list[str]:
    """What the recipe of a build line leaves; nothing for one that wrote ninja's own files."""
    if edge.value("generator"):
        return []
    depfile = edge.value("depfile", escape=str)
    return [*edge.outputs, *([depfile] if depfile else [])]


def laid_out(shown: NinjaShown, state: State, store: str) -> NinjaShown | None:
    """The build with what recorded recipes left, which is laid into the copy for that from a store;
    None where ninja would not have taken it."""
    copies = shown.front.copies
    # It has what ninja made by `-n`, the folders of outputs, and lacks what ninja takes away.
    copies.rename("asked", "built")
    place = copies.shut("built")
    try:
        lay_all(state, store, place.folder)
        translation = translation_of(shown, place, None)
        translation.translate(shown.front.words)
        noted = noted_in(translation, translation.reached, place)
    except (OSError, DepfileFault):
        copies.renew("built")
        return None
    return replace(shown, is_built=True, noted=noted)


def lay_all(state: State, store: str, folder: str) -> None:
    """Lays what recipes left into a folder. Raises `OSError` where that can't be."""
    for entry in state.entries.values():
        for name in entry.made:
            os.makedirs(os.path.join(folder, name), exist_ok=True)
        for name, version in entry.after.items():
            path = RealPath(os.path.join(folder, name))
            if os.path.lexists(path):
                os.unlink(path)
            if version is None:
                continue
            if version.kind not in (FILE, LINK):
                raise OSError(f"{name} is neither a file nor a link")
            os.makedirs(os.path.dirname(path), exist_ok=True)
            lay(RealPath(os.path.join(store, version.content)), path, version)
            os.utime(path, follow_symlinks=False)


def noted_in(
    translation: NinjaBuild, edges: Iterable[Edge], place: Place
) -> dict[str, list[str]]:
    """What ninja would note from the dependency files of lines with `deps`, which it takes away
    then, as response files. Raises `DepfileFault` where it refuses one."""
    found: dict[str, list[str]] = {}
    for edge in edges:
        response = edge.value("rspfile", escape=str)
        gone = [response] if response else []
        if edge.value("deps"):
            depfile = edge.value("depfile", escape=str)
            path = translation.real(depfile, place)
            if depfile and os.path.exists(path):
                with open(path, "rb") as file:
                    text = file.read().decode("utf-8", "surrogateescape")
                found[edge.outputs[0]] = read_depfile(text).prerequisites
                gone.append(depfile)
        for name in gone:
            if os.path.lexists(translation.real(name, place)):
                os.unlink(translation.real(name, place))
    return found
