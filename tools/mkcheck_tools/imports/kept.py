"""What an import keeps for the next one, and whether that still holds.

A translation depends on the files that the tool reads, on the names of all files, and, where make
goes by times or a build showed more than `make -n`, on all. So it is kept with a digest of each
file of the project, with the files that the tool read, and with what the tool said. What isn't sure
to be the same is done anew.
"""

from __future__ import annotations

import dataclasses
import hashlib
import json
import os
from collections.abc import Iterable, Iterator, Mapping
from dataclasses import dataclass, field
from pathlib import Path
from typing import Any

from mkcheck_tools.book.states import Entry as Recipe
from mkcheck_tools.book.states import State
from mkcheck_tools.book.updating import Conditions
from mkcheck_tools.faults import Fault
from mkcheck_tools.imports.builds import FOREIGN, path_name
from mkcheck_tools.imports.tools import Basis
from mkcheck_tools.replay.versions import FILE, Version, version_of
from mkcheck_tools.run.paths import RealPath

FORMAT = 2
# What is no file that lasts.
UNLASTING = ("/proc/", "/sys/", "/dev/")
SHOWN_AT_MOST = 5
NOTHING = ("", 0, "")

Entry = tuple[str, int, str]


@dataclass(frozen=True)
class Files:
    """What stands in a project: of each name its kind, mode and digest, and its time."""

    entries: Mapping[str, Entry]
    times: Mapping[str, int]

    def without(self, names: Iterable[str]) -> Files:
        """The same without some names."""
        gone = {name.rstrip("/") for name in names}
        return Files(
            {name: entry for name, entry in self.entries.items() if name not in gone},
            {name: stamp for name, stamp in self.times.items() if name not in gone},
        )


def files_of(root: str, left_out: Iterable[str]) -> Files:
    """All files and folders of a project, but for those of version control and some paths."""
    unwanted = frozenset(left_out)
    entries: dict[str, Entry] = {}
    times: dict[str, int] = {}
    for entry in walked(root, unwanted):
        name = entry.path[len(root) + 1 :]
        entries[name] = entry_of(version_of_readable(entry.path))
        times[name] = entry.stat(follow_symlinks=False).st_mtime_ns
    return Files(entries, times)


def walked(folder: str, unwanted: frozenset[str]) -> Iterator[os.DirEntry[str]]:
    """All that lies in a folder. A folder that can't be read seems empty."""
    try:
        with os.scandir(folder) as found:
            inside = list(found)
    except OSError:
        return
    for entry in inside:
        if entry.path in unwanted or entry.name in FOREIGN:
            continue
        yield entry
        if entry.is_dir(follow_symlinks=False):
            yield from walked(entry.path, unwanted)


def version_of_readable(path: str) -> Version | None:
    """What stands at a path; of a file that can't be read no content is known."""
    try:
        return version_of(RealPath(path))
    except Fault:
        return Version("unreadable", 0, "")


def entry_of(version: Version | None) -> Entry:
    """The kind, the mode and the digest of what stands at a path."""
    return NOTHING if version is None else (version.kind, version.mode, version.content)


@dataclass(frozen=True)
class Answer:
    """An answer, and what it rests on."""

    lines: tuple[str, ...]
    status: int
    recorded: str
    """A digest of what the recorder gave and said."""

    files: Mapping[str, str]
    """Digests of the files that belong to it, by their names in the folder of the output."""


@dataclass(frozen=True)
class Tried:
    """What came of trying a recipe with and without folders, on what that depends, and the file
    that it then wrote otherwise, if it did."""

    folders: tuple[str, ...]
    what: str
    file: str
    basis: str
    """A digest; empty where it isn't known."""


@dataclass(frozen=True)
class Kept:
    """A translation, what it depends on, and the answer, if there is one."""

    conditions: Mapping[str, str]
    files: Files
    seen: Mapping[str, Entry]
    """What stood at the paths that the tool read when it read its own files."""

    said: str
    anew: tuple[str, ...]
    build: str
    """The text of the translation."""

    reread: tuple[str, ...]
    """The files that recipes make, and that the tool reads in later builds."""

    alike: tuple[str, ...] = ()
    """The files whose recipes were seen to leave them as they were when nothing had changed, or not
    to."""

    timed: tuple[str, ...] = ()
    """The files by whose times the tool decides about targets that are there."""

    made: str = ""
    """A digest of what recipes left there, and of the names of all that they made."""

    bases: Mapping[str, str] = field(default_factory=dict)
    """For each of the files `alike` on what its recipe depends, as a digest."""

    tried: Mapping[str, Tried] = field(default_factory=dict)
    """What came of trying recipes, by their targets."""

    answer: Answer | None = None


@dataclass(frozen=True)
class Now:
    """What stands there now."""

    root: str
    conditions: Conditions
    files: Files
    said: str

    def kept(self, basis: Basis, build: str, salt: str) -> Kept:
        """What is kept of a translation that was made now."""
        return Kept(
            self.conditions.salted(salt),
            self.files,
            {path: self.entry(path) for path in sorted(basis.seen) if is_lasting(path)},
            self.said,
            basis.anew,
            build,
            tuple(sorted(basis.reread)),
            basis.alike,
            basis.timed,
        )

    def entry(self, path: str) -> Entry:
        """What stands at a path that the tool read. A file that isn't one of the project before the
        build has none."""
        name = path_name(self.root, self.root, path)
        if not name.startswith("/") and not set(FOREIGN) & set(name.split("/")):
            return self.files.entries.get(name, NOTHING)
        return entry_of(version_of_readable(path))


def is_lasting(path: str) -> bool:
    """Whether what stands at a path lasts, and so can be compared later."""
    return not path.startswith(UNLASTING)


@dataclass(frozen=True)
class Change:
    """Why a translation doesn't hold any more, and whether any file of the project has changed
    since. Without a reason it holds."""

    why: str = ""
    is_edited: bool = True


def change_of(kept: Kept, now: Now) -> Change:
    """What has changed since a translation was kept."""
    then, today = kept.conditions, now.conditions.salted(kept.conditions.get("salt", ""))
    others = [name for name in sorted({*then, *today}) if then.get(name) != today.get(name)]
    if others:
        return Change(f"these are other than then: {', '.join(others[:SHOWN_AT_MOST])}")
    old, new = kept.files, now.files
    names = sorted(old.entries.keys() ^ new.entries.keys())
    if names:
        what = "is there now" if names[0] in new.entries else "is gone"
        return Change(f"{names[0]} {what}")
    edited = [name for name, entry in new.entries.items() if old.entries[name] != entry]
    touched = [name for name, stamp in new.times.items() if old.times.get(name) != stamp]
    for name in edited:
        if old.entries[name][:2] != new.entries[name][:2] or new.entries[name][0] != FILE:
            return Change(f"{name} is of another kind or mode now")
    for path, entry in kept.seen.items():
        if now.entry(path) != entry:
            return Change(
                f"{path_name(now.root, now.root, path)} has changed, which the tool reads"
            )
    # A makefile may name a file that is searched for in other folders.
    timed = {os.path.basename(name) for name in kept.timed}
    by_time = [name for name in (*edited, *touched) if os.path.basename(name) in timed]
    if by_time:
        return Change(f"{by_time[0]} is another one now, and make goes by its time")
    if kept.said != now.said:
        return Change("the tool says something else than then")
    if (edited or touched) and kept.anew:
        return Change(f"{(edited or touched)[0]} is another one now, and {kept.anew[0]}")
    return Change(is_edited=bool(edited or touched))


def made_in(state: State, reread: Iterable[str]) -> str | None:
    """A digest of the names of all that recipes made, and of what they left at some of these; None
    where a file isn't known that the tool reads in later builds."""
    names: set[str] = set()
    left: dict[str, Entry] = {}
    for target in sorted(state.entries):
        entry = state.entries[target]
        names.update(f"{target}\0{name}" for name in [*entry.after, *entry.made])
        left.update((name, entry_of(version)) for name, version in entry.after.items())
    wanted = {name: left.get(name) for name in reread}
    if None in wanted.values():
        return None
    return digest_of_value([sorted(names), sorted(wanted.items())])


def basis_of(recipe: Recipe | None) -> str:
    """A digest of all on which the recipe depends that has this recording; empty without one."""
    if recipe is None or recipe.waiting is not None:
        return ""
    own = recipe.footprint.recipe
    looks = sorted((name, entry_of(version)) for name, version in recipe.looks.items())
    how = [own.lines, own.shell, own.strict, own.ignoring]
    return digest_of_value([*how, looks, sorted(recipe.lists.items())])


def digest_of_value(value: object) -> str:
    """A digest of a JSON value."""
    return hashlib.sha256(json.dumps(value).encode()).hexdigest()


def text_of(kept: Kept) -> str:
    """The text of what is kept. A digest shows whether it is whole."""
    body = dataclasses.asdict(kept)
    whole = {"format": FORMAT, "digest": digest_of_value(body), "kept": body}
    return json.dumps(whole) + "\n"


def read_kept(path: str) -> Kept | None:
    """What an import before kept at a path, where that is there and whole."""
    try:
        whole: dict[str, Any] = json.loads(Path(path).read_text(encoding="utf-8"))
        body = whole["kept"]
        if whole["format"] != FORMAT or digest_of_value(body) != whole["digest"]:
            return None
        files, answer = body["files"], body["answer"]
        return Kept(
            body["conditions"],
            Files({name: entry_in(one) for name, one in files["entries"].items()}, files["times"]),
            {path: entry_in(one) for path, one in body["seen"].items()},
            body["said"],
            tuple(body["anew"]),
            body["build"],
            tuple(body["reread"]),
            tuple(body["alike"]),
            tuple(body["timed"]),
            body["made"],
            body["bases"],
            {target: tried_in(one) for target, one in body["tried"].items()},
            None
            if answer is None
            else Answer(
                tuple(answer["lines"]), answer["status"], answer["recorded"], answer["files"]
            ),
        )
    except (OSError, ValueError, KeyError, TypeError, AttributeError, RecursionError):
        return None


def tried_in(value: dict[str, Any]) -> Tried:
    """What came of trying a recipe, of its JSON value."""
    return Tried(tuple(value["folders"]), value["what"], value["file"], value["basis"])


def entry_in(value: list[Any]) -> Entry:
    """An entry of its JSON value."""
    kind, mode, content = value
    return str(kind), int(mode), str(content)
