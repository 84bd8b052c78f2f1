"""How what a run left differs from what the recording left, and what is said of that."""

from __future__ import annotations

import os
from collections.abc import Iterator, Mapping
from dataclasses import dataclass

from mkcheck_tools.replay.layouts import Layout
from mkcheck_tools.replay.versions import FILE, FOLDER, LINK, NOWHERE, Version, version_of
from mkcheck_tools.replay.worlds import EMPTY, OTHER, Trial, above, entries, mode_of, stamp_of
from mkcheck_tools.run.paths import Name, RealPath, real_in

SHOWN_BYTES = 1 << 16


@dataclass(frozen=True)
class Difference:
    """How a replay differs from the recording at one name."""

    name: Name
    what: str
    """A sentence without its subject, the recipe."""

    details: tuple[str, ...] = ()
    """Lines that show the difference."""

    kept: bool = False
    """Whether the replay left a file as it was that the recording wrote."""

    twin: Name = Name("")
    """An output of the recipe that is one file with it, if it is one that the recipe only reads."""


@dataclass(frozen=True)
class Comparison:
    """Compares what runs left in their folders with what the recording left."""

    layout: Layout

    def differences(
        self, trial: Trial, folder: RealPath, laid: Mapping[Name, tuple[int, ...]]
    ) -> Iterator[Difference]:
        """Where what a run left differs from what the recording left."""
        for name, version in trial.after.items():
            if name in trial.caches:
                continue
            path = real_in(folder, name)
            if name in trial.before and trial.before[name] is version:
                if laid[name] != stamp_of(path):
                    what = f"{changed(path)} {name}, which it wasn't recorded to write"
                    yield Difference(name, what, twin=twin_of(name, trial, folder))
                continue
            found = version_of(path)
            if version is None and found is not None and found.kind == FOLDER:
                continue
            if found != version:
                yield Difference(name, *difference(name, version, found, self.kept(version), path))
        yield from self.left(trial, folder)

    def kept(self, version: Version | None) -> RealPath:
        """Where the bytes lie that a recipe left when it was recorded."""
        if version is None or version.kind != FILE:
            return NOWHERE
        return self.layout.world.store.path(version)

    def left(self, trial: Trial, folder: RealPath) -> Iterator[Difference]:
        """What a run left that the recording didn't, and folders that it failed to make."""
        folders = {*trial.known, *self.layout.folders_of(trial)}
        folders.update(above(name) for name in trial.after)
        for name in list(folders):
            while name := above(name):
                folders.add(name)
        for name, entry in entries(folder):
            if entry.is_dir(follow_symlinks=False):
                if name not in folders:
                    yield Difference(
                        name,
                        f"leaves the folder {name}, which it didn't leave when it was recorded",
                    )
            elif name not in trial.after and name not in trial.links:
                yield Difference(name, f"leaves {name}, which it didn't leave when it was recorded")
        for name, goal in trial.links.items():
            path = real_in(folder, name)
            if name not in trial.after and not (os.path.islink(path) and os.readlink(path) == goal):
                yield Difference(
                    name, f"{changed(path)} the link {name}, which it wasn't recorded to write"
                )
        for name, mode in trial.given.items():
            found = mode_of(real_in(folder, name))
            if found != mode:
                yield Difference(
                    name,
                    f"gives the folder {name} the mode {found:o}, which was {mode:o} when it was"
                    " recorded",
                )
        for name in trial.made:
            if not os.path.isdir(real_in(folder, name)):
                yield Difference(
                    name, f"doesn't make the folder {name}, as it did when it was recorded"
                )


def twin_of(name: Name, trial: Trial, folder: RealPath) -> Name:
    """The output of a recipe that is one file with another one, by a hard link; empty if none."""
    file = file_at(real_in(folder, name))
    outputs = (one for one in trial.writes if one not in trial.before and file is not None)
    return next((one for one in outputs if file_at(real_in(folder, one)) == file), Name(""))


def file_at(path: RealPath) -> tuple[int, int] | None:
    """Which file stands at a path itself, where something does."""
    try:
        status = os.lstat(path)
    except OSError:
        return None
    return status.st_dev, status.st_ino


def is_file(version: Version | None) -> bool:
    """Whether a version is that of a file with bytes."""
    return version is not None and version.kind == FILE


def changed(path: RealPath) -> str:
    """What a recipe did to a file that it only reads, by what stands there now."""
    return "changes" if os.path.lexists(path) else "takes away"


def only_touched(version: Version | None, path: RealPath) -> bool:
    """Whether a damaged file kept its bytes, and was empty when it was recorded.

    So `touch` does it. Where no other recipe writes the file, it is empty whenever it is there.
    """
    found = version_of(path)
    return (
        version is not None
        and version.content == EMPTY
        and found is not None
        and found.content == OTHER
    )


def difference(
    name: Name, version: Version | None, found: Version | None, old: RealPath, new: RealPath
) -> tuple[str, tuple[str, ...]]:
    """What is said where a file isn't as the recording left it, and the first lines that differ."""
    if version is None:
        return f"leaves {name}, which it took away when it was recorded", ()
    if found is None:
        return f"doesn't write {name}", ()
    if version.kind != found.kind:
        return (
            f"leaves {name} as a {found.kind}, where it was a {version.kind} when it was recorded",
            (),
        )
    if version.kind == LINK:
        return (
            (
                f"makes {name} a link to {found.content}, which led to {version.content} when it"
                " was recorded"
            ),
            (),
        )
    if version.content != found.content:
        return f"writes {name} with other contents", lines_that_differ(old, new)
    return (
        f"gives {name} the mode {found.mode:o}, which was {version.mode:o} when it was recorded",
        (),
    )


def lines_that_differ(old: RealPath, new: RealPath) -> tuple[str, ...]:
    """The first line in which two texts differ, where they are texts."""
    with open(old, "rb") as one, open(new, "rb") as two:
        first, second = one.read(SHOWN_BYTES), two.read(SHOWN_BYTES)
    if b"\0" in first or b"\0" in second:
        return ()
    ours, theirs = first.split(b"\n"), second.split(b"\n")
    for number in range(max(len(ours), len(theirs))):
        was, now = (lines[number] if number < len(lines) else None for lines in (ours, theirs))
        if was != now:
            return (f"line {number + 1} was {quoted(was)}", f"line {number + 1} is  {quoted(now)}")
    return ()


def quoted(line: bytes | None) -> str:
    """A line for a message."""
    if line is None:
        return "not there"
    text = line.decode("utf-8", "backslashreplace")
    return f'"{text[:100]}{"..." if len(text) > 100 else ""}"'
