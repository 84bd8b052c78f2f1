"""Files that a recipe may have left before an edit by which it now writes fewer: of each kind of
file that it writes one more, by a name that stands for those that may still be there.

Which names a recipe gives to files is decided by what it reads: `split`, `csplit`, a compiler of
classes, a generator. What goes over such files by a pattern, or counts up to the first that isn't
there, uses those of before too.
"""

from __future__ import annotations

import os
import re
from collections.abc import Container, Iterable, Iterator, Mapping, Sequence

from mkcheck_tools.replay.versions import FILE
from mkcheck_tools.replay.worlds import Trial, above
from mkcheck_tools.run.paths import Name

# What may count in a name: its last run of digits, or of letters of one kind.
RUN = re.compile(r"(?:[0-9]+|[a-z]+|[A-Z]+)(?=[^0-9A-Za-z]*$)")
# How a name may end by which files are told apart, as `split` and `csplit` do it.
COUNTED = re.compile(r"\.(?:[0-9]+|[a-z]{2})")
# The first and the last of each kind of what counts.
KINDS = (("0", "9"), ("a", "z"), ("A", "Z"))


def own_remains(trial: Trial) -> dict[Name, Name]:
    """What a recipe may have left besides its target, each with the file like which it is: in
    folders that it lists or makes, and where it looked in vain."""
    names = [
        name
        for name in trial.writes
        if name != trial.recipe.target and name not in trial.caches and is_file(trial, name)
    ]
    return remains_like(names, trial, {*trial.listed, *trial.made})


def others_remains(
    trial: Trial, writers: Mapping[Name, Sequence[str]], makers: Container[str] | None
) -> dict[Name, Name]:
    """What other recipes, or those of these `makers`, may have left where a recipe uses files that
    they write besides their targets, each with the file like which it is."""
    names = []
    for name, version in trial.before.items():
        own = writers.get(name, ())
        is_theirs = bool(own) and name not in own and trial.recipe.target not in own
        is_asked = makers is None or any(target in makers for target in own)
        if version.kind == FILE and is_theirs and is_asked:
            names.append(name)
    return remains_like(names, trial, {*trial.listed})


def remains_like(
    names: Iterable[Name], trial: Trial, folders: Iterable[Name]
) -> dict[Name, Name]:
    """One more file like each of these, by a name that patterns match which match the begin or the
    end of that; and one by the next name, as long as theirs, after the last of those that differ in
    what is counted alone. Nothing may be there, and a recipe has to find it: in one of these
    folders, or where it looked."""
    found: dict[Name, Name] = {}
    listed = {Name("" if folder == "." else folder) for folder in folders}
    names = list(names)
    for name in names:
        if above(name) in listed:
            found[Name(f"{name}.left{os.path.splitext(name)[1]}")] = name
    taken = {*names, *trial.before, *trial.after, *trial.known}
    for name in last_of_each(names):
        other = next_free(name, taken)
        if other is not None and (above(other) in listed or other in trial.looked):
            found[other] = name
    return {other: name for other, name in found.items() if other not in taken}


def is_file(trial: Trial, name: Name) -> bool:
    """Whether a recipe left a file with bytes at a name."""
    version = trial.after.get(name)
    return version is not None and version.kind == FILE


def last_of_each(names: Iterable[Name]) -> Iterator[Name]:
    """The last one of all names that differ in what is counted alone."""
    groups: dict[str, Name] = {}
    for name in names:
        key, run = key_of(name), counted(name)[1]
        last = groups.get(key)
        if last is None or (len(run), run) > (len(counted(last)[1]), counted(last)[1]):
            groups[key] = name
    yield from groups.values()


def with_alike(names: Iterable[Name], writes: Iterable[Name]) -> frozenset[Name]:
    """Those of the files that a recipe writes which differ from one of some names in what is
    counted alone."""
    keys = {key_of(name) for name in names}
    return frozenset(name for name in writes if key_of(name) in keys)


def key_of(name: Name) -> str:
    """What is the same in names that differ in what is counted alone."""
    front, run, end = counted(name)
    return "\0".join([front, *kind_of(run), end])


def counted(name: Name) -> tuple[str, str, str]:
    """What counts in a name, with what stands before and behind it: nothing where nothing may."""
    end = "" if COUNTED.fullmatch(os.path.splitext(name)[1]) else os.path.splitext(name)[1]
    folder, base = os.path.split(name[: len(name) - len(end)])
    found = RUN.search(base)
    if found is None:
        return name, "", ""
    front = os.path.join(folder, base[: found.start()])
    return front, found[0], base[found.end() :] + end


def next_free(name: Name, taken: Container[Name]) -> Name | None:
    """The name after one, of those that aren't taken."""
    front, run, end = counted(name)
    while run:
        run = after(run)
        other = Name(f"{front}{run}{end}")
        if other not in taken:
            return other
    return None


def kind_of(run: str) -> tuple[str, str]:
    """The first and the last of the kind of what counts; nothing where nothing does."""
    return next(((first, last) for first, last in KINDS if first <= run[:1] <= last), ("", ""))


def after(run: str) -> str:
    """The run of digits or letters after one: `02` after `01`, `10` after `9`, `ba` after `az`.
    Nothing comes after the last one of letters."""
    first, last = kind_of(run)
    kept = run.rstrip(last)
    if not kept:
        return f"1{first * len(run)}" if first == "0" else ""
    return kept[:-1] + chr(ord(kept[-1]) + 1) + first * (len(run) - len(kept))
