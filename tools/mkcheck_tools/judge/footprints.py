"""The footprint of a recipe: what it reads and writes, by the names that the project uses."""

from __future__ import annotations

import os
import stat
import time
from collections.abc import Iterable, Iterator
from dataclasses import dataclass, field

from mkcheck_tools.answers.graphs import Recipe
from mkcheck_tools.faults import RecipeFault
from mkcheck_tools.judge.notes import Kind, Note, Warn
from mkcheck_tools.judge.unsteady import unsteady
from mkcheck_tools.run.folders import UNWRITTEN, Naming, is_cache, is_plain_path
from mkcheck_tools.run.paths import Name, SeenPath, seen_in
from mkcheck_tools.trace.accesses import DELETED, Accesses
from mkcheck_tools.trace.trees import Tree

TOLD_AT_MOST = 10
# Stands for an option, till the files are known that need it.
ANY_PREFIX = "--fixed PREFIX"
TWINS = "which are one file: mkcheck takes them for two, so let rules and recipes use one name"
# The name of the project's own folder.
HERE = Name(".")
# The folder that names all processes.
PROCESSES = SeenPath("/proc")
LOCK_CURE = "lock a folder in place of the file (flock . COMMAND, or exec 9<. and flock 9)"
# Some file systems keep stamps by two seconds.
COARSE = 2_500_000_000
SECOND = 1_000_000_000


@dataclass(frozen=True)
class Footprint:
    """What a recipe reads and what it leaves written, in the order of first use, and what else it
    does that other recipes may notice. All are names from the project's folder."""

    recipe: Recipe
    reads: list[Name]
    writes: list[Name]
    scratch: frozenset[Name] = frozenset()
    """Files and folders that it made or removed, and that are gone when it has ended. Some have
    names that footprints can't hold, and those outside of the project's folder are paths."""

    missed: frozenset[Name] = frozenset()
    """Files and folders that it failed to remove, named as those of `scratch`: nothing was there,
    or the folder wasn't empty."""

    lost: frozenset[Name] = frozenset()
    """Files that it removed and hadn't made."""

    links: list[Name] = field(default_factory=list)
    """Symbolic links of the project that it followed and that no recipe made."""

    owned: frozenset[Name] = frozenset()
    """Folders that it hadn't made, and whose mode, owner or attributes it changed."""

    sought: frozenset[Name] = frozenset()
    """Files that it looked for and that weren't there."""

    dropped: frozenset[Name] = frozenset()
    """Folders without files that it removed and hadn't made."""

    made: frozenset[Name] = frozenset()
    """Folders that it made and left there."""

    listed: frozenset[Name] = frozenset()
    """Folders whose names it read; `.` is the project's own."""

    late: str = ""
    """The key of its late files, if the replay ran it beside them; else empty."""

    met: frozenset[Name] = frozenset()
    """The late files that it then read."""

    taken: frozenset[Name] = frozenset()
    """The late files that it then wrote or removed."""

    seen: frozenset[Name] = frozenset()
    """Files of other recipes at which it looked, and without which its replay fails."""

    ports: frozenset[str] = frozenset()
    """Addresses, other than files, at which its processes serve."""

    processes: bool = False
    """Whether it looked through all processes."""

    locked: frozenset[Name] = frozenset()
    """Files and folders that it locked, named as those of `scratch`; `.` is the project's own."""

    tried: frozenset[Name] = frozenset()
    """Those of them for whose lock it wouldn't have waited, or only for a while."""

    clears: frozenset[Name] = frozenset()
    """Files that it writes, and before which it takes away others that are like them."""

    stale: frozenset[str] = frozenset()
    """The targets of other recipes that it would use more files of, had these left some before."""


def kind_of(tree: Tree, path: SeenPath) -> int:
    """The kind of what stands at a path itself; 0 where nothing does."""
    status = tree.status(path)
    return 0 if status is None else stat.S_IFMT(status.st_mode)


def file_of(tree: Tree, path: SeenPath) -> tuple[int, int] | None:
    """Which file stands at a path itself, where it has other names too."""
    status = tree.status(path)
    return None if status is None or status.st_nlink < 2 else (status.st_dev, status.st_ino)


def left(tree: Tree, paths: Iterable[SeenPath]) -> Iterator[SeenPath]:
    """The files and links among these that are there."""
    for path in paths:
        unwritten = path.startswith(UNWRITTEN) and not tree.has(path)
        if not unwritten and kind_of(tree, path) in (stat.S_IFREG, stat.S_IFLNK):
            yield path


def within(tree: Tree, paths: Iterable[SeenPath]) -> Iterator[SeenPath]:
    """What is in these folders, however deep."""
    for path in paths:
        if kind_of(tree, path) == stat.S_IFDIR:
            real = tree.place.real(path)
            yield from sorted(
                SeenPath(path + os.path.join(folder, name)[len(real) :])
                for folder, _, names in os.walk(real)
                for name in names
            )


def footprint_of(recipe: Recipe, accesses: Accesses, naming: Naming, warn: Warn) -> Footprint:
    """The footprint, when the recipe has ended.

    Each file needs a name. The tree then is as the recipe left it.
    """
    tree = accesses.tree
    lost = [path for path in accesses.lost if tree.status(path) is None]
    there = {*left(tree, accesses.reads), *lost}
    read = [path for path in accesses.reads if path in there and not is_needless(path, naming)]
    written = list(dict.fromkeys(left(tree, [*accesses.writes, *within(tree, accesses.moved)])))
    written = [path for path in written if not is_cache(path)]
    refuse_nameless(recipe, read, written, naming, accesses)
    for path in lost if written else ():
        warn_of_lost(recipe, naming.name_or_path(path), warn)
    here = set(written)
    dropped = [path for path in accesses.dropped if is_gone(path, accesses)]
    dropped = [path for path in dropped if not any(one.startswith(path + "/") for one in lost)]
    gone = [
        path
        for path in [*accesses.touched, *accesses.folders]
        if path not in here and is_gone(path, accesses) and not is_cache(path)
    ]
    for path in [*accesses.touched, *written, *filter(tree.has, accesses.owned)]:
        tree.refresh(path)
    for path in filter(tree.has, accesses.folders):
        tree.refresh(path)
    warn_of_configuration(recipe, accesses, naming, warn)
    warn_of_git(recipe, named(read, naming), naming, warn)
    warn_of_folders(recipe, accesses, naming, warn)
    warn_of_links(recipe, accesses, naming, warn)
    for path in dict.fromkeys(path for path in [*read, *written] if tree.has(path)):
        warn_of_twins(recipe, tree, naming, path, warn)
    for note in unsteady(recipe, accesses):
        warn(note)
    return Footprint(
        recipe,
        named(read, naming),
        named(written, naming),
        frozenset(naming.name_or_path(path) for path in [*gone, *dropped]),
        frozenset(naming.name_or_path(path) for path in accesses.missed if path not in here),
        frozenset(named((path for path in lost if not is_cache(path)), naming)),
        named(accesses.over, naming),
        frozenset(named(filter(tree.has, accesses.owned), naming)),
        frozenset(named((path for path in accesses.sought if not is_cache(path)), naming)),
        frozenset(naming.name_or_path(path) for path in dropped),
        frozenset(named(folders_made(accesses), naming)),
        frozenset(listed_in(accesses, naming)),
        ports=frozenset(accesses.ports),
        processes=PROCESSES in accesses.listed,
        locked=frozenset(locked_name(path, naming) for path in accesses.locked),
        tried=frozenset(locked_name(path, naming) for path in accesses.tried),
    )


def warn_of_lost(recipe: Recipe, name: Name, warn: Warn) -> None:
    """Warns of a file that a recipe takes away and hadn't made."""
    text = (
        f"the recipe of {recipe.target} takes away {name}, which it didn't make: let it leave that"
        " there"
    )
    warn(Note(recipe.target, Kind.REMOVED, text))


def warn_of_configuration(recipe: Recipe, accesses: Accesses, naming: Naming, warn: Warn) -> None:
    """Notes what a recipe reads of the configuration that programs have in the home folder."""
    for path in accesses.reads:
        if naming.is_configuration(path):
            text = (
                f"the recipe of {recipe.target} reads {shown(path)}, a program's configuration: it"
                " counts as a file that never changes, so record again when it does"
            )
            warn(Note(recipe.target, Kind.CONFIGURATION, text))


def warn_of_git(recipe: Recipe, read: list[Name], naming: Naming, warn: Warn) -> None:
    """Warns of a recipe that reads the state of git, which no prerequisite can stand for."""
    found = [name for name in read if ".git" in name.split("/") and not naming.is_fixed(name)]
    if found:
        more = f" and {len(found) - 1} more" if len(found) > 1 else ""
        text = (
            f"the recipe of {recipe.target} reads git's state ({found[0]}{more}), which each commit"
            " changes, and for which no line of a makefile can stand: write the version to a file"
            " outside of make, and let the recipe read that; --fixed .git takes the state for one"
            " that never changes"
        )
        warn(Note(recipe.target, Kind.GIT, text))


def folders_made(accesses: Accesses) -> Iterator[SeenPath]:
    """The folders that a recipe made, or renamed with what is in them, and that are there."""
    tree = accesses.tree
    moved: list[SeenPath] = []
    for path in accesses.moved:
        real = tree.place.real(path)
        if not os.path.islink(real):
            moved += [SeenPath(path + folder[len(real) :]) for folder, _, _ in os.walk(real)]
    for path in dict.fromkeys([*accesses.folders, *moved]):
        if kind_of(tree, path) == stat.S_IFDIR:
            yield path


def listed_in(accesses: Accesses, naming: Naming) -> Iterator[Name]:
    """The folders of the project whose names a recipe read."""
    for path in accesses.listed:
        if path == naming.root:
            yield HERE
        elif accesses.tree.has(path):
            yield Name(path[len(naming.root) + 1 :])


def locked_name(path: SeenPath, naming: Naming) -> Name:
    """The name of what a recipe locked: `.` for the project's folder, a path for what has none."""
    return HERE if path == naming.root else naming.name_or_path(path)


def is_gone(path: SeenPath, accesses: Accesses) -> bool:
    """Whether a file or a folder that a recipe made or took away is gone."""
    tree = accesses.tree
    if tree.has(path):
        return kind_of(tree, path) not in (stat.S_IFREG, stat.S_IFLNK, stat.S_IFDIR)
    if path.startswith(UNWRITTEN) or path.endswith(DELETED):
        return False
    return tree.status(path) is None


def has_name(path: SeenPath, naming: Naming) -> bool:
    """Whether footprints can name a file."""
    name = naming.name(path)
    return name is not None and is_plain_path(name)


def is_outside(path: SeenPath, naming: Naming) -> bool:
    """Whether a file lies outside of the project's folder."""
    return not path.startswith(naming.root + "/")


def refuse_forbidden(recipe: Recipe, accesses: Accesses, naming: Naming) -> None:
    """Refuses a recipe that would have written outside of the folder, were that not read-only."""
    refuse_nameless(recipe, [], list(accesses.forbidden), naming, accesses)


def is_needless(path: SeenPath, naming: Naming) -> bool:
    """Whether a read needs no name: it never changes and can't have one, or decides nothing."""
    name = naming.name(path)
    if naming.is_steady(path) or is_cache(path):
        return True
    return name is not None and naming.is_fixed(name) and not is_plain_path(name)


def named(paths: Iterable[SeenPath], naming: Naming) -> list[Name]:
    """The names of these files, of those that have one."""
    names = (name for path in paths if (name := naming.name(path)) is not None)
    return list(dict.fromkeys(name for name in names if is_plain_path(name)))


def refuse_nameless(
    recipe: Recipe,
    read: list[SeenPath],
    written: list[SeenPath],
    naming: Naming,
    accesses: Accesses,
) -> None:
    """Refuses files that no footprint can name, and says for each what helps. Those that the recipe
    reads may be written by another one that has no footprint."""
    locked, others = accesses.locked, accesses.tree.outside
    nameless = [("reads", path) for path in read] + [("writes", path) for path in written]
    nameless = [
        ("locks" if path in locked and is_outside(path, naming) else verb, path)
        for verb, path in nameless
        if not has_name(path, naming) or (verb == "writes" and is_outside(path, naming))
    ]
    if not nameless:
        return
    told: dict[str, list[tuple[str, SeenPath]]] = {}
    for verb, path in nameless:
        writer = others.get(path) if verb == "reads" else None
        text = what_helps(verb, path, naming) if writer is None else written_by(writer)
        told.setdefault(text, []).append((verb, path))
    lines: list[str] = []
    for text, files in told.items():
        text = text.replace(ANY_PREFIX, f"--fixed {prefix_above([p for _, p in files], naming)}")
        more = len(files) - TOLD_AT_MOST
        lines.append(f"the recipe of {recipe.target} {text}")
        lines += [f"\t{recipe.target} {verb} {shown(p)}" for verb, p in files[:TOLD_AT_MOST]]
        lines += [f"\tand {more} more"] if more > 0 else []
    raise RecipeFault("\n".join(lines))


def prefix_above(paths: list[SeenPath], naming: Naming) -> str:
    """The innermost folder that holds all these files, as it is given to --fixed; `PREFIX` where
    that is a home, or holds the project, and so may hold anything."""
    folder = os.path.commonpath([os.path.dirname(path) for path in paths])
    home = os.path.realpath(os.path.expanduser("~"))
    if folder.count("/") < 2 or folder == home or not is_plain_path(folder):
        return "PREFIX"
    if f"{naming.root}/".startswith(f"{folder}/"):
        return "PREFIX"
    is_near = folder.startswith(os.path.dirname(naming.root) + "/")
    return f"{os.path.relpath(folder, naming.root) if is_near else folder}/"


def written_by(target: str) -> str:
    """What is said of a file outside of the folder that another recipe writes."""
    return (
        f"reads files outside the folder that the recipe of {target} writes: let both use files in"
        " the folder"
    )


def what_helps(verb: str, path: SeenPath, naming: Naming) -> str:
    """What is said of a file that has no name."""
    if verb == "locks":
        return f"locks files outside the folder, which no footprint can name: {LOCK_CURE}"
    if verb == "writes" and is_outside(path, naming):
        return (
            "writes files outside the folder, which no footprint can name: let it write into the"
            " folder, or leave it out"
        )
    if naming.name(path) is not None:
        return (
            f"{verb} files whose names footprints can't hold, for a blank, a control character or a"
            " byte that isn't UTF-8: give them other names"
        )
    above = os.path.dirname(naming.root)
    if above != "/" and path.startswith(above + "/"):
        return (
            "reads files above the folder: record from the folder that holds both, where a makefile"
            f" there builds this one, or give {ANY_PREFIX} where they never change"
        )
    return (
        f"reads files that are neither in the folder nor under a fixed prefix: give {ANY_PREFIX}"
        " where they never change, else copy them into the folder"
    )


def shown(path: str) -> str:
    """A path that can be printed."""
    text = path.encode("utf-8", "surrogateescape").decode("utf-8", "backslashreplace")
    return text if text.isprintable() else ascii(text)[1:-1]


def warn_of_links(recipe: Recipe, accesses: Accesses, naming: Naming, warn: Warn) -> None:
    """A file that can change and is reached over a symbolic link in the folder is told with both
    names, unless the makefile has that name alone."""
    tree = accesses.tree
    for alias in accesses.aliases.values():
        if (
            any(tree.has(link) for link in alias.links)
            and kind_of(tree, alias.real) == stat.S_IFREG
        ):
            first, second = (
                naming.name_or_path(alias.name),
                naming.name_or_path(alias.real),
            )
            if naming.own.get(second) == first:
                continue
            if naming.is_fixed(first) and naming.is_fixed(second):
                continue
            text = (
                f"the recipe of {recipe.target} reaches {second} as {first} too, over a symbolic"
                " link: to mkcheck these are two files, so let rules and recipes use one name"
            )
            warn(Note(recipe.target, Kind.TWO_NAMES, text))


def warn_of_folders(recipe: Recipe, accesses: Accesses, naming: Naming, warn: Warn) -> None:
    """A folder that no footprint can name, and to which a recipe gave a mode, is told."""
    for path in accesses.owned:
        if not accesses.tree.has(path) or not has_name(path, naming):
            name = "the project's folder" if path == naming.root else f"the folder {shown(path)}"
            text = (
                f"the recipe of {recipe.target} gives {name} another mode, owner or attribute,"
                " which no footprint can say: other recipes may find the one or the other; let it"
                " leave that folder as it is"
            )
            warn(Note(recipe.target, Kind.MODE, text))


def warn_of_stamps(
    footprint: Footprint, accesses: Accesses, naming: Naming, begun: int, warn: Warn
) -> None:
    """A file is told to which a recipe gave a stamp from before its own begin, or of the future.
    So is a link to a file that is older.

    `begun` is the stamp of a file that was made then, in nanoseconds. The stamp of the only file
    that the recipe reads and that can change is new enough: each change of that file gives a later
    one.
    """
    tree = accesses.tree
    changing = changing_reads(footprint, naming)
    warn_of_old_links(footprint, tree, naming, begun, warn)
    only = tree.status(seen_in(tree.root, changing[0])) if len(changing) == 1 else None
    for name in footprint.writes:
        path = seen_in(tree.root, name)
        status = tree.status(path) if path in accesses.stamped else None
        if status is None or not stat.S_ISREG(status.st_mode):
            continue
        apart = 0 if status.st_ctime_ns % SECOND else COARSE
        front = f"the recipe of {footprint.recipe.target} gives {name}"
        if status.st_mtime_ns < begun - apart:
            if only is not None and only.st_mtime_ns == status.st_mtime_ns:
                continue
            text = (
                f"{front} an old stamp, as cp -p, touch -r and tar do: after a change of what it is"
                " made from it may still look old, and what needs it isn't made again; let the"
                f" recipe end with touch {name}"
            )
            warn(Note(footprint.recipe.target, Kind.STAMP, text))
        elif status.st_mtime_ns > time.time_ns() + COARSE:
            text = (
                f"{front} a stamp of the future: make takes it for newer than what changes until"
                f" then; let the recipe end with touch {name}"
            )
            warn(Note(footprint.recipe.target, Kind.STAMP, text))


def changing_reads(footprint: Footprint, naming: Naming) -> list[Name]:
    """The files that a recipe reads and that can change."""
    return [name for name in footprint.reads if not naming.is_fixed(name)]


def warn_of_old_links(
    footprint: Footprint, tree: Tree, naming: Naming, begun: int, warn: Warn
) -> None:
    """A link is told that a recipe makes and that leads to an older file, by whose stamp make goes.

    Where the recipe reads nothing else that can change, the link leads there each time.
    """
    for name in footprint.writes:
        path = seen_in(tree.root, name)
        if kind_of(tree, path) != stat.S_IFLNK:
            continue
        goal, _ = tree.follow(path)
        try:
            status = os.stat(tree.place.real(goal))
        except OSError:
            continue
        apart = 0 if status.st_ctime_ns % SECOND else COARSE
        other = naming.name_or_path(goal)
        if status.st_mtime_ns < begun - apart and {*changing_reads(footprint, naming)} - {other}:
            text = (
                f"the recipe of {footprint.recipe.target} makes {name} a link to {shown(other)},"
                " which is older, and make goes by the stamp of that: after a change of what the"
                f" recipe reads, {name} may still look old, and what needs it isn't made again; let"
                " the recipe make a file in place of the link"
            )
            warn(Note(footprint.recipe.target, Kind.OLD_LINK, text))


def warn_of_twins(recipe: Recipe, tree: Tree, naming: Naming, path: SeenPath, warn: Warn) -> None:
    """Warns of a file that is used by two names, hard links; of each name once."""
    file = file_of(tree, path)
    if file is None:
        return
    users = tree.users.setdefault(file, {})
    other = next((other for other in users if other != path and file_of(tree, other) == file), None)
    if path not in users and other is not None:
        name, other_name, target = naming.name(path), naming.name(other), users[other]
        own = f"the recipe of {recipe.target} uses"
        if target == recipe.target:
            warn(Note(recipe.target, Kind.TWO_NAMES, f"{own} {other_name} and {name}, {TWINS}"))
        else:
            warn(
                Note(
                    recipe.target,
                    Kind.TWO_NAMES,
                    f"{own} {name}, and that of {target} {other_name}, {TWINS}",
                )
            )
    users.setdefault(path, recipe.target)
