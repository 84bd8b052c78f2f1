"""What is known of the project's folder while recipes run: its files, their modes, and its symbolic
links.

It is kept up to date from the calls that are traced, so that each path is followed over the links
as they were at the call, and not as they are when the command has ended.
"""

from __future__ import annotations

import functools
import os
import stat
from dataclasses import dataclass, field

from mkcheck_tools.run.folders import entries_of
from mkcheck_tools.run.paths import RealPath, SeenPath, seen_in
from mkcheck_tools.run.places import Place

LINKS_AT_MOST = 40
ROOT = SeenPath("/")


@dataclass(frozen=True)
class Owner:
    """The permissions of a file, its user and its group."""

    mode: int
    user: int
    group: int

    @classmethod
    def of(cls, status: os.stat_result) -> Owner:
        """Those of a status."""
        return cls(stat.S_IMODE(status.st_mode), status.st_uid, status.st_gid)


@dataclass
class Tree:
    """The project's folder at one call. All paths are real ones, as commands see them."""

    place: Place
    there: set[SeenPath] = field(default_factory=set)
    """Its files of each kind, and its links."""

    folders: set[SeenPath] = field(default_factory=set)
    links: dict[SeenPath, str] = field(default_factory=dict)
    """The texts of its symbolic links, and of those that recipes made elsewhere."""

    made: set[SeenPath] = field(default_factory=set)
    """The links that recipes made."""

    owners: dict[SeenPath, Owner] = field(default_factory=dict)
    """The permissions of files and folders."""

    users: dict[tuple[int, int], dict[SeenPath, str]] = field(default_factory=dict)
    """For each file of several names the names that recipes used, each with the target of the first
    recipe that did."""

    elsewhere: dict[SeenPath, str | None] = field(default_factory=dict)
    """The texts of other links elsewhere, each read once; None where a path is no link."""

    outside: dict[SeenPath, str] = field(default_factory=dict)
    """Files elsewhere that recipes wrote which have no footprint, each with the target."""

    followed: dict[SeenPath, tuple[SeenPath, tuple[SeenPath, ...]]] = field(default_factory=dict)
    """What `follow` gave for a path."""

    owned: dict[SeenPath, tuple[SeenPath, tuple[SeenPath, ...]]] = field(default_factory=dict)
    """What `own` gave for a path."""

    @classmethod
    def of(cls, place: Place) -> Tree:
        """The folder as it lies there now."""
        tree = cls(place)
        waiting = [(place.folder, place.seen)]
        while waiting:
            folder, seen = waiting.pop()
            status = tree.status(seen)
            if status is not None:
                tree.owners[seen] = Owner.of(status)
            for entry in entries_of(folder):
                path = seen_in(seen, entry.name)
                if entry.is_dir(follow_symlinks=False):
                    tree.folders.add(path)
                    waiting.append((RealPath(entry.path), path))
                else:
                    tree.note(path)
        return tree

    @property
    def root(self) -> SeenPath:
        """The folder's own path."""
        return self.place.seen

    @functools.cached_property
    def front(self) -> str:
        """What the paths of all that lies in the folder begin with."""
        return f"{self.root}/"

    def has(self, path: SeenPath) -> bool:
        """Whether a path lies in the folder."""
        return path.startswith(self.front)

    @property
    def has_links(self) -> bool:
        """Whether there is a symbolic link in the folder."""
        return any(map(self.has, self.links))

    def status(self, path: SeenPath) -> os.stat_result | None:
        """The status of what stands at a path itself now, if anything does."""
        try:
            return os.lstat(self.place.real(path))
        except OSError:
            return None

    def note(self, path: SeenPath) -> None:
        """Notes the file that stands at a path now, with its permissions, or the link's text."""
        status = self.status(path)
        if status is None or stat.S_ISDIR(status.st_mode):
            return
        self.there.add(path)
        if stat.S_ISLNK(status.st_mode):
            self.link(path, os.readlink(self.place.real(path)))
        else:
            self.owners[path] = Owner.of(status)

    def refresh(self, path: SeenPath) -> None:
        """Notes what stands at a path now in place of what the calls told of it."""
        status = self.status(path)
        if status is None or stat.S_ISDIR(status.st_mode):
            self.remove(path)
            if status is not None:
                self.folders.add(path)
                self.owners[path] = Owner.of(status)
            return
        self.folders.discard(path)
        if not stat.S_ISLNK(status.st_mode):
            self.made.discard(path)
            if self.links.pop(path, None) is not None:
                self.forget_ways()
        self.note(path)

    def link(self, path: SeenPath, text: str) -> None:
        """There is a link now."""
        self.there.add(path)
        if self.links.get(path) != text:
            self.links[path] = text
            self.forget_ways()

    def remove(self, path: SeenPath) -> None:
        """A file or a link is taken away."""
        self.there.discard(path)
        self.made.discard(path)
        if self.links.pop(path, None) is not None:
            self.forget_ways()
        self.owners.pop(path, None)
        if self.elsewhere.get(path) is not None:
            self.elsewhere[path] = None
            self.forget_ways()

    def move(self, old: SeenPath, new: SeenPath) -> list[tuple[SeenPath, SeenPath]]:
        """A file or a folder gets another name.

        Returns the old and the new names of all files that go with it.
        """
        moved = [(path, moved_to(path, old, new)) for path in self.inside(old)]
        for path in self.inside(new):
            self.remove(path)
        kept = [
            (goal, self.links.get(path), path in self.made, self.owners.get(path))
            for path, goal in moved
        ]
        for path, _ in moved:
            self.remove(path)
        for goal, text, made, owner in kept:
            self.there.add(goal)
            if text is not None:
                self.link(goal, text)
            if made:
                self.made.add(goal)
            if owner is not None:
                self.owners[goal] = owner
        if old in self.folders:
            inner = [path for path in self.folders if f"{path}/".startswith(f"{old}/")]
            self.folders.difference_update(inner)
            self.folders.update(moved_to(path, old, new) for path in inner)
            for path in inner:
                self.owners.pop(path, None)
        return moved

    def inside(self, path: SeenPath) -> list[SeenPath]:
        """The file at a path, or all files in the folder that stands there."""
        if path in self.there and path not in self.folders:
            return [path]
        return sorted(other for other in self.there if other.startswith(path + "/"))

    def link_at(self, path: SeenPath) -> str | None:
        """The text of a symbolic link: in the folder as calls left it, elsewhere as it is now."""
        text = self.links.get(path)
        # Links below /proc lead elsewhere for each process, so they aren't followed.
        if text is not None or self.has(path) or path == self.root or path.startswith("/proc/"):
            return text
        if path not in self.elsewhere:
            try:
                self.elsewhere[path] = os.readlink(self.place.real(path))
            except OSError:
                self.elsewhere[path] = None
        return self.elsewhere[path]

    def follow(self, path: SeenPath) -> tuple[SeenPath, tuple[SeenPath, ...]]:
        """The real path that an absolute path leads to, and the real paths of links on the way."""
        known = self.followed.get(path)
        if known is not None:
            return known
        links: list[SeenPath] = []
        done, rest = ROOT, path.split("/")
        rest.reverse()
        while rest:
            part = rest.pop()
            if part in ("", "."):
                continue
            if part == "..":
                done = SeenPath(os.path.dirname(done))
                continue
            here = SeenPath(done + "/" + part if done != ROOT else "/" + part)
            text = self.link_at(here) if len(links) < LINKS_AT_MOST else None
            if text is None:
                done = here
                continue
            links.append(here)
            if text.startswith("/"):
                done = ROOT
            rest.extend(reversed(text.split("/")))
        self.followed[path] = (done, tuple(links))
        return self.followed[path]

    def forget_ways(self) -> None:
        """A link is another one, so paths may lead elsewhere."""
        self.followed.clear()
        self.owned.clear()

    def own(self, path: SeenPath) -> tuple[SeenPath, tuple[SeenPath, ...]]:
        """The real path of a name itself, be it a link, and the links on the way to its folder."""
        known = self.owned.get(path)
        if known is None:
            folder, base = os.path.split(path.rstrip("/"))
            if base in ("", ".", ".."):
                known = self.follow(path)
            else:
                real, links = self.follow(SeenPath(folder))
                known = seen_in(real, base), links
            self.owned[path] = known
        return known


def moved_to(path: SeenPath, old: SeenPath, new: SeenPath) -> SeenPath:
    """Where a path leads when `old`, which is it or a folder above it, is called `new`."""
    return SeenPath(new + path[len(old) :])
