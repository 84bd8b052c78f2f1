"""All on which a recording depends, so that an update without a change needs no more than a look.

They lie beside the footprints, with the stamps of files (device, number, size and times): where a
file has the same stamp, its digest needn't be computed. A folder's stamp stands for its names.
"""

from __future__ import annotations

import hashlib
import json
import os
import stat
from collections.abc import Collection, Iterable, Mapping
from dataclasses import asdict, dataclass, field, replace

from mkcheck_tools.book.choices import Choice
from mkcheck_tools.book.paths import path_of_stamps, path_of_state
from mkcheck_tools.replay.versions import (
    FILE,
    FOLDER,
    KINDS,
    LINK,
    THERE,
    Stamp,
    Version,
    digest_of,
    is_settled,
    know_digest,
    stamp_of,
)
from mkcheck_tools.run.paths import RealPath

FORMAT = 2
# Variables that tell of the terminal and the session, and nothing of the build.
OF_SESSION = frozenset(
    "_ OLDPWD PWD SHLVL TERM COLUMNS LINES WINDOWID DISPLAY WAYLAND_DISPLAY XAUTHORITY"
    " SESSION_MANAGER COLORTERM TMUX TMUX_PANE STY WINDOW SSH_CLIENT SSH_CONNECTION SSH_TTY"
    " SSH_AUTH_SOCK SSH_AGENT_PID GPG_AGENT_INFO LS_COLORS DBUS_SESSION_BUS_ADDRESS XDG_SESSION_ID"
    " XDG_RUNTIME_DIR XDG_VTNR XDG_SEAT INVOCATION_ID JOURNAL_STREAM VTE_VERSION TERM_PROGRAM"
    " TERM_PROGRAM_VERSION TERM_SESSION_ID MKCHECK".split()
)


@dataclass(frozen=True)
class Premises:
    """What stood where when a recording was whole, and what else it depends on."""

    folder: str
    """The project's folder, from which names are."""

    choice: Choice
    asked: Mapping[str, str]
    """What else has to be the same: options, the user, the places of programs."""

    looks: Mapping[str, Version | None]
    """What stands at each name, be it nothing."""

    lists: Mapping[str, str]
    """Digests of the names in folders, as `names_in` gives them."""

    recipes: int
    """How many recipes there are."""

    conditions: str = ""
    """On what recipes go beside their commands and files, as `--keep` writes it."""

    salt: str = ""
    variables: Mapping[str, str] = field(default_factory=dict)
    """Digests of the variables of the environment."""

    stamps: Mapping[str, Stamp] = field(default_factory=dict)
    """The stamps of files and folders, where they can be relied on."""

    def stands_for(self, book: str) -> bool:
        """Whether the state of a footprint file is the one that belongs to these premises."""
        path = path_of_state(book)
        return path in self.looks and self.stands(path, self.looks[path])

    def hold(self, hidden: Collection[str]) -> bool:
        """Whether all stands as it stood. `hidden` are paths that count for nothing."""
        return all(self.stands(name, version) for name, version in self.looks.items()) and all(
            self.lists_same(name, digest, hidden) for name, digest in self.lists.items()
        )

    def stands(self, name: str, version: Version | None) -> bool:
        """Whether this stands at a name now."""
        path = RealPath(os.path.join(self.folder, name))
        try:
            status = os.lstat(path)
        except OSError:
            return version is None
        if version is None:
            return False
        kind = KINDS.get(stat.S_IFMT(status.st_mode), "device")
        if version.kind == THERE or kind != version.kind:
            return version.kind == THERE
        if kind == FOLDER:
            return True
        if kind == LINK:
            return os.readlink(path) == version.content
        if stat.S_IMODE(status.st_mode) != version.mode:
            return False
        is_known = kind != FILE or self.stamps.get(path) == stamp_of(status)
        return is_known or digest_of(path) == version.content

    def lists_same(self, name: str, digest: str, hidden: Collection[str]) -> bool:
        """Whether a folder has the same names now."""
        path = os.path.join(self.folder, name)
        try:
            if path in self.stamps and self.stamps[path] == stamp_of(os.stat(path)):
                return True
        except OSError:
            return False
        return names_in(path, hidden) == digest

    def stamped(self, hidden: Collection[str]) -> Premises | None:
        """The same, with the stamps of now; None where not all stands as it stood. The stamps come
        first, so a file that is changed meanwhile has another one."""
        stamps: dict[str, Stamp] = {}
        files = (name for name, one in self.looks.items() if one is not None and one.kind == FILE)
        folders = (name for name in self.lists if not has_links(os.path.join(self.folder, name)))
        for name in (*files, *folders):
            path = os.path.join(self.folder, name)
            try:
                stamp = stamp_of(os.stat(path))
            except OSError:
                continue
            if is_settled(stamp):
                stamps[path] = stamp
        # Nothing is taken by its stamp here, since that may be the one of other bytes.
        return replace(self, stamps=stamps) if replace(self, stamps={}).hold(hidden) else None

    def know(self) -> None:
        """From now on the digests of files are known by their stamps."""
        for name, version in self.looks.items():
            stamp = self.stamps.get(os.path.join(self.folder, name))
            if version is not None and version.kind == FILE and stamp is not None:
                know_digest(stamp, version.content)

    def text(self) -> str:
        """The file. A digest of what it holds shows whether it is whole."""
        body = {
            "folder": self.folder,
            "choice": asdict(self.choice),
            "asked": dict(self.asked),
            "looks": [row_of(name, version) for name, version in self.looks.items()],
            "lists": dict(self.lists),
            "recipes": self.recipes,
            "conditions": self.conditions,
            "salt": self.salt,
            "variables": dict(self.variables),
            "stamps": {path: list(stamp) for path, stamp in self.stamps.items()},
        }
        text = packed(body)
        return f"{packed([FORMAT, digest_of_text(text)])}\n{text}\n"


def read(book: str) -> Premises | None:
    """The premises of footprints, if they lie beside them and can be read."""
    try:
        with open(path_of_stamps(book), encoding="ascii") as file:
            head, text = file.read().removesuffix("\n").split("\n")
        if json.loads(head) != [FORMAT, digest_of_text(text)]:
            return None
        body = json.loads(text)
        choice = body["choice"]
        listed = {name: tuple(one) for name, one in choice.items() if isinstance(one, list)}
        return Premises(
            body["folder"],
            Choice(**{**choice, **listed}),
            body["asked"],
            {row[0]: Version(*row[1:]) if len(row) > 1 else None for row in body["looks"]},
            body["lists"],
            body["recipes"],
            body["conditions"],
            body["salt"],
            body["variables"],
            {path: stamp_in(row) for path, row in body["stamps"].items()},
        )
    except (OSError, ValueError, KeyError, TypeError, AttributeError, RecursionError):
        return None


def stamp_in(row: list[int]) -> Stamp:
    """A stamp of a JSON value."""
    device, number, size, modified, changed = row
    return device, number, size, modified, changed


def row_of(name: str, version: Version | None) -> list[object]:
    """A name with what stands there, as a JSON value."""
    row = [] if version is None else [version.kind, version.mode, version.content]
    return [name, *row]


def packed(value: object) -> str:
    """A JSON value on one line, in ASCII: names may hold bytes that are no UTF-8."""
    return json.dumps(value, separators=(",", ":"))


def digest_of_text(text: str) -> str:
    """A digest of a text."""
    return hashlib.sha256(text.encode("utf-8", "surrogateescape")).hexdigest()


def variables_now(names: Iterable[str], salt: str) -> dict[str, str]:
    """Digests of all variables but those of a session, unless these are among some names: values
    may be secrets. One that isn't set has none."""
    own = (name for name in os.environ if name not in OF_SESSION)
    return {
        name: digest_of_text(f"{salt} {name}={os.environ[name]}") if name in os.environ else ""
        for name in {*own, *names}
    }


def names_in(folder: str, hidden: Collection[str]) -> str:
    """A digest of what a folder holds: names with their kinds, and where links lead."""
    try:
        with os.scandir(folder) as found:
            rows = sorted(
                (entry.name, entry.is_dir(follow_symlinks=False), goal_of(entry))
                for entry in found
                if entry.path not in hidden
            )
    except OSError:
        return ""
    return digest_of_text(packed(rows))


def has_links(folder: str) -> bool:
    """Whether a folder holds links: its stamp doesn't tell what is where they lead."""
    try:
        with os.scandir(folder) as found:
            return any(entry.is_symlink() for entry in found)
    except OSError:
        return True


def goal_of(entry: os.DirEntry[str]) -> str:
    """Where a link leads, and whether to a file; nothing for what is none."""
    if not entry.is_symlink():
        return ""
    return f"{os.readlink(entry.path)} {entry.is_file()} {entry.is_dir()}"
