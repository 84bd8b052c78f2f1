"""What `--update` knows of the recording before: a file and a folder beside the footprints.
The file is JSON. It is believed only where it is whole, and was written under the same conditions:
by the same recorder, with the same options, for the same user, in the same environment. It has what
was recorded so far, also where a recording was stopped, or recipes of it failed.
"""

from __future__ import annotations

import hashlib
import json
import re
from collections.abc import Iterable, Mapping
from dataclasses import asdict, dataclass, field, fields, replace
from pathlib import Path
from typing import Any

from mkcheck_tools.answers.graphs import Recipe
from mkcheck_tools.book.choices import Choice
from mkcheck_tools.judge.footprints import Footprint
from mkcheck_tools.judge.notes import KINDS, Note
from mkcheck_tools.replay.versions import FILE, FOLDER, LINK, THERE, Version
from mkcheck_tools.replay.worlds import Effects, Trial
from mkcheck_tools.run.folders import is_own, is_plain_path
from mkcheck_tools.run.paths import Name

FORMAT = 7
DIGEST = re.compile(r"[0-9a-f]{64}")
VERSIONS = (FILE, LINK, FOLDER, THERE, "pipe", "socket", "device")


class Unusable(Exception):
    """A state that can't be used; its text is a sentence without its subject, the file."""


@dataclass(frozen=True)
class Entry:
    """What is known of a recipe: its footprint, looks, what it left, its notes, and the digest
    of what is always made before it."""

    footprint: Footprint
    looks: Mapping[Name, Version | None]
    lists: Mapping[Name, str]
    after: Mapping[Name, Version | None]
    made: tuple[Name, ...]
    notes: tuple[Note, ...]
    order: str
    waiting: Effects | None = None
    """What it did, where it has still to be replayed."""

    begun: float = 0.0
    """The time of the clock when it began."""

    seconds: float = 0.0
    """How long it ran."""

    @classmethod
    def of(cls, footprint: Footprint, trial: Trial, notes: Iterable[Note], order: str) -> Entry:
        """What is to be known of a recipe that ran and whose replay is done."""
        after = {
            name: version
            for name, version in trial.after.items()
            if trial.before.get(name) is not version
        }
        after.update((name, None) for name, version in trial.after.items() if version is None)
        return cls(footprint, trial.looks, trial.lists, after, trial.made, tuple(notes), order)

    def unreplayed(self, trial: Trial) -> Entry:
        """The same of one whose replay isn't done."""
        return replace(self, waiting=trial.effects, begun=trial.begun, seconds=trial.seconds)


@dataclass(frozen=True)
class State:
    """The conditions of a recording, what was asked for, an entry for each target."""

    conditions: Mapping[str, str]
    choice: Choice
    entries: Mapping[str, Entry] = field(default_factory=dict)

    def digests(self) -> set[str]:
        """The digests of all files that recipes left."""
        left = (version for entry in self.entries.values() for version in entry.after.values())
        return {version.content for version in left if version is not None and version.kind == FILE}


def digest_of(text: str) -> str:
    """A digest of a text."""
    return hashlib.sha256(text.encode("utf-8", "surrogateescape")).hexdigest()


def packed(value: object) -> str:
    """A JSON value on one line, in ASCII: names may hold bytes that are no UTF-8."""
    return json.dumps(value, separators=(",", ":"))


def text_of(state: State) -> str:
    """The file. A digest of what it holds shows whether it is whole."""
    body = Writer().body(state)
    return packed({"format": FORMAT, "digest": digest_of(packed(body)), "state": body}) + "\n"


def content_of(path: str, absent: str, unreadable: str) -> str:
    """The text of a file. Raises Unusable, with one of these texts, where there is none."""
    try:
        return Path(path).read_text(encoding="utf-8")
    except FileNotFoundError:
        raise Unusable(absent) from None
    except (OSError, UnicodeDecodeError):
        raise Unusable(unreadable) from None


def read(path: str) -> State:
    """The state that lies at a path. Raises Unusable."""
    content = content_of(path, "isn't there", "can't be read")
    try:
        whole = json.loads(content)
        body = whole["state"]
        if whole["format"] != FORMAT:
            raise Unusable("is of another version of mkcheck-record")
        if digest_of(packed(body)) != whole["digest"]:
            raise Unusable("isn't whole")
        state = Reader().state(body)
    except (ValueError, KeyError, TypeError, AttributeError, IndexError, RecursionError):
        raise Unusable("isn't whole") from None
    return state


def read_choice(path: str) -> Choice | None:
    """What was asked for in the recording whose state lies at a path, if that can be read; the
    conditions count for nothing here."""
    try:
        whole = json.loads(Path(path).read_text(encoding="utf-8"))
        if digest_of(packed(whole["state"])) != whole["digest"]:
            return None
        return choice_of(whole["state"]["choice"])
    except (OSError, ValueError, KeyError, TypeError, AttributeError, RecursionError):
        return None


def choice_of(value: Mapping[str, object]) -> Choice:
    """What was asked for, of a JSON value."""
    makefile = value["makefile"]
    return Choice(
        None if makefile is None else text(makefile),
        value["bare"] is True,
        tuple(texts(value["prefixes"])),
        tuple(texts(value["words"])),
        tuple(texts(value["trusted"])),
        tuple(texts(value["opaque"])),
        tuple(texts(value["steady"])),
    )


@dataclass
class Writer:
    """Writes a state. Each name with what stood there is written once, and has a number."""

    table: list[list[object]] = field(default_factory=list)
    numbers: dict[tuple[str, Version | None], int] = field(default_factory=dict)

    def body(self, state: State) -> dict[str, object]:
        """The state as a JSON value."""
        entries = [self.entry(entry) for entry in state.entries.values()]
        return {
            "conditions": dict(state.conditions),
            "choice": asdict(state.choice),
            "names": self.table,
            "recipes": entries,
        }

    def entry(self, entry: Entry) -> dict[str, object]:
        """An entry as a JSON value."""
        own = entry.footprint
        return {
            "target": own.recipe.target,
            "commands": own.recipe.lines,
            "shell": own.recipe.shell,
            "strict": own.recipe.strict,
            "ignoring": own.recipe.ignoring,
            "reads": own.reads,
            "writes": own.writes,
            "scratch": sorted(own.scratch),
            "missed": sorted(own.missed),
            "sought": sorted(own.sought),
            "lost": sorted(own.lost),
            "links": own.links,
            "looks": self.versions(entry.looks),
            "lists": dict(entry.lists),
            "after": self.versions(entry.after),
            "made": list(entry.made),
            "listed": sorted(own.listed),
            "late": own.late,
            "met": sorted(own.met),
            "taken": sorted(own.taken),
            "seen": sorted(own.seen),
            "ports": sorted(own.ports),
            "processes": own.processes,
            "locked": sorted(own.locked),
            "tried": sorted(own.tried),
            "clears": sorted(own.clears),
            "stale": sorted(own.stale),
            "notes": [[note.kind.word, note.text] for note in entry.notes],
            "order": entry.order,
            "waiting": values_of(entry.waiting),
            "begun": entry.begun,
            "seconds": entry.seconds,
        }

    def versions(self, versions: Mapping[Name, Version | None]) -> list[int]:
        """The numbers of these names with what stood there."""
        return [self.number(name, version) for name, version in versions.items()]

    def number(self, name: Name, version: Version | None) -> int:
        """The number of a name with what stood there."""
        found = self.numbers.get((name, version))
        if found is None:
            found = self.numbers[name, version] = len(self.table)
            row = [] if version is None else [version.kind, version.mode, version.content]
            self.table.append([name, *row])
        return found


@dataclass
class Reader:
    """Reads a state. What is of another shape raises ValueError, KeyError or TypeError."""

    table: list[tuple[Name, Version | None]] = field(default_factory=list)

    def state(self, body: dict[str, Any]) -> State:
        """The state of a JSON value."""
        self.table = [self.row(row) for row in body["names"]]
        conditions = {text(name): text(value) for name, value in body["conditions"].items()}
        entries = [self.entry(entry) for entry in body["recipes"]]
        return State(
            conditions,
            choice_of(body["choice"]),
            {entry.footprint.recipe.target: entry for entry in entries},
        )

    def row(self, row: list[Any]) -> tuple[Name, Version | None]:
        """A name with what stood there."""
        if len(row) == 1:
            return Name(text(row[0])), None
        name, kind, mode, content = row
        if kind not in VERSIONS or type(mode) is not int or not 0 <= mode < 0o10000:
            raise ValueError("no version")
        if kind == FILE and not DIGEST.fullmatch(text(content)):
            raise ValueError("no digest")
        return Name(text(name)), Version(kind, mode, text(content))

    def entry(self, entry: dict[str, Any]) -> Entry:
        """The entry of a JSON value. What the recipe left has to lie in the project."""
        recipe = Recipe(
            text(entry["target"]),
            texts(entry["commands"]),
            text(entry["shell"]),
            entry["strict"] is True,
            entry["ignoring"] is True,
        )
        footprint = Footprint(
            recipe,
            names(entry["reads"]),
            names(entry["writes"]),
            frozenset(names(entry["scratch"])),
            frozenset(names(entry["missed"])),
            frozenset(names(entry["lost"])),
            names(entry["links"]),
            sought=frozenset(names(entry["sought"])),
            made=frozenset(names(entry["made"])),
            listed=frozenset(names(entry["listed"])),
            late=text(entry["late"]),
            met=frozenset(names(entry["met"])),
            taken=frozenset(names(entry["taken"])),
            seen=frozenset(names(entry["seen"])),
            ports=frozenset(texts(entry["ports"])),
            processes=entry["processes"] is True,
            locked=frozenset(names(entry["locked"])),
            tried=frozenset(names(entry["tried"])),
            clears=frozenset(names(entry["clears"])),
            stale=frozenset(texts(entry["stale"])),
        )
        after = self.versions(entry["after"])
        made = names(entry["made"])
        for name in [*after, *made]:
            if not is_plain_path(name) or not is_own(name):
                raise ValueError("no name of the project")
        lists = {Name(text(name)): text(value) for name, value in entry["lists"].items()}
        looks = self.versions(entry["looks"])
        notes = tuple(
            Note(recipe.target, KINDS[text(kind)], text(said)) for kind, said in entry["notes"]
        )
        return Entry(
            footprint,
            looks,
            lists,
            after,
            tuple(made),
            notes,
            text(entry["order"]),
            effects_of(entry["waiting"]),
            float(entry["begun"]),
            float(entry["seconds"]),
        )

    def versions(self, numbers: list[int]) -> dict[Name, Version | None]:
        """Names with what stood there, by their numbers."""
        return dict(self.table[number] for number in numbers if number >= 0)


def values_of(effects: Effects | None) -> dict[str, list[str]] | None:
    """What a recipe did, as a JSON value."""
    if effects is None:
        return None
    return {one.name: list(getattr(effects, one.name)) for one in fields(effects)}


def effects_of(value: Mapping[str, object] | None) -> Effects | None:
    """What a recipe did, of a JSON value."""
    if value is None:
        return None
    found = {one.name: tuple(names(value[one.name])) for one in fields(Effects)}
    locked, caches = frozenset(found.pop("locked")), frozenset(found.pop("caches"))
    return Effects(**found, locked=locked, caches=caches)


def text(value: object) -> str:
    """A value that has to be a text."""
    if not isinstance(value, str):
        raise TypeError("no text")
    return value


def names(value: object) -> list[Name]:
    """A value that has to be a list of names."""
    return [Name(one) for one in texts(value)]


def texts(value: object) -> list[str]:
    """A value that has to be a list of texts."""
    if not isinstance(value, list):
        raise TypeError("no list")
    return [text(one) for one in value]
