"""Folders of a project into which a package manager installed: they count as fixed, as programs of
the system do, unless the project's makefiles install there themselves."""

from __future__ import annotations

import os
import re
from dataclasses import dataclass
from pathlib import Path

from mkcheck_tools.run.folders import entries_of, is_plain_path

# How far below the project's folder such a folder is looked for.
DEPTH = 2
MAKEFILE = re.compile(
    r"(?i)(?:gnu)?makefile(?:\..*)?|.*\.mk|build\.ninja|meson\.build|cmakelists\.txt"
)


@dataclass(frozen=True)
class Manager:
    """A package manager: what its folders are, the file by which each is known, and the words of
    commands that install into one."""

    what: str
    marker: str
    installing: re.Pattern[str]

    def has(self, folder: str) -> bool:
        """Whether a folder is one of its."""
        return os.path.isfile(os.path.join(folder, self.marker))


MANAGERS = (
    Manager(
        "an environment of Python",
        "pyvenv.cfg",
        re.compile(r"\bvenv\b(?!/)|virtualenv|\bpip[0-9.]* install|\buv (?:sync|pip|venv)|poetry"),
    ),
    Manager(
        "an environment of conda",
        "conda-meta/history",
        re.compile(r"\b(?:conda|mamba|micromamba) (?:create|install|env|update)"),
    ),
    Manager(
        "what npm installed",
        ".package-lock.json",
        re.compile(r"\bnpm (?:ci|i|install|update)\b"),
    ),
    Manager("what yarn installed", ".yarn-integrity", re.compile(r"\byarn\b")),
    Manager(
        "what pnpm installed",
        ".modules.yaml",
        re.compile(r"\bpnpm (?:i|install|add|update)\b"),
    ),
)


@dataclass(frozen=True)
class Environment:
    """A folder into which a package manager installed, by its name in the project's folder."""

    name: str
    manager: Manager

    @property
    def prefix(self) -> str:
        """The prefix of its files."""
        return f"{self.name}/"

    @property
    def sentence(self) -> str:
        """What is presumed of it."""
        return f"{self.prefix} is {self.manager.what}: it counts as files that never change"


def environments_in(root: str) -> tuple[Environment, ...]:
    """Those of a project, sorted by their names. A manager by whose commands a makefile installs
    has none."""
    found = [one for one in folders_below(root, "", DEPTH) if is_plain_path(one.name)]
    if not found:
        return ()
    texts = [text_of(path) for path in makefiles_in(root)]
    return tuple(
        one for one in found if not any(one.manager.installing.search(text) for text in texts)
    )


def folders_below(root: str, name: str, depth: int) -> list[Environment]:
    """The folders of package managers, none of which lies in another one."""
    found: list[Environment] = []
    for entry in sorted(entries_of(os.path.join(root, name)), key=lambda entry: entry.name):
        if not entry.is_dir(follow_symlinks=False):
            continue
        inner = os.path.join(name, entry.name)
        manager = next((one for one in MANAGERS if one.has(entry.path)), None)
        if manager is not None:
            found.append(Environment(inner, manager))
        elif depth > 1:
            found += folders_below(root, inner, depth - 1)
    return found


def makefiles_in(root: str) -> list[str]:
    """The paths of files in a project's folder, and in the folders there, that look as makefiles
    by their names."""
    inner = (entry.path for entry in entries_of(root) if entry.is_dir(follow_symlinks=False))
    return [
        entry.path
        for folder in (root, *inner)
        for entry in entries_of(folder)
        if MAKEFILE.fullmatch(entry.name) and entry.is_file()
    ]


def text_of(path: str) -> str:
    """The text of a file; empty where it can't be read."""
    try:
        return Path(path).read_text(encoding="utf-8", errors="replace")
    except OSError:
        return ""
