"""The settings of a project: mkcheck.toml, and files of findings that are accepted."""

from __future__ import annotations

import os
import tomllib
from dataclasses import dataclass
from pathlib import Path
from typing import Any

from mkcheck_tools.answers.findings import KINDS
from mkcheck_tools.audit.accepting import Accepted
from mkcheck_tools.faults import Fault

NAME = "mkcheck.toml"
LISTS = ("goals", "macros", "fixed", "trust")
KEYS = (*LISTS, "jobs", "accept", "baseline")
ENTRY = ("kind", "target", "file", "reason")
EXAMPLE = 'as in accept = [{kind = "stale", target = "a.o", file = "a.h", reason = "why"}]'


@dataclass(frozen=True)
class Settings:
    """What a project has set."""

    goals: tuple[str, ...] = ()
    macros: tuple[str, ...] = ()
    """Macro operands, as `CC=gcc`."""

    fixed: tuple[str, ...] = ()
    trust: tuple[str, ...] = ()
    jobs: int | None = None
    accept: tuple[Accepted, ...] = ()
    baseline: str | None = None


def settings_in(root: str) -> Settings:
    """The settings of a project; nothing is set where there is no such file."""
    path = Path(root, NAME)
    if not os.path.lexists(path):
        return Settings()
    values = read(path, NAME)
    for key in values:
        if key not in KEYS:
            raise Fault(f"{NAME}: there is no setting {key}; there are {', '.join(KEYS)}")
    goals, macros, fixed, trust = (texts(values, key) for key in LISTS)
    for word in macros:
        if "=" not in word:
            raise Fault(f'{NAME}: macros: {word} has no =, as in macros = ["CC=gcc"]')
    return Settings(
        goals, macros, fixed, trust, jobs_in(values), accepted_in(values, NAME), file_in(values)
    )


def read(path: Path, name: str) -> dict[str, Any]:
    """The values of a TOML file."""
    try:
        return tomllib.loads(path.read_text(encoding="utf-8"))
    except OSError as error:
        raise Fault(f"{name} can't be read: {error.strerror}") from None
    except ValueError as error:
        raise Fault(f"{name} is no TOML file: {error}") from None


def texts(values: dict[str, Any], key: str) -> tuple[str, ...]:
    """A setting that is a list of texts. Macros may be a table, too."""
    value = values.get(key, [])
    if key == "macros" and isinstance(value, dict):
        value = [f"{name}={text}" for name, text in value.items() if isinstance(text, str)]
        if len(value) < len(values[key]):
            raise Fault(f'{NAME}: {key}: each value is a text, as in macros = {{CC = "gcc"}}')
    if not isinstance(value, list) or not all(isinstance(one, str) and one for one in value):
        raise Fault(f'{NAME}: {key} is a list of texts, as in {key} = ["one", "two"]')
    return tuple(value)


def jobs_in(values: dict[str, Any]) -> int | None:
    """How many processors are used."""
    jobs = values.get("jobs")
    if jobs is not None and (isinstance(jobs, bool) or not isinstance(jobs, int) or jobs < 1):
        raise Fault(f"{NAME}: jobs is a number from 1 on")
    return jobs


def file_in(values: dict[str, Any]) -> str | None:
    """The name of the file of accepted findings."""
    name = values.get("baseline")
    if name is not None and (not isinstance(name, str) or not name):
        raise Fault(f'{NAME}: baseline is the name of a file, as in baseline = "mkcheck.baseline"')
    return name


def accepted_in(values: dict[str, Any], origin: str) -> tuple[Accepted, ...]:
    """The entries on accepted findings."""
    entries = values.get("accept", [])
    if not isinstance(entries, list):
        raise Fault(f"{origin}: accept is a list of tables, {EXAMPLE}")
    return tuple(entry_of(entry, f"{origin}: accept {at}") for at, entry in enumerate(entries, 1))


def entry_of(entry: object, where: str) -> Accepted:
    """One entry."""
    if not isinstance(entry, dict) or not all(isinstance(one, str) for one in entry.values()):
        raise Fault(f"{where}: an entry is a table of texts, {EXAMPLE}")
    for key in entry:
        if key not in ENTRY:
            raise Fault(f"{where}: there is no {key} in an entry; there are {', '.join(ENTRY)}")
    if entry.get("kind", KINDS[0]) not in KINDS:
        raise Fault(f"{where}: there is no kind {entry['kind']}; there are {', '.join(KINDS)}")
    for key in ("kind", "target", "reason"):
        if not entry.get(key, "").strip():
            raise Fault(f"{where}: {key} is missing, {EXAMPLE}")
    return Accepted(
        entry["kind"],
        entry["target"],
        entry.get("file", "*"),
        entry["reason"],
        where.partition(":")[0],
    )
