"""Holds each length that docs/WHY.md says of a file, and each sum of these, to the files.

A length is how many lines aren't blank. It stands in a table, whose folder and sum stand in the
line above it, or behind the name of a file as `(N lines)`. A form that isn't known here is told, so
that nothing that is said goes unread.
"""

from __future__ import annotations

import re
from collections.abc import Iterator
from dataclasses import dataclass
from pathlib import Path

ROOT = Path(__file__).resolve().parents[2]
PAGE = ROOT / "docs" / "WHY.md"
HEAD = "| file | lines |"
TABLE = re.compile(
    rf"[Ii]n `([\w/]+/)`[^\n]*?, (\d+) lines[^\n]*\n\n{re.escape(HEAD)}[^\n]*\n((?:\|[^\n]*\n)+)"
)
ROW = re.compile(r"^\| `([\w/]+\.antt)` \| (\d+) \|", re.MULTILINE)
NAMED = re.compile(r"`(?:([\w/]+/))?(\w+\.antt)`\s\((\d+) lines\)")
GROUPS = re.compile(r"(\d+) lines in \w+ groups(.*?)(?=^## )", re.MULTILINE | re.DOTALL)
WHOLE = re.compile(r"With `(\w+\.antt)` these are (\d+) lines in (\d+) files")
LENGTH = re.compile(r"\d+ lines")


@dataclass(frozen=True)
class Claim:
    """A number of lines or files that a document states, and the number that is true."""

    what: str
    said: int
    true: int


@dataclass(frozen=True)
class Table:
    """The sum that is said of a table, and its files with their lengths as they are said."""

    folder: str
    said: int
    rows: dict[Path, int]


def length(file: Path) -> int:
    """How many lines of a file aren't blank; 0 where it isn't there."""
    text = file.read_text(encoding="utf-8") if file.is_file() else ""
    return sum(1 for line in text.split("\n") if line.strip())


def total(files: list[Path]) -> int:
    """The lengths of files, added up."""
    return sum(length(file) for file in files)


def tables(text: str) -> list[Table]:
    """The tables of a text; a name with a folder begins in `crates/`, another one in the folder of
    its table."""
    found = []
    for folder, said, rows in TABLE.findall(text):
        named = {
            ROOT / ("crates" if "/" in name else folder) / name: int(lines)
            for name, lines in ROW.findall(rows)
        }
        found.append(Table(folder, int(said), named))
    return found


def files_of(found: list[Table]) -> list[Path]:
    """The files of tables, in their order."""
    return [file for table in found for file in table.rows]


def named(text: str) -> dict[Path, int]:
    """The files outside of tables, with their lengths as said; one without folder lies beside the
    one before it."""
    folder, found = "", {}
    for own, name, lines in NAMED.findall(text):
        folder = own or folder
        found[ROOT / folder / name] = int(lines)
    return found


def claims(text: str) -> Iterator[Claim]:
    """All that a text says."""
    found, others = tables(text), named(text)
    said = [*others.items(), *(row for table in found for row in table.rows.items())]
    for file, lines in said:
        yield Claim(str(file.relative_to(ROOT)), lines, length(file))
    for table in found:
        yield Claim(f"the table of {table.folder}", table.said, total(list(table.rows)))
    for lines, part in GROUPS.findall(text):
        yield Claim("all groups", int(lines), total(files_of(tables(part))))
    for name, lines, count in WHOLE.findall(text):
        files = [*files_of(found), *(file for file in others if file.name == name)]
        yield Claim("all that is read", int(lines), total(files))
        yield Claim("the number of files of all that is read", int(count), len(set(files)))


def unread(text: str) -> int:
    """How many lengths or tables of a text have a form that isn't known here."""
    known = sum(len(form.findall(text)) for form in (TABLE, NAMED, GROUPS, WHOLE))
    return abs(len(LENGTH.findall(text)) - known) + abs(text.count(HEAD) - len(TABLE.findall(text)))


def wrong_lengths() -> int:
    """Prints each length that isn't as the page says it, and tells how many these are."""
    text = PAGE.read_text(encoding="utf-8")
    said = list(claims(text))
    wrong = [claim for claim in said if claim.said != claim.true]
    for claim in wrong:
        print(f"{PAGE.relative_to(ROOT)}: {claim.what}: {claim.true} and not {claim.said}")
    missed = unread(text)
    if missed:
        print(
            f"{PAGE.relative_to(ROOT)}: {missed} lengths are said in a way that tests/pages/lengths.py doesn't know"
        )
    print(
        f"pages: {len(said) - len(wrong)} lengths as they are said to be, {len(wrong) + missed} not"
    )
    return len(wrong) + missed
