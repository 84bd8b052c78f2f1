"""The notes beside a footprint file: BOOK.notes, JSON, which belongs to these very footprints."""

from __future__ import annotations

import hashlib
import json
from collections.abc import Sequence
from dataclasses import asdict, dataclass
from pathlib import Path

from mkcheck_tools.book.choices import Choice
from mkcheck_tools.book.paths import path_of_notes
from mkcheck_tools.faults import Fault
from mkcheck_tools.judge.notes import KINDS, Note

FORMAT = 1


def digest_of(book: bytes) -> str:
    """What tells one footprint file from others."""
    return hashlib.sha256(book).hexdigest()


def text_of_notes(book: str, notes: Sequence[Note], choice: Choice | None = None) -> str:
    """The file of notes for footprints of this text, with a note on a line, and with what was
    asked for, if that is known."""
    lines = ",".join("\n" + compact(value_of(note)) for note in notes)
    head = (
        f'{{"format":{FORMAT},"book":{compact(digest_of(book.encode("utf-8", "surrogateescape")))}'
    )
    asked = "" if choice is None else f',"asked":{compact(asdict(choice))}'
    return f'{head}{asked},"notes":[{lines}]}}\n'


def value_of(note: Note) -> dict[str, str]:
    """A note as a JSON value."""
    return {
        "target": note.target,
        "kind": note.kind.word,
        "weight": note.kind.weight,
        "text": note.text,
    }


def compact(value: object) -> str:
    """A JSON value on one line."""
    return json.dumps(value, ensure_ascii=False, separators=(",", ":"))


@dataclass(frozen=True)
class Noted:
    """What is known of a recording beside its footprints. `missing` says why nothing is."""

    notes: tuple[Note, ...] = ()
    missing: str = ""

    @property
    def doubts(self) -> list[Note]:
        """The notes for which a yes may be wrong."""
        return [note for note in self.notes if note.is_doubt]

    @property
    def hints(self) -> list[Note]:
        """The other notes."""
        return [note for note in self.notes if not note.is_doubt]


def read_notes(book: str) -> Noted:
    """The notes beside a footprint file, if it has some. Raises Fault where these are damaged."""
    path = path_of_notes(book)
    try:
        whole = json.loads(Path(path).read_text(encoding="utf-8"))
        if whole["format"] != FORMAT:
            raise Fault(f"{path} is of another version of mkcheck-record: record again")
        notes = tuple(
            Note(str(one["target"]), KINDS[one["kind"]], str(one["text"])) for one in whole["notes"]
        )
        if whole["book"] != digest_of(Path(book).read_bytes()):
            return Noted(missing=f"{path} belongs to other footprints")
    except FileNotFoundError:
        return Noted()
    except (OSError, ValueError, KeyError, TypeError, RecursionError):
        raise Fault(f"{path} can't be read as notes: record again, or remove it") from None
    return Noted(notes)


def with_doubts(answer: str, noted: Noted) -> str:
    """An answer of yes, with the number of doubts, if there are some."""
    if noted.missing:
        return f"{answer}; doubts aren't known ({noted.missing})"
    count = len(noted.doubts)
    if not count:
        return answer
    return f"{answer}, with {count} doubt{'s' if count > 1 else ''}"
