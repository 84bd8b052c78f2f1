"""What was asked for in the recording before: by its state, its notes, or its footprints."""

from __future__ import annotations

import json
from pathlib import Path

from mkcheck_tools.book.choices import Choice
from mkcheck_tools.book.note_files import digest_of, read_notes
from mkcheck_tools.book.paths import path_of_notes, path_of_state
from mkcheck_tools.book.states import choice_of, read_choice, texts
from mkcheck_tools.faults import Fault
from mkcheck_tools.judge.notes import Kind
from mkcheck_tools.run.toolchains import fixed_prefixes

TRUSTS = (Kind.TRUSTED, Kind.TRUSTED_NEEDLESSLY)


def choice_before(book: str) -> Choice:
    """What was asked for in the recording whose footprints lie at a path."""
    known = read_choice(path_of_state(book)) or asked_in(book)
    if known is not None:
        return known
    try:
        value = json.loads(Path(book).read_text(encoding="utf-8"))
        prefixes = [prefix for prefix in texts(value["fixed"]) if prefix not in fixed_prefixes()]
        goals = texts(value["groups"][0]["goals"]) if value["format"] == 2 else []
    except (OSError, ValueError, KeyError, TypeError, IndexError, RecursionError):
        return Choice()
    return Choice(prefixes=tuple(prefixes), words=tuple(goals), trusted=trusted_in(book))


def asked_in(book: str) -> Choice | None:
    """What was asked for, by the notes that belong to these very footprints."""
    try:
        whole = json.loads(Path(path_of_notes(book)).read_text(encoding="utf-8"))
        if whole["book"] != digest_of(Path(book).read_bytes()):
            return None
        return choice_of(whole["asked"])
    except (OSError, ValueError, KeyError, TypeError, AttributeError, RecursionError):
        return None


def trusted_in(book: str) -> tuple[str, ...]:
    """The targets whose recipes were trusted, by the notes beside footprints."""
    try:
        notes = read_notes(book).notes
    except Fault:
        return ()
    return tuple(dict.fromkeys(note.target for note in notes if note.kind in TRUSTS))
