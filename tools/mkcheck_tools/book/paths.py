"""Where the files lie that a recorder keeps beside a footprint file."""

from __future__ import annotations


def path_of_notes(book: str) -> str:
    """Where the notes of footprints lie."""
    return book + ".notes"


def path_of_state(book: str) -> str:
    """Where the state of footprints lies."""
    return book + ".state"


def path_of_store(book: str) -> str:
    """Where the files lie that recipes left."""
    return book + ".state.d"


def path_of_stamps(book: str) -> str:
    """Where the stamps of the files lie on which footprints depend."""
    return book + ".stamps"
