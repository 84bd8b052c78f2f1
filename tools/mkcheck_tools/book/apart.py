"""Footprints in which each file has one writer: they show the races and stale reads of a file that
several recipes write, which `check` passes over while it has several."""

from __future__ import annotations

from collections.abc import Iterator
from dataclasses import replace

from mkcheck_tools.book.footprint_files import Footprints

# How many writers of one file are tried.
WRITERS_AT_MOST = 16


def shared_files(footprints: Footprints) -> dict[str, list[str]]:
    """The files that several recipes write, each with their targets."""
    return {file: them for file, them in footprints.writers.items() if len(them) > 1}


def with_one_writer(footprints: Footprints) -> Iterator[Footprints]:
    """The footprints with one writer of each file after the other, so that each is alone in some of
    them; nothing where no file has several."""
    shared = shared_files(footprints)
    most = max(map(len, shared.values()), default=0)
    for turn in range(min(most, WRITERS_AT_MOST)):
        alone = {file: them[turn % len(them)] for file, them in shared.items()}
        records = {
            target: replace(
                record,
                writes=[file for file in record.writes if alone.get(file, target) == target],
            )
            for target, record in footprints.records.items()
        }
        yield replace(footprints, records=records)
