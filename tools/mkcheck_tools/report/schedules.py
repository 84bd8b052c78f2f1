"""Asks mkcheck for the schedules that show findings.

mkcheck judges a build anew for each. Of a large one it is asked over smaller footprints, in which
recipes read none but the files that the findings are about. The graph and all that recipes write
are the same, so the same findings of these files stand there, and a schedule that shows one of them
runs the same recipes.
"""

from __future__ import annotations

import os
import tempfile
from collections.abc import Callable, Collection, Iterator, Sequence
from contextlib import contextmanager
from dataclasses import replace

from mkcheck_tools.answers.checkers import Checker
from mkcheck_tools.answers.findings import Finding, answer_of
from mkcheck_tools.book.footprint_files import Footprints
from mkcheck_tools.book.formats import first
from mkcheck_tools.faults import Fault
from mkcheck_tools.report.books import Reached

# How many reads mkcheck answers for in no time that a person notices.
FEW_READS = 2_000

# Gives the plan that shows a finding.
Plans = Callable[[Finding], list[str]]


def smaller(book: Reached, goals: list[str], files: Collection[str]) -> Footprints:
    """The footprints in which recipes read these files alone."""
    records = {
        name: replace(record, reads=[file for file in record.reads if file in files])
        for name, record in book.records.items()
    }
    return Footprints(list(book.fixed), sorted(book.sources), records, goals)


@contextmanager
def plans(
    checker: Checker, book: Reached, goals: list[str], asked: Sequence[Finding]
) -> Iterator[Plans]:
    """What asks for the plan of each of these findings."""
    if len(asked) < 2 or book.reads <= FEW_READS:
        yield lambda finding: checker.plan(finding.number)
        return
    with tempfile.TemporaryDirectory(prefix="mkcheck-report-") as folder:
        path = os.path.join(folder, "footprint.json")
        with open(path, "w", encoding="utf-8") as file:
            file.write(first(smaller(book, goals, {one.file for one in asked})))
        other = replace(checker, book=path)
        numbers = {one.text: one.number for one in findings_of(other)}

        def plan(finding: Finding) -> list[str]:
            number = numbers.get(finding.text)
            return checker.plan(finding.number) if number is None else other.plan(number)

        yield plan


def findings_of(checker: Checker) -> tuple[Finding, ...]:
    """The findings over smaller footprints; none where mkcheck can't judge these."""
    try:
        return answer_of(checker.check()).findings
    except Fault:
        return ()
