"""Has a POSIX makefile's build recorded, or its footprints brought up to date, and judged."""

from __future__ import annotations

import os
import shutil
import sys
import tempfile
from collections.abc import Collection, Sequence
from functools import partial
from pathlib import Path

from mkcheck_tools.answers.findings import HIDDEN, Answer, Group, answer_of
from mkcheck_tools.audit.asking import Asked
from mkcheck_tools.audit.readers import Reader, Wanted, checker_of, own_folder
from mkcheck_tools.audit.verdicts import Audited, Finding, Mend, Spot
from mkcheck_tools.book.answer_files import read_answer
from mkcheck_tools.book.apart import shared_files, with_one_writer
from mkcheck_tools.book.choices import Choice
from mkcheck_tools.book.earlier import choice_before
from mkcheck_tools.book.footprint_files import read_footprints
from mkcheck_tools.book.formats import text_of
from mkcheck_tools.book.note_files import read_notes
from mkcheck_tools.book.paths import path_of_notes, path_of_stamps, path_of_state
from mkcheck_tools.faults import FAILED, Fault, last_lines
from mkcheck_tools.imports.copies import Tail, run_here
from mkcheck_tools.imports.telling import Telling
from mkcheck_tools.run.ending import write_text
from mkcheck_tools.run.folders import prefix_of
from mkcheck_tools.run.places import Place
from mkcheck_tools.run.stopping import Stopped

TOOL = "POSIX make"
BOOK = os.path.join(".mkcheck", "footprint.json")
# What is asked of beside these.
APART = os.path.join(".mkcheck", "apart.json")
LOG = os.path.join(".mkcheck", "record.log")
# What is said where a signal ended an audit.
KEPT = "the next audit takes what was recorded"
# Kinds by which a recipe has no footprint, so that nothing is known of it.
UNRECORDED = ("record", "commands")
UNRECORDED_FIRST = (
    "a recipe that has no record may write it: mend what wasn't judged first, and then let this one"
    " need the target of that recipe"
)


def program(name: str) -> str:
    """One of the other programs, which lies beside this one, or on the search path."""
    beside = own_folder() / name
    found = str(beside) if beside.exists() else shutil.which(name)
    if found is None:
        raise Fault(f"{name} isn't there: it belongs beside mkcheck-audit")
    return found


def audit_of_makefile(asked: Asked, reader: Reader) -> Audited:
    """Records what has changed, and judges."""
    wanted = asked.wanted_by(reader)
    failures = recorded(asked, wanted)
    return judged(wanted, failures)


def recorded(asked: Asked, wanted: Wanted) -> list[str]:
    """Brings the footprints up to date; gives the recorder's sentences on recipes without one."""
    book = Path(wanted.root, BOOK)
    forget_other_choice(str(book), choice_of(asked, wanted))
    tail = Tail()
    words = [sys.executable, program("mkcheck-record"), "-C", wanted.root, "--update", str(book)]
    words += ["-f", wanted.makefile] if wanted.makefile else []
    words += [word for prefix in asked.fixed for word in ("--fixed", prefix)]
    words += [word for target in asked.trusted for word in ("--trust", target)]
    words += [] if asked.replay else ["--no-replay"]
    environment = {**os.environ, "MKCHECK": checker_of(wanted).program}
    place = Place.of(wanted.root)
    telling = Telling(program="mkcheck-audit")
    with tempfile.TemporaryDirectory() as scratch:
        written = os.path.join(scratch, "answer.json")
        words += ["--answer", written, "--", *wanted.words]
        record = partial(run_here, place, words, environment, tail)
        try:
            status, said, errors = telling.during("record", tail.text, record)
        except Stopped as stopped:
            stopped.rest = KEPT
            raise
        if not os.path.exists(written):
            raise Fault(unrecorded([f"mkcheck-record ends with status {status}", said + errors]))
        answer = read_answer(written)
    write_log(wanted.root, answer.reasons)
    if not answer.written:
        raise Fault(unrecorded(answer.reasons))
    return [last_lines(text, LOG) for text in answer.reasons]


def write_log(root: str, reasons: Sequence[str]) -> None:
    """Writes all that the recorder said of recipes without a footprint; takes the log of before
    away where there are none."""
    path = Path(root, LOG)
    if reasons:
        write_text("".join(f"{text.rstrip()}\n" for text in reasons), str(path))
    else:
        path.unlink(missing_ok=True)


def unrecorded(reasons: Sequence[str]) -> str:
    """What is said where nothing could be recorded."""
    texts = (last_lines(reason, LOG) if FAILED in reason else reason for reason in reasons)
    lines = [line for text in texts for line in text.splitlines() if line.strip()]
    return "\n".join(["the build can't be recorded:", *(f"    {line}" for line in lines)])


def choice_of(asked: Asked, wanted: Wanted) -> Choice:
    """What is asked for, as the recorder keeps it."""
    steady = tuple(one for one in asked.fixed if os.path.isfile(os.path.join(wanted.root, one)))
    prefixes = tuple(prefix_of(one) for one in asked.fixed if one not in steady)
    return Choice(
        wanted.makefile, False, prefixes, tuple(wanted.words), tuple(asked.trusted), (), steady
    )


def forget_other_choice(book: str, choice: Choice) -> None:
    """Removes footprints that were asked for in another way: an update would take from these what
    isn't asked for now."""
    if choice.over(choice_before(book)) != choice:
        for path in (book, path_of_notes(book), path_of_state(book), path_of_stamps(book)):
            Path(path).unlink(missing_ok=True)


def judged(wanted: Wanted, failures: Sequence[str]) -> Audited:
    """The answer of mkcheck, over the footprints that there are."""
    checker = checker_of(wanted, BOOK)
    answer, makefile = answer_of(checker.check()), checker.makefile
    if answer.refusal is not None:
        return Audited(makefile, TOOL, refused=answer.refusal.sentence)
    notes = read_notes(os.path.join(wanted.root, BOOK)).notes
    if answer.is_yes:
        return Audited(makefile, TOOL, notes=notes, recipes=answer.recipes, reads=answer.reads)
    records = read_footprints(os.path.join(wanted.root, BOOK)).records
    lacking = [group for group in answer.groups if group.kind in UNRECORDED]
    groups = [group for group in answer.groups if group.kind not in UNRECORDED]
    missing = {target for group in lacking for target in group.targets}
    unjudged = [f"{spot_of(group, makefile)}: {group.sentence}" for group in lacking]
    return Audited(
        makefile,
        TOOL,
        tuple(finding_of(group, makefile, missing) for group in groups),
        tuple(finding_of(group, makefile) for group in (*answer.later, *apart(wanted, answer))),
        notes,
        (*unjudged, *failures),
        len({*records, *missing}),
        sum(len(record.reads) for record in records.values()),
        len(missing),
    )


def apart(wanted: Wanted, answer: Answer) -> list[Group]:
    """The races and stale reads of files with several writers, each taken by itself."""
    if not any(group.kind == "writers" for group in answer.groups):
        return []
    footprints = read_footprints(os.path.join(wanted.root, BOOK))
    shared = shared_files(footprints)
    found: dict[object, Group] = {}
    path = Path(wanted.root, APART)
    try:
        for one in with_one_writer(footprints):
            write_text(text_of(one), str(path))
            then = answer_of(checker_of(wanted, APART).check())
            for group in (*then.groups, *then.later):
                if group.kind in HIDDEN and any(file in shared for file in group.files):
                    found.setdefault((group.kind, group.sentence), group)
    finally:
        path.unlink(missing_ok=True)
    return list(found.values())


def spot_of(group: Group, makefile: str) -> Spot:
    """Where a group stands."""
    return Spot(group.file or makefile, group.line)


def finding_of(group: Group, makefile: str, missing: Collection[str] = ()) -> Finding:
    """A group as a finding of the audit. A file of which nothing is known, where recipes are
    `missing`, is one that these write."""
    spot = spot_of(group, makefile)
    mends = tuple(mend_of(line, spot) for line in group.adds)
    advice = UNRECORDED_FIRST if missing and group.kind == "unknown" else group.advice
    return Finding(
        group.kind,
        spot,
        group.sentence,
        group.targets,
        group.files,
        mends,
        advice,
        also=group.also,
    ).without_git()


def mend_of(line: str, spot: Spot) -> Mend:
    """A line to add."""
    targets, _, words = line.partition(":")
    return Mend(spot, tuple(targets.split()), tuple(words.split()))
