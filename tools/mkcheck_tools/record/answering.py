"""What a recording says in the end, and the answer of an update without a change."""

from __future__ import annotations

import os
import shutil
import sys
from collections.abc import Iterable, Mapping, Sequence

from mkcheck_tools.book.answer_files import RecordingAnswer, text_of_answer
from mkcheck_tools.book.note_files import read_notes
from mkcheck_tools.book.premises import Premises, variables_now
from mkcheck_tools.faults import Fault, RecipeFault
from mkcheck_tools.judge.notes import Note, Notes
from mkcheck_tools.record.request import Request
from mkcheck_tools.run.ending import write_text

# Where this package lies.
PACKAGE = os.path.dirname(os.path.dirname(os.path.realpath(__file__)))
# What stands before the names of programs whose places have to be the same.
PROGRAM = "program "


def tell(text: str) -> None:
    """Tells something on standard error."""
    print(f"mkcheck-record: {text}", file=sys.stderr)


def write_answer(path: str | None, answer: RecordingAnswer) -> None:
    """Writes what a recording came to, where that is asked for."""
    if path is not None:
        write_text(text_of_answer(answer), path)


def tell_of_update(recipes: int, kept: int) -> None:
    """Tells how many recipes of all an update recorded."""
    more = ", the others hadn't changed" if kept else ""
    tell(f"{recipes - kept} of {recipes} recipes were recorded{more}")


def status_of(request: Request, notes: Sequence[Note]) -> int:
    """The status of a whole recording with these notes."""
    doubts = [note for note in notes if note.is_doubt]
    if not request.strict or not doubts:
        return 0
    count = "a doubt" if len(doubts) == 1 else f"{len(doubts)} doubts"
    tell(f"--strict: there {'is' if len(doubts) == 1 else 'are'} {count}, told above")
    return RecipeFault.status


def unchanged(request: Request, before: Premises) -> int | None:
    """The status of an update without a change, all of which is told; None where something has
    changed, or may have."""
    if request.book is None or not is_same(request, before):
        return None
    try:
        noted = read_notes(request.book)
    except Fault:
        return None
    if noted.missing:
        return None
    notes = Notes(tell)
    for note in noted.notes:
        notes.add(note)
    tell_of_update(before.recipes, before.recipes)
    status = status_of(request, noted.notes)
    write_answer(request.answer, RecordingAnswer(status, True, before.recipes, before.recipes))
    return status


def is_same(request: Request, before: Premises) -> bool:
    """Whether the same is asked for, under the same conditions, of the same files."""
    return (
        before.folder == request.folder
        and before.choice == request.choice
        and before.asked == asked_of(request, programs_in(before.asked))
        and before.variables == variables_now(before.variables, before.salt)
        and before.hold(request.own_paths)
    )


def asked_of(request: Request, programs: Iterable[str]) -> dict[str, str]:
    """What else than the choice has to be the same: options, the user, and where programs lie."""
    umask = os.umask(0)
    os.umask(umask)
    return {
        "replay": "yes" if request.replay else "no",
        "user": f"{os.geteuid()} {os.getegid()}",
        "umask": f"{umask:o}",
        "recorder": PACKAGE,
        "beside": os.path.dirname(os.path.realpath(sys.argv[0])),
        "mkcheck": os.environ.get("MKCHECK", ""),
        "python": sys.version,
        **{f"{PROGRAM}{name}": path_of_program(name) for name in programs},
    }


def programs_in(asked: Mapping[str, str]) -> list[str]:
    """The programs whose places were asked for."""
    return [name.removeprefix(PROGRAM) for name in asked if name.startswith(PROGRAM)]


def path_of_program(name: str) -> str:
    """The real path of a program on the search path; nothing where there is none."""
    found = shutil.which(name)
    return "" if found is None else os.path.realpath(found)
