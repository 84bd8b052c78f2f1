"""The command line of mkcheck-record."""

from __future__ import annotations

import argparse
import json
import os
import shlex
import sys
import threading
from dataclasses import replace
from functools import partial
from pathlib import Path

from mkcheck_tools import VERSION
from mkcheck_tools.book import premises
from mkcheck_tools.book.answer_files import RecordingAnswer
from mkcheck_tools.book.choices import Choice
from mkcheck_tools.book.paths import path_of_state
from mkcheck_tools.book.premises import Premises
from mkcheck_tools.faults import Fault, RecipeFault, failure_of, sentence_of
from mkcheck_tools.record.answering import tell, unchanged, write_answer
from mkcheck_tools.record.request import Request
from mkcheck_tools.run.ending import ended
from mkcheck_tools.run.folders import prefix_of, scratch_folder
from mkcheck_tools.run.paths import resolved

ABOUT = "Builds goals once under strace, and writes down which files each recipe reads and writes."
STATUS = (
    "Status: 0 written, 1 a recipe failed or can't be recorded (the others are written), or a doubt"
    " with --strict, 2 a fault of the words, or something is missing, 128 and a signal's number"
    " where that stopped it."
)


def words_of(arguments: list[str]) -> argparse.Namespace:
    """What is asked for."""
    parser = argparse.ArgumentParser(prog="mkcheck-record", description=ABOUT, epilog=STATUS)
    parser.add_argument("--version", action="version", version=f"%(prog)s {VERSION}")
    parser.add_argument("-f", metavar="F", help="the makefile; else makefile or Makefile")
    parser.add_argument(
        "-r", action="store_true", help="leave out the default text, as mkcheck does"
    )
    parser.add_argument(
        "-C", metavar="DIR", default=".", help="the folder of the project; without it this one"
    )
    parser.add_argument(
        "--fixed",
        metavar="PREFIX",
        action="append",
        default=[],
        help="files under it never change; or a single file that doesn't",
    )
    parser.add_argument(
        "--update", metavar="BOOK", help="record only what changed since BOOK, and write it anew"
    )
    parser.add_argument(
        "-o", metavar="FILE", help="where the footprints go; without it standard output"
    )
    parser.add_argument(
        "--keep",
        metavar="DIR",
        help="keep the makefile's texts, the footprints and the words in DIR, for mkcheck since",
    )
    parser.add_argument(
        "--in-place", action="store_true", help="run in the folder itself and not on a fresh copy"
    )
    parser.add_argument(
        "--again", action="store_true", help="run all twice, and warn of contents that differ"
    )
    parser.add_argument(
        "--make", action="store_true", help="let make run all too, and warn of files that differ"
    )
    parser.add_argument(
        "-k", action="store_true", help="go on where a recipe fails, which is always done"
    )
    # For mkcheck-import, which has the build tool say why, as soon as a recipe fails.
    parser.add_argument("-S", action="store_true", help=argparse.SUPPRESS)
    parser.add_argument("--strict", action="store_true", help="take a doubt for an error")
    parser.add_argument(
        "--answer", metavar="FILE", help="write what the recording came to as JSON, for a program"
    )
    parser.add_argument(
        "--no-replay", action="store_true", help="don't run each recipe again to test its footprint"
    )
    parser.add_argument(
        "--trust", metavar="TARGET", action="append", default=[], help="take its recipe as it is"
    )
    parser.add_argument(
        "--opaque",
        metavar="TARGET",
        action="append",
        default=[],
        help="its recipe may start a make",
    )
    parser.add_argument(
        "words", metavar="WORD", nargs="*", help="a macro operand, where it has an =, else a goal"
    )
    asked = parser.parse_intermixed_args(arguments)
    if asked.make and asked.in_place:
        parser.error("--make needs a fresh copy, so it can't stand beside --in-place")
    if asked.update and (asked.o or asked.in_place or asked.again or asked.make):
        parser.error(
            "--update writes BOOK from a fresh copy: it can't stand beside -o, --in-place, --again"
            " or --make"
        )
    return asked


def request_of(asked: argparse.Namespace, before: Premises | None) -> Request:
    """The recording that is asked for. An update takes what isn't given from the one before."""
    folder = resolved(asked.C)
    if not os.path.isdir(folder) or folder == "/":
        raise Fault(
            f"-C {asked.C}: no folder" if folder != "/" else "the root of all files is no project"
        )
    steady = tuple(name for name in asked.fixed if is_file_in(name, folder))
    given = Choice(
        asked.f,
        asked.r,
        tuple(prefix_of(prefix) for prefix in asked.fixed if prefix not in steady),
        tuple(asked.words),
        tuple(asked.trust),
        tuple(asked.opaque),
        steady,
    )
    output = asked.update or asked.o
    refuse_other_file(output, asked.update is not None)
    choice = given.over(choice_of(os.path.realpath(output), before)) if asked.update else given
    if asked.keep is not None:
        from mkcheck_tools.record.keeping import refuse_other_folder, text_of_words

        # What is kept is what a make is given, and that one knows nothing of the recording before.
        choice = replace(
            choice, makefile=given.makefile, bare=given.bare, words=given.words
        )
        refuse_other_folder(asked.keep)
        text_of_words([*choice.options, *choice.words])
    taken = [word for word in choice.given() if word not in given.given()]
    if taken:
        tell(f"as before: {shlex.join(choice.given())}")
    return Request(
        folder,
        choice,
        output,
        asked.update is not None,
        not asked.no_replay,
        asked.in_place,
        asked.again,
        asked.make,
        asked.strict,
        asked.answer,
        asked.S,
        asked.keep,
    )


def choice_of(book: str, before: Premises | None) -> Choice:
    """What was asked for in the recording whose footprints lie at a path."""
    if before is not None:
        return before.choice
    from mkcheck_tools.book.earlier import choice_before

    return choice_before(book)


def is_file_in(name: str, folder: str) -> bool:
    """Whether a name that was given to --fixed is that of a single file."""
    return not name.endswith("/") and os.path.isfile(os.path.join(folder, name))


def refuse_other_file(path: str | None, update: bool) -> None:
    """Refuses to write footprints over a file that holds none.

    An update finds the state beside its footprints, and may find these damaged.
    """
    if path is None or not os.path.isfile(path):
        return
    if update and os.path.exists(path_of_state(os.path.realpath(path))):
        return
    try:
        text = Path(path).read_text(encoding="utf-8")
        known = not text or "format" in dict(json.loads(text))
    except (ValueError, TypeError, RecursionError):
        known = False
    if not known:
        raise Fault(
            f"{'--update' if update else '-o'} {path}: this file is no footprint file, so it isn't"
            " overwritten: give another name, or remove it"
        )


def record(asked: argparse.Namespace) -> int:
    """Records what is asked for, and gives the status. The modules that this takes are loaded where
    an update finds a change."""
    before = premises.read(os.path.realpath(asked.update)) if asked.update else None
    if before is not None and not before.stands_for(os.path.realpath(asked.update)):
        before = None
    request = request_of(asked, before)
    if before is not None:
        status = unchanged(request, before)
        if status is not None:
            if status == 0:
                keep_as_before(request, before.conditions)
            return status
        before.know()
    from mkcheck_tools.run import places

    # Processes that try what the system allows run while modules are loaded.
    probing = threading.Thread(target=places.probe)
    probing.start()
    try:
        from mkcheck_tools.record.pipeline import record_folder

        with scratch_folder(request.folder) as scratch:
            return record_folder(request, scratch)
    finally:
        probing.join()
        places.end_all()


def keep_as_before(request: Request, conditions: str) -> None:
    """Keeps a build of which nothing has changed, where that is asked for."""
    if request.keep is None or request.book is None:
        return
    from mkcheck_tools.gnu.texts import plainly_included
    from mkcheck_tools.record.building import makefile_of
    from mkcheck_tools.record.keeping import Made, keep_build, read_texts

    texts = read_texts(request.folder, plainly_included(request.folder, makefile_of(request)))
    text = Path(request.book).read_text(encoding="utf-8")
    choice = request.choice
    keep_build(request.keep, Made(texts, text, choice.words, choice.options, conditions))


def answered(asked: argparse.Namespace) -> int:
    """Records, and gives the status. Where an answer is asked for, it tells of a fault too."""
    try:
        return record(asked)
    except Exception as error:
        if asked.answer is not None:
            status = error.status if isinstance(error, Fault) else Fault.status
            said = sentence_of(error, "recorder")
            failed = error.targets if isinstance(error, RecipeFault) else ()
            failures = tuple(failure_of(error, target) for target in failed)
            write_answer(
                asked.answer, RecordingAnswer(status, False, unrecorded=failures, fault=said)
            )
        raise


def main(arguments: list[str]) -> int:
    """Records, and gives the status."""
    asked = words_of(arguments)
    return ended("mkcheck-record", "recorder", partial(answered, asked))


def run() -> None:
    """The entry point: ends with the status of the program."""
    sys.exit(main(sys.argv[1:]))
