"""A translated build, and the programs that write, record and check it."""

from __future__ import annotations

import os
import shutil
import sys
from dataclasses import dataclass
from pathlib import Path

from mkcheck_tools.answers.checkers import find_checker
from mkcheck_tools.faults import Fault
from mkcheck_tools.imports.answers import counted
from mkcheck_tools.imports.builds import Build
from mkcheck_tools.imports.configured import configured_files, configuring
from mkcheck_tools.imports.desk import SAVED, Desk
from mkcheck_tools.imports.gnumake import outer_environment
from mkcheck_tools.imports.grouping import grouped
from mkcheck_tools.imports.judging import Judge, write
from mkcheck_tools.imports.recorded import Recorded
from mkcheck_tools.imports.request import Request
from mkcheck_tools.imports.saving import text_of_build
from mkcheck_tools.run.places import Place
from mkcheck_tools.trace.tracing import strace


@dataclass(frozen=True)
class Translated:
    """A translated build, and what writes, records and checks it. `text` is the build as a text,
    before anything settles it."""

    build: Build
    judge: Judge
    has_first: bool
    text: str


def find_programs(request: Request) -> None:
    """Finds mkcheck, its recorder and strace; what isn't there is told before the build."""
    if request.only not in ("read", "translate") and not request.look:
        find_checker(Path(sys.argv[0]).resolve().parent)
        recorder()
    if request.only in (None, "record") and not request.look:
        strace()


def recorder() -> Path:
    """The recorder, which lies beside this program."""
    beside = Path(sys.argv[0]).resolve().parent / "mkcheck-record"
    found = str(beside) if beside.exists() else shutil.which("mkcheck-record")
    if found is None:
        raise Fault("mkcheck-record isn't there: it belongs beside mkcheck-import")
    return Path(found)


def checker() -> str:
    """The program mkcheck."""
    return os.path.abspath(find_checker(Path(sys.argv[0]).resolve().parent))


def environment() -> dict[str, str]:
    """The environment of the recorder and of mkcheck."""
    return {**outer_environment(), "MKCHECK": checker()}


def judge_of(build: Build, place: Place, desk: Desk) -> Judge:
    """What writes, records and checks a build."""
    return Judge(build, place, desk.drafts, checker(), environment())


def written(build: Build, place: Place, desk: Desk) -> Translated:
    """A translated build, whose makefiles are written."""
    judge = judge_of(build, place, desk)
    text = text_of_build(build)
    return Translated(build, judge, save(judge, desk), text)


def save(judge: Judge, desk: Desk, said: Recorded | None = None) -> bool:
    """Writes the makefiles, the map and the translation itself, with what the recorder said; tells
    whether the first build is another one."""
    has_first = judge.write_makefiles()
    judge.write_map()
    write(judge.path(SAVED), text_of_build(judge.build, said) + "\n")
    desk.log_notes(judge.build.notes)
    return has_first


def add_configured(build: Build, place: Place, asked: tuple[str, ...]) -> None:
    """Marks the files of a configure step that are there before the build."""
    found = configured_files(place.folder, asked)
    build.configured |= found.files
    origins = {node.origin.makefile for node in build.nodes.values() if node.origin}
    build.generators = {name: found.tools[name] for name in origins & found.files}
    for text in found.notes:
        build.note(text)
    for name in configuring(build):
        build.note(
            f"{name}: its recipe runs config.status, so it is of the configure step, and is"
            " recorded as it is, whatever its replay shows",
            name,
        )


def word_of_translation(translated: Translated) -> str:
    """How many problems there are, as they are told."""
    build = translated.build
    return counted(len(grouped(build.problems, build.subjects)), "problem")
