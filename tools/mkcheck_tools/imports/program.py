"""The command line of mkcheck-import."""

from __future__ import annotations

import argparse
import sys

from mkcheck_tools import VERSION
from mkcheck_tools.faults import Fault, sentence_of
from mkcheck_tools.imports.desk import Desk
from mkcheck_tools.imports.failing import SHOWN as SHOWN_AT_MOST
from mkcheck_tools.imports.failing import BuildFault
from mkcheck_tools.imports.grouping import grouped
from mkcheck_tools.imports.judging import RecordingFault
from mkcheck_tools.imports.pipeline import STEPS, import_folder
from mkcheck_tools.imports.request import Request, request_of
from mkcheck_tools.run.folders import scratch_folder
from mkcheck_tools.run.stopping import Stopped, catch_signals, pass_over_signals

ABOUT = (
    "Has a build of GNU make or ninja judged: asks the build tool what it would do, writes that as"
    " a plain makefile, records it, and has mkcheck check it. The answer is about the build as the"
    " tool reads it in this configuration."
)
STATUS = (
    "Status: 0 yes, 1 no, 2 nothing could be judged, or the words were wrong, 4 yes as far as"
    " judged: some recipes could not be."
)


def words_of(arguments: list[str]) -> argparse.Namespace:
    """What is asked for."""
    parser = argparse.ArgumentParser(prog="mkcheck-import", description=ABOUT, epilog=STATUS)
    parser.add_argument("--version", action="version", version=f"%(prog)s {VERSION}")
    add = parser.add_argument
    add("--from", dest="tool", choices=("make", "ninja"), help="the build tool; else it is guessed")
    add("-C", metavar="DIR", default=".", help="the folder of the project; without it this one")
    add("-S", metavar="SUB", default=".", help="the folder below DIR in which the tool is started")
    add("-f", metavar="FILE", help="the makefile, as for make -f")
    add("-o", metavar="DIR", help="where the translation goes; without it .mkcheck in the project")
    add("--build", action="store_true", help="translate a real build, and not what make -n shows")
    add("--only", choices=STEPS, help="do this step alone; those before it must have been done")
    add("--look", action="store_true", help="say what will be judged, without a build")
    add("--keep", action="store_true", help="take targets that are there already as they are")
    add("--fixed", metavar="PREFIX", action="append", default=[], help="files that never change")
    add(
        "--configured",
        metavar="FOLDER",
        action="append",
        default=[],
        help="files in it that are there before the build never change",
    )
    add("--trust", metavar="TARGET", action="append", default=[], help="as for mkcheck-record")
    add("--no-replay", action="store_true", help="as for mkcheck-record")
    add("words", metavar="WORD", nargs="*", help="a goal or a macro, as the build tool takes them")
    asked = parser.parse_intermixed_args(arguments)
    if asked.f is not None and asked.tool == "ninja":
        parser.error("-f is for GNU make")
    if asked.look and (asked.only or asked.build):
        parser.error("--look makes no build and does no single step: give it alone")
    if asked.keep and asked.tool == "ninja":
        parser.error("--keep is for GNU make")
    return asked


def main(arguments: list[str]) -> int:
    """Imports, and gives the status."""
    asked = words_of(arguments)
    catch_signals()
    try:
        request = request_of(asked)
        with scratch_folder(request.root) as scratch:
            return imported(request, scratch)
    except RecordingFault as fault:
        said = short(fault, request.log)
        print(f"mkcheck-import: the recording failed:\n{said}", file=sys.stderr)
    except Exception as error:
        print(f"mkcheck-import: {sentence_of(error, 'importer')}", file=sys.stderr)
    except Stopped as stopped:
        pass_over_signals()
        rest = "" if request.look else "; the next import takes what this one has"
        print(f"mkcheck-import: stopped by {stopped.name}{rest}", file=sys.stderr)
        return stopped.status
    return 2


def imported(request: Request, scratch: str) -> int:
    """Imports, writes what was made however it ends, and gives the status."""
    desk = Desk(request, scratch)
    if request.is_found:
        desk.say(f"the build in {request.folder} is taken, as by -S {request.folder}")
    try:
        return import_folder(request, desk, scratch)
    except RecordingFault as fault:
        desk.log.append(str(fault))
        raise
    except BuildFault as fault:
        desk.log.append(fault.whole)
        raise Fault(fault.short(request.log)) from None
    finally:
        if not request.look:
            desk.write_output()


def short(fault: RecordingFault, log: str) -> str:
    """Why nothing could be recorded, where the file `log` has all: recipes of which the same is
    said are told in one sentence, and the first lines are enough."""
    subjects = {one.text: one.target for one in fault.failures}
    texts = grouped(subjects, subjects) if len(subjects) > 1 else [str(fault).rstrip()]
    lines = [line for text in texts for line in text.splitlines()]
    if len(lines) <= SHOWN_AT_MOST:
        return "\n".join(lines)
    left = len(lines) - SHOWN_AT_MOST + 1
    return "\n".join([*lines[: SHOWN_AT_MOST - 1], f"({left} lines left out, see {log})"])


def run() -> None:
    """The entry point: ends with the status of the program."""
    sys.exit(main(sys.argv[1:]))
