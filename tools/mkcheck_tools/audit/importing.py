"""Has a build of GNU make or ninja imported, and reads the answer that the importer leaves."""

from __future__ import annotations

import json
import os
import subprocess
import sys
from pathlib import Path
from typing import Any

from mkcheck_tools.audit.asking import Asked
from mkcheck_tools.audit.makefile_lines import Sources
from mkcheck_tools.audit.readers import NINJA, Reader
from mkcheck_tools.audit.recording import KEPT, program
from mkcheck_tools.audit.verdicts import Audited, Finding, Mend, Spot
from mkcheck_tools.book.note_files import read_notes
from mkcheck_tools.faults import Fault
from mkcheck_tools.gnu.rule_lines import rule_line
from mkcheck_tools.imports.desk import IMPORT
from mkcheck_tools.imports.desk import KEPT as KEPT_FILES
from mkcheck_tools.imports.kept import read_kept
from mkcheck_tools.imports.told import FORMAT
from mkcheck_tools.run.stopping import Stopped

STORE = ".mkcheck"
ANSWER = os.path.join(STORE, "answer.json")
BOOK = os.path.join(STORE, "footprint.json")
NAMES_AT_MOST = 8
PRESUMED = "Of a recipe that isn't judged it is presumed that it writes its targets alone."


def audit_of_build(asked: Asked, reader: Reader) -> Audited:
    """Imports what has changed, and gives the answer."""
    status = imported(asked, reader)
    if not os.path.exists(os.path.join(asked.root, ANSWER)):
        raise Failed(status)
    return answer_before(asked, reader)


def refuse_other_words(asked: Asked, reader: Reader) -> None:
    """Raises Fault where the last import was one of other goals, macros or another makefile."""
    kept = read_kept(os.path.join(asked.root, STORE, KEPT_FILES, IMPORT))
    makefile = asked.makefile if reader.kind != NINJA else None
    words = json.dumps([makefile, *asked.words])
    if kept is not None and kept.conditions.get("words", words) != words:
        raise Fault(
            "the last import was asked for other goals, macros, or another makefile: leave out"
            " --no-record"
        )


def answer_before(asked: Asked, reader: Reader) -> Audited:
    """The answer of the last import."""
    value = read(Path(asked.root, ANSWER))
    noted = read_notes(os.path.join(asked.root, BOOK))
    sources = Sources(asked.root)
    return Audited(
        reader.path,
        value["tool"],
        tuple(finding_of(one, reader, sources) for one in value["findings"]),
        tuple(finding_of(one, reader, sources) for one in value.get("later", [])),
        notes=noted.notes,
        unjudged=tuple(value["unjudged"]),
        recipes=value["recipes"],
        reads=value["reads"],
        unjudged_recipes=value["unjudged_recipes"],
        generators=value["generators"],
        remarks=tuple(remarks_of(value)),
        refused=value["refused"],
    )


class Failed(Fault):
    """The importer gave no answer, and has said why."""

    def __init__(self, status: int) -> None:
        super().__init__("there is no answer, as mkcheck-import says above")
        self.status = status if status > 128 else Fault.status


def imported(asked: Asked, reader: Reader) -> int:
    """Runs the importer, which tells its steps; gives its status."""
    Path(asked.root, ANSWER).unlink(missing_ok=True)
    words = [sys.executable, program("mkcheck-import"), "-C", asked.root, "-S", reader.below]
    words += ["--from", reader.kind]
    words += ["-f", asked.makefile] if asked.makefile and reader.kind != NINJA else []
    words += [word for prefix in asked.fixed for word in ("--fixed", prefix)]
    words += [word for target in asked.trusted for word in ("--trust", target)]
    words += [] if asked.replay else ["--no-replay"]
    return run([*words, "--", *asked.words])


def run(words: list[str]) -> int:
    """Runs a program that talks to the user itself; what it prints as its answer is left out. A
    signal for this program is handed on, and the program is waited for."""
    process = subprocess.Popen(words, stdin=subprocess.DEVNULL, stdout=subprocess.DEVNULL)
    try:
        return process.wait()
    except Stopped as stopped:
        process.terminate()
        process.wait()
        stopped.rest = KEPT
        raise


def read(path: Path) -> dict[str, Any]:
    """The answer that lies at a path."""
    try:
        text = path.read_text(encoding="utf-8", errors="surrogateescape")
        value: dict[str, Any] = json.loads(text)
        if value["format"] == FORMAT:
            return value
    except FileNotFoundError:
        said = f"there is no answer of an import yet ({path}): leave out --no-record"
        raise Fault(said) from None
    except (OSError, ValueError, KeyError, TypeError):
        pass
    raise Fault(f"{path} can't be read as an answer of this release: remove {path.parent}")


def finding_of(value: dict[str, Any], reader: Reader, sources: Sources) -> Finding:
    """A finding of the importer's answer."""
    spot = spot_of(value, reader.path, sources)
    mends = tuple(
        Mend(
            spot_of(one, reader.path, sources),
            tuple(one["targets"]),
            tuple(one["words"]),
            one["takes_all"],
        )
        for one in value["mends"]
    )
    return Finding(
        value["kind"],
        spot,
        value["sentence"],
        tuple(value["targets"]),
        tuple(value["files"]),
        mends,
    ).without_git()


def spot_of(value: dict[str, Any], makefile: str, sources: Sources) -> Spot:
    """The rule of a finding. Make tells the line of its first command."""
    spot = Spot(value["makefile"] or makefile, value["line"])
    return Spot(spot.file, rule_line(sources.lines(spot.file), spot.line))


def remarks_of(value: dict[str, Any]) -> list[str]:
    """What else the answer rests on."""
    remarks = [PRESUMED] if value["unjudged_recipes"] else []
    if value["given"]:
        remarks.append(
            f"there already, so the rules for them weren't judged: {listed(value['given'])}"
        )
    if value["unwritten"]:
        remarks.append(
            "not written by their recipes, which therefore run in each build:"
            f" {listed(value['unwritten'])}"
        )
    return [*remarks, *value["notes"]]


def listed(names: list[str]) -> str:
    """Some names, and how many more there are."""
    more = len(names) - NAMES_AT_MOST
    return ", ".join(names[:NAMES_AT_MOST]) + (f" and {more} more" if more > 0 else "")
