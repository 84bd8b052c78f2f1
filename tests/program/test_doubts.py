"""A wrong file that a race left: no later make mends it, but what `since` names goes."""

from __future__ import annotations

import os
import shutil
import subprocess
from pathlib import Path

import pytest

from program.runs import SECONDS, Run, assert_answers, footprints

LIST = "head -n 1 names > list && : && tail -n 2 names >> list"
COUNT = ": && wc -l < list > seen && : && cp seen count"
REPORT = "sed s/^/names:/ count > report"
SIZE = "wc -c < names > size"
# With one job the list is whole before the count begins. With several jobs the count sees half of
# it, and ends when the list is whole, so that it is newer: macros have each wait for the other.
MAKEFILE = f"""\
COUNTED = :
BEGUN = :
WHOLE = :
all: list report size
list: names
\t{LIST.replace(":", "$(COUNTED)")}
count:
\t{COUNT.replace(":", "$(BEGUN)", 1).replace(" : ", " $(WHOLE) ")}
report: count
\t{REPORT}
size: names
\t{SIZE}
"""
MENDED = MAKEFILE.replace("count:\n", "count: list\n")
BOOK = footprints(
    "names",
    f"list: names > list = {LIST}; count: list > seen count = {COUNT}; "
    f"report: count > report = {REPORT}; size: names > size = {SIZE}",
)
NAMES = "one\ntwo\nthree\n"
RACE = (
    "COUNTED=until test -s seen; do sleep 0.1; done",
    "BEGUN=until test -s list; do sleep 0.1; done",
    "WHOLE=until test `wc -l < list` = 3; do sleep 0.1; done",
)
FOUND = "no race count list list\nno stale count list\n"


def built(folder: Path, *words: str) -> dict[str, str]:
    """What a make of the folder leaves, which has to succeed."""
    environment = {"PATH": os.environ["PATH"], "LC_ALL": "C"}
    command = ["make", *words]
    subprocess.run(command, cwd=folder, env=environment, timeout=SECONDS, check=True)
    return {path.name: path.read_text() for path in folder.iterdir()}


@pytest.mark.skipif(not shutil.which("make"), reason="no make")
def test_what_since_names_mends_what_a_race_left(tmp_path: Path) -> None:
    folder, clean, asked = (tmp_path / name for name in ("built", "clean", "asked"))
    for one in (folder, clean, asked / "old"):
        one.mkdir(parents=True)
    for one in (folder, clean):
        (one / "names").write_text(NAMES)

    (clean / "makefile").write_text(MENDED)
    right = built(clean)
    assert right["report"].split() == ["names:3"]
    (folder / "makefile").write_text(MAKEFILE)
    assert built(folder, "-j4", *RACE)["report"].split() == ["names:1"]
    (folder / "makefile").write_text(MENDED)
    assert built(folder, "-j4")["report"].split() == ["names:1"]

    files = {"old/makefile": MAKEFILE, "old/footprint.json": BOOK, "makefile": MENDED, "B": BOOK}
    old = {"makefile": MAKEFILE, "B": BOOK}
    assert_answers(Run(["check", "-b", "B"], 1, FOUND, files=old), asked)
    named = ["count", "report", "seen"]
    lines = "".join(f"{name}\n" for name in named)
    assert_answers(Run(["since", "old", "-b", "B"], 0, lines, files=files), asked)
    for name in named:
        (folder / name).unlink()
    assert built(folder, "-j4") == right
