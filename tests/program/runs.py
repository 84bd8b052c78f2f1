"""Runs of the program in a folder, and what each must answer, byte for byte."""

from __future__ import annotations

import json
import os
import subprocess
from collections.abc import Mapping, Sequence
from dataclasses import dataclass, field
from pathlib import Path

ROOT = Path(__file__).resolve().parents[2]
PROGRAM = Path(os.environ.get("MKCHECK", ROOT / "bin" / "mkcheck")).resolve()
SECONDS = 600
# The most bytes that a file may have.
MOST = 16_777_216

RULES = "p: a.o\n\tcc -o p a.o\na.o: a.c\n\tcc -c a.c\n"
GRAPH = "goals p\na.c:\na.o recipe: a.c\np recipe: a.o\n"
RECORDS = """{"format":1,"fixed":[],"sources":["a.c"],"records":[
{"target":"p","commands":["cc -o p a.o"],"reads":["a.o"],"writes":["p"]},
{"target":"a.o","commands":["cc -c a.c"],"reads":["a.c"],"writes":["a.o"]}]}
"""
HEADER = RECORDS.replace('"sources":["a.c"]', '"sources":["a.c","h.h"]').replace(
    '"reads":["a.c"]', '"reads":["a.c","h.h"]'
)
UNTOLD = '{"format":1,"fixed":[],"sources":["a.c"],"records":[]}'
CERTIFICATE = (
    '{"format":1,"goals":["p"],"ways":['
    '{"end":"source","file":"a.c","path":["a.o"],"recipe":"a.o"},'
    '{"end":"written","file":"a.o","path":["p","a.o"],"recipe":"p"}]}'
)
WAYS = "yes 2 recipes 2 reads\nway a.o a.c source a.o\nway p a.o written p a.o\n"
# A right build, and the same with a header that no rule names, and with no records.
FILES = {"makefile": RULES, "B": RECORDS, "H": HEADER, "U": UNTOLD, "C": CERTIFICATE}
COPY = {
    "makefile": "b: a\n\tcp a b\n",
    "B": '{"format":1,"fixed":[],"sources":["a"],"records":['
    '{"target":"b","commands":["cp a b"],"reads":["a"],"writes":["b"]}]}',
    "Q": "# one make\nmake 1\nrun b\nend\n",
}


@dataclass(frozen=True)
class Run:
    """The words of a run, its status, and what it writes; the files of the folder in which it runs.

    It reads standard input, and writes to a file in place of the stream that is compared, where one
    is named.
    """

    words: Sequence[str | bytes]
    status: int
    out: str = ""
    err: str = ""
    files: Mapping[str, str] = field(default_factory=lambda: FILES)
    stdin: str = ""
    sink: str = ""

    def name(self) -> str:
        """The name of the test of this run."""
        return " ".join(os.fsdecode(word)[:40] for word in self.words)


def answer(run: Run, folder: Path) -> tuple[int, str, str]:
    """The status and both streams of the program, run in this folder."""
    for name, text in run.files.items():
        (folder / name).write_text(text)
    with open(run.sink or os.devnull, "wb") as sink:
        done = subprocess.run(
            [os.fsencode(PROGRAM), *(os.fsencode(word) for word in run.words)],
            cwd=folder,
            env={"PATH": os.defpath, "LC_ALL": "C"},
            input=run.stdin.encode(),
            stdout=sink if run.sink else subprocess.PIPE,
            stderr=subprocess.PIPE,
            timeout=SECONDS,
            check=False,
        )
    return done.returncode, (done.stdout or b"").decode(), done.stderr.decode()


def assert_answers(run: Run, folder: Path) -> None:
    """Asserts the status and both streams of a run, and that what `repair` prints mends."""
    assert answer(run, folder) == (run.status, run.out, run.err)
    if run.words[0] == "repair" and "-b" in run.words and run.status == 0:
        assert_mended(run, folder)


def assert_mended(run: Run, folder: Path) -> None:
    """Asserts that `check` says yes once what `repair` printed is at the end of the makefile."""
    named = run.words[list(run.words).index("-f") + 1] if "-f" in run.words else "makefile"
    makefile = folder / os.fsdecode(named)
    makefile = makefile if makefile.name in run.files else folder / "Makefile"
    with makefile.open("a") as file:
        file.write(run.out)
    files = {name: text for name, text in run.files.items() if name != makefile.name}
    status, out, err = answer(Run(["check", *run.words[1:]], 0, files=files), folder)
    assert (status, out[:4], err) == (0, "yes ", "")


def told(records: str) -> list[dict[str, object]]:
    """Records, with `; ` between them, each as `target: reads > writes = command`."""

    def one(record: str) -> dict[str, object]:
        files, command = record.split(" = ")
        target, files = files.split(": ", 1)
        reads, writes = files.split(">")
        lists = {"reads": reads.split(), "writes": writes.split()}
        return {"target": target, "commands": [command], **lists}

    return [one(record) for record in records.split("; ")]


def footprints(sources: str, records: str) -> str:
    """Footprints of format 1 with these sources and records."""
    book = {"format": 1, "fixed": [], "sources": sources.split(), "records": told(records)}
    return json.dumps(book)
