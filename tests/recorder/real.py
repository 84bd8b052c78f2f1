"""Records the programs of examples/ anew, and compares what isn't the system's with the footprints
kept there.

Prints a line for each, also where it can't be recorded here, and ends with 1 where one differs.
"""

from __future__ import annotations

import json
import os
import shutil
import subprocess
import sys
import tempfile
from dataclasses import dataclass
from pathlib import Path
from typing import Any

from recorder.project import MKCHECK, RECORDER, ROOT, SYSTEM


@dataclass(frozen=True)
class Example:
    """A folder of examples/, the words that name its goals, and the programs that it needs."""

    folder: str
    words: tuple[str, ...]
    needs: tuple[str, ...]


EXAMPLES = (
    Example("wordcount", (), ("strace", "cc")),
    Example("lua", ("all",), ("strace", "gcc", "ar")),
    Example("figlet", (), ("strace", "gcc")),
    Example("awk", (), ("strace", "gcc", "bison")),
)


def essence(book: dict[str, Any]) -> dict[str, Any]:
    """Footprints without what is the system's, and without order where processes settle it."""
    records = [
        {
            **record,
            "reads": sorted(name for name in record["reads"] if not name.startswith(SYSTEM)),
            "writes": sorted(record["writes"]),
        }
        for record in book["records"]
    ]
    return {**book, "fixed": [], "sources": sorted(book["sources"]), "records": records}


def noted(book: Path) -> list[tuple[str, str]]:
    """The notes of footprints: the kind of each, and the target."""
    notes = json.loads(Path(f"{book}.notes").read_text())["notes"]
    return sorted((note["kind"], note["target"]) for note in notes)


def differs(example: Example) -> str:
    """How a new recording differs from the one that is kept; nothing where it doesn't."""
    folder = ROOT / "examples" / example.folder
    with tempfile.TemporaryDirectory() as scratch:
        new = Path(scratch, "footprint.json")
        command = [sys.executable, str(RECORDER), "-C", str(folder), "-o", str(new), *example.words]
        done = subprocess.run(command, env={**os.environ, "MKCHECK": MKCHECK}, check=False)
        if done.returncode != 0:
            return "can't be recorded"
        recorded, told = essence(json.loads(new.read_text())), noted(new)
    kept = essence(json.loads((folder / "footprint.json").read_text()))
    others = [one["target"] for one, two in zip(kept["records"], recorded["records"]) if one != two]
    if others:
        return f"other footprints of {' '.join(others)}"
    if recorded != kept:
        return "other sources or recipes"
    return "" if told == noted(folder / "footprint.json") else "other notes"


def main() -> int:
    failed = False
    for example in EXAMPLES:
        missing = [program for program in example.needs if shutil.which(program) is None]
        difference = "" if missing else differs(example)
        failed = failed or bool(difference)
        said = (
            f"not recorded, there is no {' and no '.join(missing)}"
            if missing
            else difference or "the same"
        )
        print(f"{example.folder}: {said}", flush=True)
    return 1 if failed else 0


if __name__ == "__main__":
    sys.exit(main())
