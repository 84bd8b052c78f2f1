"""Tests that the wrong edits of edits/ and of crates/*/must-fail apply to the files as they stand.

The gate tries few of them, so another one may have lost the line that it edits.
"""

from __future__ import annotations

from collections.abc import Iterator
from pathlib import Path

ROOT = Path(__file__).resolve().parents[2]


def faults_of(edit: Path, crate: Path) -> Iterator[str]:
    """What is wrong with an edit: a file that isn't there, a line that doesn't stand in it exactly
    once, or nothing that changes."""
    text, old = "", ""
    for line in edit.read_text(encoding="utf-8").splitlines():
        if line.startswith("file: "):
            file = crate / line.removeprefix("file: ")
            if not file.is_file():
                yield f"there is no {file.relative_to(ROOT)}"
                return
            text = file.read_text(encoding="utf-8")
        elif line.startswith("old: "):
            old = line.removeprefix("old: ")
            if text.count(old) != 1:
                yield f"stands {text.count(old)} times: {line}"
        elif line.startswith("new:") and line.removeprefix("new:").strip() == old.strip():
            yield f"changes nothing: {line}"


def wrong_edits() -> int:
    """Prints what is wrong with the edits, and tells how many of them are wrong."""
    found = [(edit, edit.parent.name) for edit in ROOT.glob("edits/*/*.edit")]
    found += [(edit, edit.parents[1].name) for edit in ROOT.glob("crates/*/must-fail/*.edit")]
    wrong = 0
    for edit, crate in sorted(found):
        faults = list(faults_of(edit, ROOT / "crates" / crate))
        wrong += bool(faults)
        for fault in faults:
            print(f"{edit.relative_to(ROOT)}: {fault}")
    print(f"pages: {len(found)} edits apply to the files as they stand, but for {wrong}")
    return wrong
