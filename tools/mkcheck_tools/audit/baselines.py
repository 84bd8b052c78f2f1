"""Files of findings that were there when a team began: all of these are accepted at once."""

from __future__ import annotations

import glob
import json
import os
from collections.abc import Iterable
from pathlib import Path

from mkcheck_tools.audit.accepting import Accepted
from mkcheck_tools.audit.settings import KEYS, accepted_in, read
from mkcheck_tools.audit.verdicts import Finding
from mkcheck_tools.faults import Fault
from mkcheck_tools.run.ending import write_text

FRONT = """\
# Findings that mkcheck-audit takes as accepted. Mend them one by one, and remove their entries:
# an entry that fits nothing is told. `*` in a name stands for any text.
"""


def read_baseline(name: str, root: str, is_asked: bool) -> tuple[Accepted, ...] | None:
    """The entries of a file; None where the file isn't there yet, and `is_asked`, so that it is to
    be written."""
    path = Path(root, name)
    if not os.path.lexists(path):
        if is_asked:
            return None
        raise Fault(f"{name} isn't there: mkcheck-audit --baseline {name} writes it, outside of CI")
    values = read(path, name)
    for key in values:
        if key != "accept":
            raise Fault(f"{name}: a baseline has accept alone, and no {key}{hint(key)}")
    return accepted_in(values, name)


def hint(key: str) -> str:
    """Where a key belongs that a baseline can't have."""
    return ", which belongs into mkcheck.toml" if key in KEYS else ""


def write_baseline(name: str, root: str, findings: Iterable[Finding]) -> None:
    """Writes a file that accepts findings."""
    entries = {}
    for finding in findings:
        for item in finding.items:
            entries[item.kind, item.targets[0], item.file] = entry_text(
                item.kind, glob.escape(item.targets[0]), glob.escape(item.file)
            )
    write_text(FRONT + "".join(entries.values()), os.path.join(root, name))


def entry_text(kind: str, target: str, file: str) -> str:
    """One entry."""
    values = {"kind": kind, "target": target, "file": file, "reason": "it is old"}
    lines = (f"{key} = {json.dumps(value, ensure_ascii=False)}\n" for key, value in values.items())
    return f"\n[[accept]]\n{''.join(lines)}"
