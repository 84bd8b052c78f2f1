"""Tries the wrong edits of edits/ on a copy of the repository: the prover has to refuse each.

`run.py` tries those of all crates, `run.py mk_foot` those of mk_foot. It prints a line for each
edit, and ends with 1 where one wasn't refused by the prover, or couldn't be tried.
"""

import shutil
import subprocess
import sys
import tempfile
from pathlib import Path

ROOT = Path(__file__).resolve().parent.parent.parent
EDITS = ROOT / "edits"
REFUSED = ": refused, as it must be"


def copy_of_tree(to: Path) -> None:
    """Copies what git has or would take, as it stands now."""
    listed = ["git", "ls-files", "-z", "--cached", "--others", "--exclude-standard"]
    names = subprocess.run(listed, cwd=ROOT, check=True, capture_output=True).stdout.decode()
    for name in sorted(set(names.split("\0")[:-1])):
        if (ROOT / name).is_file():
            (to / name).parent.mkdir(parents=True, exist_ok=True)
            shutil.copy2(ROOT / name, to / name)


def carry_proofs(to: Path) -> None:
    """Copies what earlier checks kept. rt tests by sums whether it fits the copy, and else proves
    anew."""
    for kept in sorted(ROOT.glob("crates/*/out")):
        for part in ("incremental", "rlib"):
            if (kept / part).is_dir():
                shutil.copytree(kept / part, to / kept.relative_to(ROOT) / part)


def put_edits(to: Path, crate: str) -> int:
    """Puts a crate's edits in the place of those that the gate tries, and returns how many they
    are."""
    edits = sorted((EDITS / crate).glob("*.edit"))
    place = to / "crates" / crate / "must-fail"
    shutil.rmtree(place, ignore_errors=True)
    place.mkdir(parents=True)
    for edit in edits:
        shutil.copy2(edit, place / edit.name)
    return len(edits)


def refused_of(tree: Path, crate: str) -> int:
    """Tries a crate's edits, prints what rt says of each, and returns how many were refused."""
    refused = 0
    words = ["rt", "must-fail", crate]
    with subprocess.Popen(
        words,
        cwd=tree,
        text=True,
        errors="replace",
        stdin=subprocess.DEVNULL,
        stdout=subprocess.PIPE,
        stderr=subprocess.STDOUT,
    ) as ran:
        for line in ran.stdout or []:
            if line.startswith("rt: "):
                print(line, end="", flush=True)
            refused += line.startswith("rt: must-fail ") and REFUSED in line
    return refused if ran.returncode == 0 else -1


def main() -> int:
    known = sorted(it.name for it in EDITS.iterdir() if it.is_dir())
    asked = sys.argv[1:] or known
    for crate in asked:
        if crate not in known:
            print(f"there are no edits of {crate}: edits/ has {' '.join(known)}", file=sys.stderr)
            return 1
    is_well = True
    with tempfile.TemporaryDirectory(prefix="mkcheck-edits-") as room:
        tree = Path(room)
        copy_of_tree(tree)
        carry_proofs(tree)
        for crate in asked:
            count = put_edits(tree, crate)
            refused = refused_of(tree, crate)
            print(f"{crate}: {max(refused, 0)} of {count} edits were refused", flush=True)
            is_well = is_well and refused == count
    return 0 if is_well else 1


if __name__ == "__main__":
    sys.exit(main())
