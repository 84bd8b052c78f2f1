"""Builds a program of this folder over copies of crates of the repository."""

import shutil
import subprocess
import sys
from collections.abc import Sequence
from pathlib import Path

from run import DATA, HERE


def needed(libraries: str) -> dict[str, str]:
    """The crates of the repository that these libraries are and stand on, each with its line of
    crates.txt."""
    listed = (HERE.parent / "crates.txt").read_text().splitlines()
    lines = {line.partition(":")[0]: line for line in listed if line and not line.startswith("#")}
    found: dict[str, str] = {}
    pending = libraries.split()
    while pending:
        crate = pending.pop()
        if crate in lines and crate not in found:
            found[crate] = lines[crate]
            pending += lines[crate].partition(":")[2].split()
    return found


def built(
    name: str, libraries: str, empty: str, before: Sequence[str], behind: Sequence[str] = ()
) -> Path:
    """The program `name`, from `name/main.rt.in`, over copies of the crates that it needs.

    The answers to what is open in a function stand beside it, in a file named after the function.

    The run that builds it has these words, and between them a file with the text `empty`.
    """
    repository = DATA / name
    shutil.rmtree(repository, ignore_errors=True)
    own = repository / "crates" / name
    (own / "src").mkdir(parents=True)
    shutil.copy(HERE / name / "main.rt.in", own / "src" / "main.rt")
    for proof in (HERE / name).glob("*.antt.in"):
        answers = own / "proofs" / proof.name.removesuffix(".antt.in") / "Answers.antt"
        answers.parent.mkdir(parents=True)
        shutil.copy(proof, answers)
    shutil.copy(HERE.parent / "HANDLES", repository / "HANDLES")
    crates = needed(libraries)
    for crate in crates:
        # With what earlier checks left in out/, so that little is proved again.
        shutil.copytree(HERE.parent / "crates" / crate, repository / "crates" / crate)
    (repository / "crates.txt").write_text(
        "\n".join([*crates.values(), f"{name}: {libraries}", ""])
    )
    file = DATA / f"{name}.empty"
    file.write_text(empty)
    command = ["rt", "run", "--", *before, str(file), *behind]
    done = subprocess.run(command, cwd=own, capture_output=True, text=True, check=False)
    if done.returncode != 0:
        sys.exit(f"bench: {' '.join(command)} in {own}:\n{done.stdout}{done.stderr}")
    return own / "out" / name
