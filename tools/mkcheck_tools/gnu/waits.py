"""`.WAIT` among prerequisites: GNU make knows it from 4.4 on, and takes it for a file before."""

from __future__ import annotations

import os
import re
import shutil
import subprocess

from mkcheck_tools.answers.graphs import Graph
from mkcheck_tools.gnu.macros import Prober
from mkcheck_tools.gnu.remade import included
from mkcheck_tools.judge.notes import Kind, Note, Warn

VERSION = re.compile(rb"GNU Make (\d+)\.(\d+)")
FIRST = (4, 4)
WORD = re.compile(r"(?<![\w./-])\.WAIT(?![\w./-])")


def old_make() -> str | None:
    """The version of the GNU make on the search path, where it is too old for `.WAIT`."""
    program = shutil.which("make")
    if program is None:
        return None
    done = subprocess.run(
        [program, "--version"], stdin=subprocess.DEVNULL, capture_output=True, check=False
    )
    found = VERSION.match(done.stdout)
    if found is None or (int(found[1]), int(found[2])) >= FIRST:
        return None
    return (found[1] + b"." + found[2]).decode()


def names_wait(prober: Prober) -> bool:
    """Whether a text of the makefile has the word; `.NOTPARALLEL` makes groups without it."""
    for name in (prober.makefile, *included(prober)):
        path = os.path.join(prober.folder, name)
        if os.path.isfile(path):
            with open(path, encoding="utf-8", errors="replace") as file:
                if WORD.search(file.read()):
                    return True
    return False


def warn_of_wait(graph: Graph, prober: Prober, warn: Warn) -> None:
    """Warns where the graph has groups of `.WAIT`, and the make that is there doesn't know it."""
    if not graph.waits or not names_wait(prober):
        return
    version = old_make()
    if version is not None:
        text = (
            f"make is GNU make {version} here, which takes .WAIT for a file and orders nothing by"
            " it: answers are for a make that knows it, as GNU make does from 4.4 on; let one"
            " target need the other in its place"
        )
        warn(Note("", Kind.WAIT, text))
