"""Which files a command opens, and in which order: those that its words and texts name, and no
others."""

from __future__ import annotations

import os
import re
import shutil
import subprocess
from collections.abc import Mapping, Sequence
from pathlib import Path

import pytest

from program.runs import CERTIFICATE, PROGRAM, RECORDS, SECONDS, UNTOLD

CALL = re.compile(r'(?:\d+ +)?open(?:at2?)?\((?:AT_FDCWD, )?"([^"]*)"')
SYSTEM = ("/etc/", "/lib", "/proc/", "/sys/", "/usr/")
# The makefile of the other tests, of which two texts that it includes hold the rules. The second one
# includes a third; one that may be missing is.
INCLUDING = "include one.mk two.mk\n-include none.mk\n"
TEXTS = {
    "makefile": INCLUDING,
    "one.mk": "p: a.o\n\tcc -o p a.o\n",
    "two.mk": "include three.mk\n",
    "three.mk": "a.o: a.c\n\tcc -c a.c\n",
}
READ = ["makefile", "one.mk", "two.mk", "three.mk", "none.mk"]
FILES = {
    **TEXTS,
    "B": RECORDS,
    "U": UNTOLD,
    "C": CERTIFICATE,
    "P": "make 1\nrun a.o\nrun p\nend\n",
    "a.c": "",
    "p": "",
    **{f"old/{name}": text for name, text in TEXTS.items()},
    "old/footprint.json": RECORDS,
    "old/words": "p\n",
}
OLD = [f"old/{name}" for name in ("words", "options", *READ, "footprint.json")]
# Footprints with a header that no rule names.
STALE = RECORDS.replace('"sources":["a.c"]', '"sources":["a.c","h.h"]').replace(
    '"reads":["a.c"]', '"reads":["a.c","h.h"]'
)
OPENED: list[tuple[Sequence[str], Mapping[str, str], list[str]]] = [
    (["graph"], {}, READ),
    (["graph", "-b", "B"], {}, [*READ, "B"]),
    (["graph", "-f", "three.mk", "a.o"], {}, ["three.mk"]),
    (["check", "-b", "B"], {}, [*READ, "B"]),
    (["check", "-c", "-b", "B"], {}, [*READ, "B"]),
    (["check", "-b", "B"], {"B": STALE}, [*READ, "B"]),
    (["check", "-e", "1", "-b", "B"], {"B": STALE}, [*READ, "B"]),
    (["check", "-w", "-b", "B"], {"B": STALE}, [*READ, "B"]),
    (["check", "--json", "-b", "B"], {"B": STALE}, [*READ, "B"]),
    (["verify", "-b", "B", "-k", "C"], {}, [*READ, "B", "C"]),
    (["simulate", "-b", "B", "-p", "P"], {}, [*READ, "B", "P"]),
    (["since", "old", "-b", "B", "p"], {}, [*OLD, *READ, "B"]),
    (["check", "-b", "B"], {"one.mk": "a b\n"}, ["makefile", "one.mk"]),
    (["check", "-w", "-b", "B"], {"one.mk": "a b\n"}, ["makefile", "one.mk", "one.mk"]),
    (["explain", "stale"], {}, []),
    (["--version"], {}, []),
    (["check", "-b"], {}, []),
]


def can_trace() -> bool:
    """Whether strace is there, and may trace."""
    words = ["strace", "-o", os.devnull, "true"]
    return bool(shutil.which("strace")) and not subprocess.run(words, check=False).returncode


def opened(folder: Path, words: Sequence[str]) -> list[str]:
    """The files that the program tries to open, but for those of the system, in their order."""
    trace = folder.parent / "trace"
    tracer = ["strace", "-f", "-e", "trace=open,openat,openat2", "-o", str(trace)]
    command = [*tracer, str(PROGRAM), *words]
    subprocess.run(command, cwd=folder, capture_output=True, timeout=SECONDS, check=False)
    names = [found[1] for line in trace.read_text().splitlines() if (found := CALL.match(line))]
    return [name for name in names if not name.startswith(SYSTEM)]


@pytest.mark.skipif(not can_trace(), reason="no strace that may trace")
@pytest.mark.parametrize(("words", "changed", "names"), OPENED)
def test_files_that_are_named_are_opened_in_order(
    words: Sequence[str], changed: Mapping[str, str], names: list[str], tmp_path: Path
) -> None:
    folder = tmp_path / "project"
    for name, text in {**FILES, **changed}.items():
        (folder / name).parent.mkdir(parents=True, exist_ok=True)
        (folder / name).write_text(text)
    assert opened(folder, words) == names
