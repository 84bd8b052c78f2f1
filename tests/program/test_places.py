"""Files that can't be read, or not as usual, files of any size, and streams that take nothing."""

from __future__ import annotations

import os
import subprocess
from pathlib import Path

import pytest
from program.runs import (
    CERTIFICATE,
    COPY,
    FILES,
    GRAPH,
    HEADER,
    MOST,
    PROGRAM,
    RECORDS,
    RULES,
    UNTOLD,
    WAYS,
    Run,
    answer,
    assert_answers,
)

PLAN = (
    "make 1\nbegin a.o\nlook a.o a.c\nlook a.o h.h\nput a.o a.o 3\ndone a.o\n"
    "begin p\nlook p a.o\nput p p 4\ndone p\nend\n"
    "edit h.h 5\nmake 1\npass a.o\nbegin p\nlook p a.o\nput p p 4\ndone p\nend\n"
)
UNPIPED = (
    "/dev/stdin:1: BadName (27): ./b: a word is no file name; "
    "look for %, *, ./, |, &, quotes or CR LF\n"
)
PLACES = [
    Run(["graph"], 2, "refused 37\n", files={}),
    Run(["graph"], 0, GRAPH, files={"Makefile": RULES}),
    Run(["graph", "-f", "/etc"], 2, "refused 35 /etc\n"),
    Run(["graph", "-f", "."], 2, "refused 27 .\n"),
    Run(["graph", "-f", "makefile/x"], 2, "refused 35 makefile/x\n"),
    Run(["graph", "-f", "none/x"], 2, "refused 37 none/x\n"),
    Run(["check", "-b", "."], 2, "refused 35 .\n"),
    Run(["graph", "-f", "/etc", "1+=2"], 2, "refused 11 operand:1\n"),
]
UNREAD = "ReadFailed (35): {}: a file can't be read; give one that can be read{}\n"
UNREAD_BOOK = "FileReadFailed (35): {}: a file of the command line can't be read; give another{}\n"
CAUSES = [
    Run(["graph", "-w", "-f", "/etc"], 2, UNREAD.format("/etc", ": this one is a folder")),
    Run(["graph", "-w", "-f", "makefile/x"], 2, UNREAD.format("makefile/x", "")),
    Run(["check", "-w", "-b", "."], 2, UNREAD_BOOK.format(".", ": this one is a folder")),
    Run(
        ["check", "-w", "-b", "large"],
        2,
        UNREAD_BOOK.format("large", ": this one has over 16,777,216 bytes"),
        files={"makefile": RULES, "large": " " * (MOST + 1)},
    ),
    Run(
        ["check", "-w", "-f", "/dev/stdin", "-b", "/dev/stdin"],
        2,
        UNREAD_BOOK.format("/dev/stdin", ": this one can be read once only, and was"),
        stdin=RULES,
    ),
    Run(
        ["graph", "-w", "-f", "/dev/stdin"],
        2,
        "/dev/stdin:1: " + UNREAD.format("/etc", ": this one is a folder"),
        stdin="include /etc\n",
    ),
]
UNMENDED = (
    "no record a.o\nno record p\n"
    "no line mends `no record a.o`: nothing says what its recipe reads; mkcheck check -w says what to"
    " do\n"
)
PIPES = [
    Run(["graph", "-f", "/dev/stdin"], 0, GRAPH, stdin=RULES),
    Run(["check", "-b", "/dev/stdin"], 0, WAYS, stdin=RECORDS),
    Run(["check", "-w", "-b", "/dev/stdin"], 0, WAYS, stdin=RECORDS),
    Run(["check", "-b", "/dev/stdin", "-e", "1"], 0, WAYS, stdin=RECORDS),
    Run(["check", "-b", "/dev/stdin", "-e", "1"], 1, PLAN, stdin=HEADER),
    Run(["check", "-b", "/dev/stdin", "-e", "1"], 1, "no plan\n", stdin=UNTOLD),
    Run(["repair", "-b", "/dev/stdin"], 1, err=UNMENDED, stdin=UNTOLD),
    Run(["repair", "-b", "/dev/stdin"], 2, "refused 35 /dev/stdin\n", stdin=HEADER),
    Run(["repair", "-f", "/dev/stdin", "-b", "H"], 2, "refused 35 /dev/stdin\n", stdin=RULES),
    Run(["check", "-w", "-f", "/dev/stdin", "-b", "B"], 2, UNPIPED, stdin="a: ./b\n"),
]
UNWRITTEN = [
    ["graph"],
    ["check", "-b", "H"],
    ["check", "-b", "N"],
    ["check", "-w", "-b", "H"],
    ["check", "-w", "-b", "N"],
    ["repair", "-b", "H"],
    ["--help"],
]


@pytest.mark.parametrize("run", PLACES, ids=Run.name)
def test_names_a_place_that_is_no_file(run: Run, tmp_path: Path) -> None:
    """Folders, paths through files, and other names of the makefile."""
    assert_answers(run, tmp_path)


@pytest.mark.parametrize("run", CAUSES, ids=Run.name)
def test_says_why_a_file_is_not_read(run: Run, tmp_path: Path) -> None:
    """With `-w` a failed read has its cause, also where the line of the refusal can't be shown."""
    assert_answers(run, tmp_path)


@pytest.mark.skipif(os.geteuid() != 0, reason="only root can become another user")
def test_says_that_a_file_may_not_be_read(tmp_path: Path) -> None:
    """An ordinary user and a file that only its owner may read."""
    book = tmp_path / "B"
    book.write_text(RECORDS)
    book.chmod(0o600)
    (tmp_path / "makefile").write_text(RULES)
    for folder in (tmp_path, *tmp_path.parents[:2]):
        folder.chmod(0o755)
    done = subprocess.run(
        ["setpriv", "--reuid=65534", "--clear-groups", PROGRAM, "check", "-w", "-b", "B"],
        cwd=tmp_path,
        capture_output=True,
        text=True,
        check=False,
    )
    assert done.stdout == UNREAD_BOOK.format("B", ": there is no permission to read this one")
    assert done.returncode == 2


@pytest.mark.parametrize("run", PIPES, ids=Run.name)
def test_reads_a_pipe_once(run: Run, tmp_path: Path) -> None:
    """A pipe is read once. `repair` and the line of a refusal would read it again."""
    assert_answers(run, tmp_path)


def test_a_pipe_of_a_right_build_lacks_nothing(tmp_path: Path) -> None:
    """`repair` reads again only what it amends."""
    run = Run(["repair", "-b", "/dev/stdin"], 0, stdin=RECORDS)
    assert answer(run, tmp_path) == (0, "", "")


@pytest.mark.parametrize("words", UNWRITTEN, ids=" ".join)
def test_a_failed_write_is_told(words: list[str], tmp_path: Path) -> None:
    """A disk that is full takes nothing: the status is 2 whatever the answer was."""
    assert_answers(Run(words, 2, err="write failed\n", sink="/dev/full"), tmp_path)


def commented(text: str, size: int) -> str:
    """The text, with lines of comments behind it, so that it has this size."""
    line = "#" + "x" * 65_534 + "\n"
    count, rest = divmod(size - len(text), len(line))
    return text + line * count + ("#" * (rest - 1) + "\n" if rest else "")


SIZED = [
    (["graph"], {}, "makefile", commented(RULES, MOST), GRAPH),
    (["check", "-b", "B"], FILES, "B", RECORDS.ljust(MOST), WAYS),
    (
        ["verify", "-b", "B", "-k", "C"],
        FILES,
        "C",
        CERTIFICATE.ljust(MOST),
        "yes 2 recipes 2 reads\n",
    ),
    (
        ["simulate", "-b", "B", "-p", "Q"],
        COPY,
        "Q",
        commented(COPY["Q"], MOST),
        "a 1 1\nb 2 2\nplan ok\n",
    ),
]


@pytest.mark.parametrize(
    "words, files, name, text, printed", SIZED, ids=["makefile", "footprints", "cert", "plan"]
)
def test_a_file_may_have_the_most_bytes(
    words: list[str], files: dict[str, str], name: str, text: str, printed: str, tmp_path: Path
) -> None:
    """A file of 16,777,216 bytes is read."""
    assert_answers(Run(words, 0, printed, files={**files, name: text}), tmp_path)


TOO_LARGE = [
    (["graph"], {}, "makefile", commented(RULES, MOST + 1)),
    (["graph"], {}, "Makefile", "#" * (MOST + 1)),
    (["graph", "-f", "large"], {}, "large", "#" * (MOST + 1)),
    (["check", "-b", "B"], FILES, "B", RECORDS.ljust(MOST + 1)),
    (["verify", "-b", "B", "-k", "C"], FILES, "C", CERTIFICATE.ljust(MOST + 1)),
    (["simulate", "-b", "B", "-p", "Q"], COPY, "Q", commented(COPY["Q"], MOST + 1)),
]


@pytest.mark.parametrize(
    "words, files, name, text",
    TOO_LARGE,
    ids=["a", "second", "named", "footprints", "cert", "plan"],
)
def test_a_file_that_is_larger_is_refused(
    words: list[str], files: dict[str, str], name: str, text: str, tmp_path: Path
) -> None:
    """One byte more is a failed read."""
    run = Run(words, 2, f"refused 35 {name}\n", files={**files, name: text})
    assert_answers(run, tmp_path)
