"""Help, the version, and command lines that can't be read."""

from __future__ import annotations

import shutil
import subprocess
from pathlib import Path

import pytest
from program.runs import PROGRAM, Run, answer, assert_answers

HERE = Path(__file__).resolve().parent
HINT = "\n\nFor more information, try '--help'.\n"
PROGRAM_USAGE = "\n\nUsage: mkcheck <COMMAND>" + HINT
CHECK_USAGE = (
    "\n\nUsage: mkcheck check [-f F] [-r] -b BOOK [-c] [-w] [-e N] [--json] [WORD]..." + HINT
)
GRAPH_USAGE = "\n\nUsage: mkcheck graph [-f F] [-r] [-b BOOK] [-c] [-w] [--json] [WORD]..." + HINT
REPAIR_USAGE = "\n\nUsage: mkcheck repair [-f F] [-r] -b BOOK [--part] [-w] [--json] [WORD]..." + HINT
VERIFY_USAGE = "\n\nUsage: mkcheck verify [-f F] [-r] -b BOOK -k CERT [-w] [--json] [WORD]..." + HINT
SIMULATE_USAGE = "\n\nUsage: mkcheck simulate [-f F] [-r] -b BOOK -p PLAN [-w] [--json] [WORD]..." + HINT
UNEXPECTED = "error: unexpected argument '{0}' found"
BAD_NUMBER = "error: -e takes the number of a finding, a whole number from 1 on" + HINT
EXPLAIN_USAGE = "\n\nUsage: mkcheck explain [WORD]..." + HINT
MISSING = "error: the following required arguments were not provided:\n  "
NO_TEXT = "error: a word of the command line is not UTF-8\n"
TWICE = "error: the argument '-b <BOOK>' cannot be used multiple times"

HELP = [
    (["--help"], "mkcheck"),
    (["-h"], "mkcheck"),
    (["check", "-h"], "check"),
    (["help"], "mkcheck"),
    (["help", "check"], "check"),
    *(([name, "--help"], name) for name in "graph check repair verify since simulate explain".split()),
]
REJECTED = [
    Run(["explain", "-b", "B"], 2, err=UNEXPECTED.format("-b") + EXPLAIN_USAGE),
    Run(["frob"], 2, err="error: unrecognized subcommand 'frob'" + PROGRAM_USAGE),
    Run(["-x"], 2, err="error: unexpected argument '-x' found" + PROGRAM_USAGE),
    Run(["check"], 2, err=MISSING + "-b <BOOK>" + CHECK_USAGE),
    Run(["check", "-w"], 2, err=MISSING + "-b <BOOK>" + CHECK_USAGE),
    Run(["check", "-w", "-b", "B", "-x"], 2, err=UNEXPECTED.format("-x") + CHECK_USAGE),
    Run(["check", "-b", "B", "--", "-x", "-j"], 2, "refused 41 -x\n"),
    Run(["graph", "-e"], 2, err=UNEXPECTED.format("-e") + GRAPH_USAGE),
    Run(["check", "-b", "B", "--part"], 2, err=UNEXPECTED.format("--part") + CHECK_USAGE),
    Run(["check", "-b", "B", "-e", "x"], 2, err=BAD_NUMBER),
    Run(["check", "-b", "B", "-e", "0"], 2, err=BAD_NUMBER),
    Run(["repair"], 2, err=MISSING + "-b <BOOK>" + REPAIR_USAGE),
    Run(["verify", "-b", "B"], 2, err=MISSING + "-k <CERT>" + VERIFY_USAGE),
    Run(["simulate", "-b", "B"], 2, err=MISSING + "-p <PLAN>" + SIMULATE_USAGE),
    Run(["check", "-b", "B", "-b", "B"], 2, err=TWICE + CHECK_USAGE),
    Run(["graph", b"\xff"], 2, err=NO_TEXT),
    Run([b"\xff"], 2, err=NO_TEXT),
    Run(["check", "-b", b"B\x80"], 2, err=NO_TEXT),
    Run(["check", "-b", "B", "-f", b"\xc3("], 2, err=NO_TEXT),
]
# Options that are missing, come twice, have a bad value or belong to another command.
OTHERS = """

graph -x
graph --file makefile
graph -f
graph -f a -f b
graph -b
graph -b A -b B
simulate -p P
simulate -b B -p P -c
check p
check -b
check -b B -e -1
check -b B -e x
check -b B -e 1.5
check -b B -e 18446744073709551616
check -b B -e
check -b B -e 1 -e 2
check -b B -k K
verify -k K
verify -b B -k K -c
verify -b B -k K -e 1
verify -b B -k K --part
simulate -b B -p P --part
since D -b B --part
graph --part
explain --part
repair p
repair -b
repair -b B -c
repair -b B -e 1
repair -b B -k K
explain -b B
explain -f F
"""
OPTIONS = {
    "check": ["-f <F>", "-r", "-b <BOOK>", "Example: mkcheck ", "Status: 0 yes or done, 1 no"],
    "verify": ["-f <F>", "-r", "-b <BOOK>", "Example: mkcheck ", "Status: 0 yes or done, 1 no"],
    "repair": ["-f <F>", "-r", "-b <BOOK>", "Example: mkcheck repair "],
}


@pytest.mark.parametrize("words, name", HELP, ids=lambda word: " ".join(word))
def test_prints_help(words: list[str], name: str, tmp_path: Path) -> None:
    """Each help is the stored text."""
    text = (HERE / "texts" / f"{name}.txt").read_text()
    assert_answers(Run(words, 0, text), tmp_path)


@pytest.mark.parametrize("name", OPTIONS)
def test_help_tells_of_each_option(name: str, tmp_path: Path) -> None:
    """The help of a command names its options, an example, and the status."""
    _, out, _ = answer(Run([name, "--help"], 0), tmp_path)
    assert [part for part in OPTIONS[name] if part not in out] == []


@pytest.mark.parametrize("run", REJECTED, ids=Run.name)
def test_rejects_words_with_a_reason(run: Run, tmp_path: Path) -> None:
    """What is wrong, and how the command is used, on standard error."""
    assert_answers(run, tmp_path)


@pytest.mark.parametrize("words", OTHERS.splitlines()[1:])
def test_rejects_other_words(words: str, tmp_path: Path) -> None:
    """Nothing is printed but an error, and the status is 2."""
    status, out, err = answer(Run(words.split(), 2), tmp_path)
    assert (status, out) == (2, "") and err


def test_an_empty_number_is_rejected(tmp_path: Path) -> None:
    """`-e` with an empty word."""
    status, out, err = answer(Run(["check", "-b", "B", "-e", ""], 2), tmp_path)
    assert (status, out) == (2, "") and err


@pytest.mark.parametrize("word", ["-V", "--version"])
def test_prints_the_version(word: str, tmp_path: Path) -> None:
    """A quick build says that it isn't proved; a proved program names the kit that is there."""
    kit = shutil.which("rt")
    _, shown, _ = answer(Run([word], 0), tmp_path)
    if "not proved" in shown:
        kind = "not proved: a quick build"
    elif kit is None:
        pytest.skip("no rt on the path, so the kit that --version names can't be compared")
    else:
        done = subprocess.run([kit, "version"], capture_output=True, text=True, check=False)
        kind = f"proved with {done.stdout.strip()}"
    assert PROGRAM.exists()
    assert_answers(Run([word], 0, f"mkcheck 0.2.0 ({kind})\n"), tmp_path)
