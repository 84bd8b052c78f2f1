"""Tests of the form of cases: what is read, what is written, and what is refused."""

from __future__ import annotations

from pathlib import Path

import pytest
from case_file import Answer, CaseError, escaped, read_case, section_of, unescaped
from case_run import answers_of, difference, footprints

CASE = """A case

A remark
of two lines

== makefile (no final newline)
a:

== plan (escaped)
x\\x20
\\{3*ab}\\\\

== command
graph
graph -r

== output
goals a
a:

== status
0
"""


def test_writes_what_it_reads() -> None:
    """A case is written as it stands."""
    assert read_case(CASE).words() == CASE


def test_reads_files_with_their_marks() -> None:
    """A text without a final newline, and one with bytes that can't be seen."""
    files = read_case(CASE).runs[0].files
    assert [file.text() for file in files] == [b"a:", b"x \nababab\\\n"]


def test_each_byte_can_be_escaped() -> None:
    """What is escaped reads back as it was, whatever it holds."""
    every = bytes(range(256)) + b"\n== x\na \n\t\n\\x41\\{2*a}"
    for text in (every, b"", b"\n", b"plain\n", every[:128]):
        assert unescaped(escaped(text).encode()) == text
        assert section_of("x", text).text() == text


@pytest.mark.parametrize(
    "wrong, said",
    [
        (("\n\n== command", "\n== command"), "no empty line"),
        (("== plan (escaped)", "== "), "a heading is"),
        (("== status\n0\n", ""), "output, errors, status"),
        (("== status\n0\n", "== status\nnone\n"), "the status is no number"),
        (("\\x20", "\\y"), "a backslash begins"),
        (("A case\n\n", "A case\n"), "no title"),
        (("graph\ngraph -r\n", ""), "no command"),
        (("== output\ngoals a\na:\n\n", "== status\n1\n\n"), "output, errors, status"),
    ],
)
def test_refuses_other_forms(wrong: tuple[str, str], said: str) -> None:
    """A file that isn't in the form is refused with a reason."""
    with pytest.raises(CaseError, match=said):
        for file in read_case(CASE.replace(*wrong, 1)).runs[0].files:
            file.text()


def test_an_answer_takes_the_place_of_another() -> None:
    """Only the sections of the answer change, and none stands for an empty stream."""
    given = read_case(CASE).with_answers([[Answer(b"", b"odd \n", 2)] * 2]).words()
    front, _ = CASE.split("== output")
    assert given == front + "== errors (escaped)\nodd\\x20\n\n== status\n2\n"


def test_commands_that_differ_become_runs() -> None:
    """Commands of one section that answer differently get a section each."""
    one, other = Answer(b"goals a\na:\n", b"", 0), Answer(b"", b"", 1)
    given = read_case(CASE).with_answers([[one, other]])
    assert [run.commands() for run in given.runs] == [["graph"], ["graph -r"]]
    assert [run.answer() for run in given.runs] == [one, other]


def test_a_difference_names_the_lines() -> None:
    """A difference shows both texts."""
    said = difference("a.case", CASE, CASE.replace("goals a", "goals b"))
    assert "\n-goals a\n+goals b\n" in said
    assert difference("a.case", CASE, CASE) == ""


def test_reads_short_footprints() -> None:
    """Lists of names, and records with and without commands."""
    book = footprints(["fixed /usr/", "sources a b", "p: a b > p q", "\tmk p", "\tls", "q: > "])
    empty: list[str] = []
    first = {"target": "p", "commands": ["mk p", "ls"], "reads": ["a", "b"], "writes": ["p", "q"]}
    second = {"target": "q", "commands": None, "reads": empty, "writes": empty}
    assert (book["fixed"], book["sources"]) == (["/usr/"], ["a", "b"])
    assert book["records"] == [first, second]
    with pytest.raises(CaseError, match="neither a list nor a record"):
        footprints(["p a b"])


def test_a_program_that_answers_otherwise_is_seen(tmp_path: Path) -> None:
    """The answers of a program that writes its words and fails."""
    program = tmp_path / "program"
    program.write_text('#!/bin/sh\necho "$@"\nexit 3\n')
    program.chmod(0o755)
    answers = answers_of(program, read_case(CASE))
    assert answers == [[Answer(b"graph\n", b"", 3), Answer(b"graph -r\n", b"", 3)]]
