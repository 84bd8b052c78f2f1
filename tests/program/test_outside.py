"""Refusals at lines of files outside of the folder in which the program runs."""

from __future__ import annotations

import json
from pathlib import Path

import pytest
from program.runs import Run, answer, assert_answers

SENTENCE = "NotALine (25): no rule, macro or include line, as `ifdef`; commands need a tab\n"


@pytest.fixture(name="folder")
def _folder(tmp_path: Path) -> Path:
    """A folder with a makefile, beside a file with a line that nobody is to see."""
    (tmp_path / "token.mk").write_text("TOKEN secret\n")
    folder = tmp_path / "project"
    (folder / "lib").mkdir(parents=True)
    (folder / "lib" / "more.mk").write_text("some words\n")
    return folder


@pytest.mark.parametrize("name", ["../token.mk", "/absolute"])
def test_lines_outside_are_not_shown(name: str, folder: Path) -> None:
    """The file and the line are named, and what stands there isn't shown."""
    if name == "/absolute":
        name = str(folder.parent / "token.mk")
    files = {"makefile": f"include {name}\n"}
    assert_answers(Run(["graph", "-w"], 2, f"{name}:1: {SENTENCE}", files=files), folder)
    _, out, _ = answer(Run(["graph", "--json"], 2, files=files), folder)
    value = json.loads(out)
    assert value["source"] is None and value["place"] == {"file": name, "line": 1}
    assert "secret" not in out


def test_lines_below_are_shown(folder: Path) -> None:
    """A file in a folder of the project is shown."""
    files = {"makefile": "include lib/more.mk\n"}
    shown = f"lib/more.mk:1: {SENTENCE}  some words\n"
    assert_answers(Run(["graph", "-w"], 2, shown, files=files), folder)
    _, out, _ = answer(Run(["graph", "--json"], 2, files=files), folder)
    assert json.loads(out)["source"] == "some words"
