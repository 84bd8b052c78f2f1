"""What the pages show is what mkcheck does.

The makefiles of docs/FROM_GNU_MAKE.md are refused by their numbers or read, and so is our own; the
sessions of all pages print what stands there, and other commands are marked as not run; links lead
somewhere; lengths in docs/WHY.md are those of the files; `mkcheck explain` and `mkcheck check -w`
print what stands in the pages of docs/REFERENCE.md; docs/TROUBLE.md quotes the tools; wrong edits
apply; the tools have the rooms that tools/README.md says; and the manual pages can be read.
"""

from __future__ import annotations

import os
import re
import subprocess
from collections.abc import Sequence
from pathlib import Path

import pytest
from pages.edits import wrong_edits
from pages.explained import wrong_explanations
from pages.lengths import wrong_lengths
from pages.links import broken_links, pages
from pages.marks import unmarked_commands
from pages.rooms import wrong_imports, wrong_names
from pages.sentences import wrong_sentences
from pages.sessions import try_page
from pages.troubles import wrong_quotes

ROOT = Path(__file__).resolve().parents[2]
MKCHECK = os.path.abspath(os.environ.get("MKCHECK", ROOT / "bin" / "mkcheck"))
PAGE = ROOT / "docs" / "FROM_GNU_MAKE.md"
SESSIONS = tuple(page for page in pages() if "```console" in page.read_text(encoding="utf-8"))
BLOCK = re.compile(r"^```make ?(\d*)\n(.*?)^```$", re.MULTILINE | re.DOTALL)


def answer(makefile: str, goals: Sequence[str], folder: Path) -> str:
    """The number of the refusal of a makefile, or nothing if its graph and commands are printed."""
    (folder / "makefile").write_text(makefile)
    done = subprocess.run(
        [MKCHECK, "graph", "-c", *goals], cwd=folder, capture_output=True, text=True, check=False
    )
    words = done.stdout.split()
    if words[:1] == ["refused"]:
        return words[1]
    return "" if done.returncode == 0 else f"status {done.returncode}"


@pytest.mark.parametrize("number, makefile", BLOCK.findall(PAGE.read_text(encoding="utf-8")))
def test_a_makefile_is_refused_or_read_as_its_page_says(
    number: str, makefile: str, tmp_path: Path
) -> None:
    """A block with a number is refused by it; another one is read."""
    assert answer(makefile, (), tmp_path) == number


def test_reads_the_makefile_of_the_repository(tmp_path: Path) -> None:
    """With all its phony targets as goals."""
    text = (ROOT / "Makefile").read_text()
    goals = " ".join(re.findall(r"^\.PHONY:(.*)$", text, re.MULTILINE)).split()
    assert goals
    assert answer(text, goals, tmp_path) == ""


@pytest.mark.parametrize("page", SESSIONS, ids=lambda page: str(page.relative_to(ROOT)))
def test_sessions_print_what_the_page_shows(page: Path) -> None:
    """The steps that differ are printed; sessions for which something is missing are left out."""
    ran, wrong, left_out = try_page(MKCHECK, page)
    assert wrong == 0
    if left_out and not ran:
        pytest.skip("no strace that may trace, or no compiler")


def test_other_commands_are_marked_as_not_run() -> None:
    """What is neither run nor marked is printed."""
    assert unmarked_commands(set(SESSIONS)) == 0


def test_explanations_are_those_of_the_reference() -> None:
    """What differs is printed."""
    assert wrong_explanations(MKCHECK) == 0


def test_sentences_are_those_of_the_reference() -> None:
    """What differs is printed."""
    assert wrong_sentences(MKCHECK) == 0


def test_troubles_are_quoted_as_the_tools_say_them() -> None:
    """In docs/TROUBLE.md; what nothing says is printed."""
    assert wrong_quotes() == 0


def test_links_lead_somewhere() -> None:
    """From page to page, and to a heading."""
    assert broken_links() == 0


def test_lengths_are_those_of_the_files() -> None:
    """The lines that docs/WHY.md says its definitions have."""
    assert wrong_lengths() == 0


def test_wrong_edits_apply() -> None:
    """Each has its file, and its old text stands there once."""
    assert wrong_edits() == 0


def test_rooms_import_from_rooms_above_them() -> None:
    """In the table of tools/README.md, which names all."""
    assert wrong_imports() == 0
    assert wrong_names() == 0


def test_a_linter_reads_the_manual_pages() -> None:
    """By `make manuals`, which says so if there is no linter."""
    of_make = ("MAKEFLAGS", "MFLAGS", "MAKELEVEL")
    kept = {name: value for name, value in os.environ.items() if name not in of_make}
    done = subprocess.run(
        ["make", "-s", "manuals"], cwd=ROOT, env=kept, capture_output=True, text=True, check=False
    )
    assert done.returncode == 0 and done.stdout, done.stdout + done.stderr
