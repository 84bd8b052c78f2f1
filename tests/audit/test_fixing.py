"""The lines that an audit shows and writes; GNU make then makes the goals again."""

from __future__ import annotations

import os
import shutil
import subprocess
from pathlib import Path

import pytest

from audit.project import GNU, POSIX, SOURCES, Project, can_import, can_record
from mkcheck_tools.audit.makefile_lines import Sources
from mkcheck_tools.audit.mending import mending_of, texts_of
from mkcheck_tools.audit.verdicts import Audited, Finding, Mend, Spot
from mkcheck_tools.audit.writing import write_all
from mkcheck_tools.faults import Fault

LATER = 1 << 62
PATCH = """\
--- a/makefile
+++ b/makefile
@@ -4,3 +4,4 @@
 \tcc -c main.c
 part.o: part.c
 \tcc -c part.c
+main.o part.o: part.h
"""


def stale(spot: Spot, target: str, word: str, takes_all: str = "") -> Finding:
    """A stale read, with the line that mends it."""
    mend = Mend(spot, (target,), (word,), takes_all)
    return Finding("stale", spot, "it stays old", (target,), (word,), (mend,))


@can_record
def test_a_patch_has_the_lines_at_their_place(project: Project) -> None:
    project.write({"makefile": POSIX, **SOURCES})
    outcome = project.audit("--diff")
    assert outcome.output == PATCH
    assert outcome.status == 1
    assert project.text("makefile") == POSIX
    subprocess.run(
        ["patch", "-s", "-p1"], cwd=project.folder, input=outcome.output, text=True, check=True
    )
    assert project.audit().status == 0
    assert project.makes_again("prog", "part.h")


@can_import
def test_lines_are_written_and_the_build_is_judged_again(project: Project) -> None:
    makefile = GNU.replace("\n", "\r\n") + "ifdef X\r\nendif\r\n"
    project.write({"Makefile": makefile, **SOURCES})
    os.chmod(project.folder / "Makefile", 0o640)
    outcome = project.audit("--fix")
    assert outcome.status == 0, outcome.output + outcome.errors
    assert "mkcheck-audit: added behind Makefile:5: main.o part.o: part.h\n" in outcome.errors
    assert outcome.output.startswith("Doubts") and "\nyes, with 1 doubt" in outcome.output
    front, behind = makefile.split("ifdef X")
    assert project.text("Makefile") == f"{front}main.o part.o: part.h\r\nifdef X{behind}"
    assert os.stat(project.folder / "Makefile").st_mode & 0o777 == 0o640
    assert project.makes_again("prog", "part.h")


@can_import
def test_what_only_a_person_can_decide_is_not_written(project: Project) -> None:
    makefile = "all: a b\na b:\n\tcp s out; cp out $@\nx := 1\n"
    project.write({"Makefile": makefile, "s": "1\n"})
    outcome = project.audit("--fix")
    assert outcome.status == 1
    assert "[writers]" in outcome.output
    assert project.text("Makefile") == makefile
    assert "Mend these as the lines above say" in outcome.output


def test_a_recipe_that_takes_all_prerequisites_is_left_to_a_person(tmp_path: Path) -> None:
    (tmp_path / "Makefile").write_text("prog: a\n\tcat $^ > $@; cat b >> $@\n")
    finding = stale(Spot("Makefile", 1), "prog", "b", "$^")
    mending = mending_of(Audited("Makefile", "", (finding,)), Sources(str(tmp_path)))
    assert mending.additions == ()
    assert mending.left[0].why == (
        "add `prog: b`; the recipe takes all prerequisites by $^, so write $(filter-out b,$^)"
        " there, if it isn't to take b too"
    )


def test_makefiles_that_a_tool_writes_and_files_elsewhere_are_left_as_they_are(
    tmp_path: Path,
) -> None:
    (tmp_path / "Makefile").write_text("a: b\n\tx\n")
    audited = Audited(
        "Makefile",
        "",
        (stale(Spot("Makefile", 1), "a", "c"), stale(Spot("/usr/lib/x.mk", 1), "a", "c")),
        generators={"Makefile": "CMake writes it"},
    )
    mending = mending_of(audited, Sources(str(tmp_path)))
    assert mending.additions == ()
    assert [left.why for left in mending.left] == [
        "Makefile lacks `a: c`; CMake writes it",
        "add `a: c` to /usr/lib/x.mk, which isn't a file of the project",
    ]


def test_a_file_that_is_included_before_the_first_goal_gets_no_rule(tmp_path: Path) -> None:
    (tmp_path / "rules.mk").write_text("%.o: %.c\n\tcc -c $<\n")
    (tmp_path / "Makefile").write_text("include rules.mk\nall: a.o\n")
    audited = Audited("Makefile", "", (stale(Spot("rules.mk", 1), "a.o", "a.h"),))
    sources = Sources(str(tmp_path))
    texts = texts_of(mending_of(audited, sources).additions, sources)
    assert [*texts] == ["Makefile"]
    assert texts["Makefile"][1] == "include rules.mk\nall: a.o\na.o: a.h\n"


def test_targets_that_lack_the_same_share_a_line(tmp_path: Path) -> None:
    (tmp_path / "Makefile").write_text("%.o: %.c\n\tcc -c $<\nall: a.o b.o\n")
    spot = Spot("Makefile", 1)
    lacking = [("a.o", "x.h"), ("a.o", "y.h"), ("b.o", "x.h"), ("b.o", "y.h"), ("c.o", "x.h")]
    audited = Audited("Makefile", "", tuple(stale(spot, *words) for words in lacking))
    sources = Sources(str(tmp_path))
    (addition,) = mending_of(audited, sources).additions
    assert addition.lines == ("a.o b.o: x.h y.h", "c.o: x.h")


@pytest.mark.parametrize("begun, text", [(0, "a:\n"), (LATER, "b:\n")])
def test_a_file_that_changed_meanwhile_is_not_written(
    begun: int, text: str, tmp_path: Path
) -> None:
    (tmp_path / "Makefile").write_text(text)
    (tmp_path / "other.mk").write_text("c:\n")
    texts = {"other.mk": ("c:\n", "c: x\n"), "Makefile": ("a:\n", "a: x\n")}
    with pytest.raises(Fault, match="has changed while it was audited, so nothing is written"):
        write_all(str(tmp_path), texts, begun)
    assert (tmp_path / "Makefile").read_text() == text
    assert (tmp_path / "other.mk").read_text() == "c:\n"


def test_a_link_to_a_makefile_stays_one(tmp_path: Path) -> None:
    (tmp_path / "real.mk").write_bytes(b"# \xff\na:\n")
    (tmp_path / "Makefile").symlink_to("real.mk")
    before = "# \udcff\na:\n"
    write_all(str(tmp_path), {"Makefile": (before, before + "a: b\n")}, LATER)
    assert (tmp_path / "Makefile").is_symlink()
    assert (tmp_path / "real.mk").read_bytes() == b"# \xff\na:\na: b\n"


@can_record
@pytest.mark.skipif(shutil.which("git") is None, reason="no git")
def test_no_line_is_added_for_what_git_keeps(project: Project) -> None:
    project.write({"makefile": "a: b\n\tgit rev-parse HEAD > a; cat b h >> a\n", "b": "", "h": ""})
    who = ("-c", "user.name=a", "-c", "user.email=a@localhost")
    for words in (["init", "-q"], ["add", "."], [*who, "commit", "-q", "-m", "one"]):
        subprocess.run(["git", *words], cwd=project.folder, check=True)
    outcome = project.audit()
    assert "    add: a: h\n" in outcome.output
    assert "a reads" in outcome.output and ".git/HEAD" in outcome.output
    outcome = project.audit("--fix")
    assert ".git" not in project.text("makefile")
    assert "    do: no prerequisite can stand for what git keeps: let a recipe" in outcome.output
    assert outcome.status == 1


def test_no_line_lets_a_folder_need_a_file_in_it(tmp_path: Path) -> None:
    (tmp_path / "Makefile").write_text("all: d\nd:\n\tmkdir d\nd/e/f: a\n\tcp a d/e/f\n")
    spot = Spot("Makefile", 2)
    mend = Mend(spot, ("d",), ("d/e/f",))
    finding = Finding("race", spot, "too early", ("d",), ("d/e/f",), (mend,))
    mending = mending_of(Audited("Makefile", "", (finding,)), Sources(str(tmp_path)))
    assert not mending.additions
    assert mending.left[0].why.startswith("d/e/f lies in d, which has to be there before it")


@can_record
def test_a_file_that_a_recipe_without_a_record_writes_is_not_fixed(project: Project) -> None:
    makefile = "all: b c\nb: a\n\tcp a x; cp a b; date +%N >> b\nc: a\n\tcat x a > c\n"
    project.write({"makefile": makefile, "a": "a\n"})
    outcome = project.audit(replay=True)
    assert "c reads x" in outcome.output
    assert "    do: a recipe that has no record may write it: mend what wasn't" in outcome.output
    assert "--fixed" not in outcome.output
