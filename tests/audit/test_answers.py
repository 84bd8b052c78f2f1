"""What an audit says, and its status, for each reader."""

from __future__ import annotations

import re
import shutil
from pathlib import Path

import pytest

from audit.project import GNU, POSIX, SOURCES, Project, can_import, can_record

UNTESTED = """\
Doubts, by which this answer may be wrong:
    no recipe was run again (--no-replay), so nothing tests that each writes what it wrote this \
time, and from its recorded reads alone

"""


@can_record
def test_a_posix_makefile_is_judged_as_it_stands(project: Project) -> None:
    project.write({"makefile": POSIX, **SOURCES})
    outcome = project.audit()
    assert outcome.errors.splitlines()[0] == (
        "mkcheck-audit: makefile is read as POSIX defines make"
    )
    assert outcome.output == (
        "makefile:3: main.o and part.o read part.h, but don't depend on it: when it changes, they"
        " stay old [stale]\n"
        "    3 | main.o: main.c\n"
        "      | ^~~~~~\n"
        "    add: main.o part.o: part.h\n"
        "\n"
        + UNTESTED
        + "no: 2 findings, with 1 doubt (3 of 3 recipes judged)\n"
        "mkcheck-audit --diff shows the lines at their place, --fix writes them.\n"
    )
    assert outcome.status == 1


@can_record
def test_the_same_line_mends_a_race_and_a_stale_read(project: Project) -> None:
    project.write({"makefile": "all: a b\na: s\n\tcp s a\nb: s\n\tcat s a > b\n", "s": "1\n"})
    outcome = project.audit()
    assert "add: b: a\n" in outcome.output
    assert outcome.output.count("    add: ") == 1
    assert "[race, stale]\n" in outcome.output
    assert "no: 2 findings" in outcome.output
    assert outcome.status == 1


@can_record
def test_the_last_lines_of_a_recipe_that_failed(project: Project) -> None:
    said = "for i in $$(seq 12); do echo line $$i >&2; done"
    project.write({"makefile": f".PHONY: all\nall: a b\na:\n\techo > a\nb:\n\t{said}; exit 3\n"})
    outcome = project.audit()
    assert "    the recipe of b failed, status 3, at " in outcome.output
    last = "".join(f"        line {number}\n" for number in range(3, 13))
    assert f"; its last lines, of all in .mkcheck/record.log:\n{last}" in outcome.output
    assert "line 2\n" not in outcome.output
    assert "\nline 1\nline 2\n" in project.text(".mkcheck/record.log")
    assert "1 of 2 recipes judged" in outcome.output
    project.write({"makefile": "all: a\na:\n\techo > a\n"})
    assert project.audit().status == 0
    assert not (project.folder / ".mkcheck/record.log").exists()


@can_record
def test_the_line_in_which_two_runs_of_a_recipe_differ(project: Project) -> None:
    project.write({"makefile": ".PHONY: all\nall: a b\na:\n\techo > a\nb:\n\tdate +%s%N > b\n"})
    outcome = project.audit(replay=True)
    assert "writes b with other contents: " in outcome.output
    assert re.search(r'\n {8}line 1 was "\d+"\n {8}line 1 is  "\d+"\n', outcome.output)


@can_import
def test_a_gnu_makefile_is_imported(project: Project) -> None:
    project.write({"Makefile": GNU, **SOURCES})
    outcome = project.audit()
    assert outcome.errors.splitlines()[0] == (
        "mkcheck-audit: Makefile is read as GNU make reads it, since Makefile:1 isn't POSIX's"
    )
    assert outcome.output == (
        "Makefile:4: main.o and part.o aren't made again when part.h changes [stale]\n"
        "    4 | %.o: %.c\n"
        "      | ^~~\n"
        "    add: main.o part.o: part.h\n"
        "\n"
        + UNTESTED
        + "no: 2 findings, with 1 doubt (3 of 3 recipes judged)\n"
        "mkcheck-audit --diff shows the lines at their place, --fix writes them.\n"
    )
    assert outcome.status == 1
    assert not project.makes_again("prog", "part.h")


@can_import
def test_a_build_of_ninja_is_imported(project: Project) -> None:
    if shutil.which("ninja") is None:
        pytest.skip("no ninja")
    project.write(
        {
            "build.ninja": "rule cc\n command = cc -c $in -o $out\nbuild main.o: cc main.c\n",
            **SOURCES,
        }
    )
    outcome = project.audit()
    assert outcome.errors.splitlines()[0] == "mkcheck-audit: build.ninja is read as ninja reads it"
    assert outcome.output.splitlines()[0] == (
        "build.ninja:3: main.o isn't made again when part.h changes [stale]"
    )
    assert outcome.status == 1


@can_import
def test_recipes_that_start_make_need_gnu_make(project: Project) -> None:
    project.write({"makefile": "all:\n\tcd sub && $(MAKE)\n", "sub/makefile": "a: b\n\tcp b a\n"})
    project.write({"sub/b": "1\n"})
    outcome = project.audit()
    assert outcome.errors.splitlines()[0] == (
        "mkcheck-audit: makefile is read as GNU make reads it, since the recipe of all starts make"
    )
    assert outcome.status == 0, outcome.output + outcome.errors


@can_record
def test_a_yes(project: Project) -> None:
    project.write({"makefile": ".DELETE_ON_ERROR:\na: b\n\tcp b a\n", "b": "1\n"})
    outcome = project.audit(replay=True)
    assert outcome.output == (
        "yes (1 of 1 recipe judged)\n"
        "Run mkcheck-audit again after edits: it records only what they change.\n"
    )
    assert outcome.status == 0
    assert project.text(".mkcheck/.gitignore") == "*\n"


@pytest.mark.parametrize(
    "reader", [pytest.param("posix", marks=can_record), pytest.param("make", marks=can_import)]
)
@pytest.mark.skipif(shutil.which("ccache") is None, reason="no ccache")
def test_a_build_by_ccache(project: Project, tmp_path: Path, reader: str) -> None:
    """Its cache is neither read nor written."""
    makefile = POSIX.replace("\tcc ", "\tccache cc ").replace(".o: ", ".o: part.h ")
    project.write({"makefile": makefile, **SOURCES})
    home = tmp_path / "home"
    home.mkdir()
    for _ in range(2):
        outcome = project.audit("--from", reader, replay=True, HOME=str(home))
        assert outcome.output.startswith("yes (3 of 3 recipes judged)\n"), outcome
    assert not [*home.rglob("*ccache*")]


@can_import
def test_folders_that_are_made_in_order(project: Project) -> None:
    """`mkdir` of a folder fails where there is a file in it, which always comes later."""
    rules = "obj:\n\tmkdir obj\nobj/sub: | obj\n\tmkdir obj/sub\nobj/sub/b: s | obj/sub\n"
    text = f".DELETE_ON_ERROR:\nall: obj/sub/b\n{rules}\tcp s obj/sub/b\n"
    project.write({"Makefile": text, "s": "1\n"})
    assert project.audit(replay=True).output.startswith("yes (3 of 3 recipes judged)\n")


@can_record
def test_what_could_not_be_judged_is_no_yes(project: Project) -> None:
    project.write({"makefile": "all: a c\na: b\n\tcp b a\nc: b\n\tfalse\n", "b": "1\n"})
    outcome = project.audit()
    assert "Not judged:\n    makefile:4: " in outcome.output
    assert "yes, but for 1 recipe not judged, with 1 doubt (1 of 2 recipes judged)\n" in (
        outcome.output
    )
    assert outcome.status == 1
    assert project.audit("--allow-unjudged").status == 0


@can_record
def test_what_is_known_is_found_whatever_is_not_judged(project: Project) -> None:
    project.write(
        {
            "makefile": "all: a c\na: b\n\tcat b h > a\nc: b\n\tfalse\n",
            "b": "1\n",
            "h": "2\n",
        }
    )
    outcome = project.audit("--allow-unjudged")
    assert "makefile:2: a reads h, but doesn't depend on it: when it changes, a stays old" in (
        outcome.output
    )
    assert "    add: a: h\n" in outcome.output
    assert "no: 1 finding, 1 recipe not judged, with 1 doubt" in outcome.output
    assert outcome.status == 1
    fixed = project.audit("--fix", "--allow-unjudged")
    assert fixed.status == 0, fixed.output
    assert project.makes_again("a", "h")


@can_record
def test_a_build_that_fails_has_no_answer(project: Project) -> None:
    project.write({"makefile": "a: b\n\tfalse\n", "b": "1\n"})
    outcome = project.audit()
    assert outcome.output == ""
    assert "mkcheck-audit: the build can't be recorded:" in outcome.errors
    assert outcome.status == 2


def test_a_folder_without_a_build(project: Project) -> None:
    outcome = project.audit()
    assert outcome.errors == (
        f"mkcheck-audit: {project.folder} has no makefile and no build.ninja: give the folder of a"
        " project with -C\n"
    )
    assert outcome.status == 2
    project.write({"CMakeLists.txt": ""})
    assert project.audit().errors == (
        f"mkcheck-audit: {project.folder} has no makefile and no build.ninja yet: run `cmake -S ."
        " -B build`, and then mkcheck-audit again\n"
    )


@can_record
def test_goals_that_were_asked_for_before_are_not_taken(project: Project) -> None:
    project.write({"makefile": "a: b\n\tcp b a\nc: b h\n\tcat b h > c\n", "b": "1\n", "h": "2\n"})
    assert "(1 of 1 recipe judged)" in project.audit("c").output
    outcome = project.audit()
    assert "(1 of 1 recipe judged)" in outcome.output
    assert '"target":"a"' in project.text(".mkcheck/footprint.json")
