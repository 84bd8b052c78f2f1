"""What was recorded before, without a build, and whether its sources are those of today."""

from __future__ import annotations

import os

import pytest

from audit.project import GNU, POSIX, SOURCES, Project, can_import, can_record

CHANGED = "recorded before part.h changed"


@can_record
def test_footprints_of_other_sources_are_no_evidence_in_a_job(project: Project) -> None:
    project.write({"makefile": POSIX, **SOURCES})
    nothing = project.audit("--no-record")
    assert nothing.status == 2
    assert "nothing was recorded yet" in nothing.errors and nothing.errors.endswith("--no-record\n")
    recorded = project.audit()
    os.chmod(project.folder / "part.h", 0o600)
    assert project.audit("--no-record", CI="true").output == recorded.output
    project.write({"part.h": SOURCES["part.h"] + "\n"})
    outcome = project.audit("--no-record", CI="true")
    assert outcome.output == (
        f"no answer: the build was {CHANGED}, so that is no evidence: audit it without"
        " --no-record\n"
    )
    assert outcome.status == 2
    outcome = project.audit("--no-record")
    doubts = outcome.output.partition("Doubts, by which this answer may be wrong:\n")[2]
    assert f"    {CHANGED}\n" in doubts
    assert "with 2 doubts" in outcome.output  # The other one is that no recipe was run again.
    assert outcome.status == 1
    (project.folder / ".mkcheck/footprint.json.state").unlink()
    outcome = project.audit("--no-record", "--fresh-only")
    assert "whether the footprints are those of today's sources isn't known" in outcome.errors
    assert outcome.status == 2
    assert project.audit("--no-record", "--no-fresh-only", CI="true").status == 1


@can_import
def test_an_import_of_other_sources(project: Project) -> None:
    project.write({"Makefile": GNU, **SOURCES})
    recorded = project.audit()
    assert project.audit("--no-record", "--fresh-only").output == recorded.output
    project.write({"part.h": SOURCES["part.h"] + "\n"})
    outcome = project.audit("--no-record", "--fresh-only")
    assert CHANGED in outcome.output
    assert outcome.status == 2
    for words in (["main.o"], ["CFLAGS=-g"]):
        outcome = project.audit("--no-record", *words)
        assert "the last import was asked for other goals, macros, or another" in outcome.errors
        assert outcome.status == 2


@can_import
def test_an_import_of_another_makefile(project: Project) -> None:
    """Its variables, commands and prerequisites may be other ones, also where it is included."""
    project.write({"Makefile": f"include own.mk\n{GNU}", "own.mk": "V := 1\n", **SOURCES})
    recorded = project.audit()
    assert project.audit("--no-record", "--fresh-only").output == recorded.output
    for name in ("own.mk", "Makefile"):
        text = project.text(name)
        project.write({name: f"{text}# another one\n"})
        outcome = project.audit("--no-record", "--fresh-only")
        assert f"recorded before {name} changed" in outcome.output
        assert outcome.status == 2
        project.write({name: text})
    assert project.audit("--no-record", "--fresh-only").output == recorded.output


SEARCHED = "main.o: main.c b/part.h\n\tcc -Ia -Ib -c main.c\n"


@can_record
def test_a_file_for_which_a_recipe_looked_is_there_now(project: Project) -> None:
    main = SOURCES["main.c"].replace('"part.h"', "<part.h>")
    files = {"makefile": SEARCHED, "main.c": main, "a/other.h": "\n"}
    project.write({**files, "b/part.h": SOURCES["part.h"]})
    assert project.audit().status == 0
    project.make("main.o")
    assert project.audit("--no-record", "--fresh-only").status == 0
    project.write({"a/part.h": SOURCES["part.h"]})
    outcome = project.audit("--no-record")
    told = "recorded before a/part.h, for which a recipe looks, was there"
    assert f"    {told}\n" in outcome.output
    assert project.audit("--no-record", "--fresh-only").status == 2
    assert project.audit().output.count("a/part.h") > 0


@pytest.mark.parametrize(
    "reader", [pytest.param("posix", marks=can_record), pytest.param("make", marks=can_import)]
)
def test_macros_of_another_environment(project: Project, reader: str) -> None:
    makefile = "OWN = 1\nMORE += 1\na: b\n\techo $(OWN) $(MORE) $(FLAGS) > a; cat b >> a\n"
    project.write({"makefile": makefile, "b": "1\n"})
    words = ("--from", reader)
    none = dict.fromkeys(("OWN", "MORE", "FLAGS", "CFLAGS"), "")
    for _ in range(2):  # A first recording doesn't keep what an update without a change looks at.
        assert project.audit(*words, environment=none).status == 0
    fresh = (*words, "--no-record", "--fresh-only")
    assert project.audit(*fresh, environment=none).status == 0
    for name, status in (("OWN", 0), ("MORE", 2), ("FLAGS", 2), ("CFLAGS", 2), ("UNUSED", 0)):
        outcome = project.audit(*fresh, environment={**none, name: "-g"})
        assert outcome.status == status, (name, outcome.output)
        assert status == 0 or f"recorded with another {name} in the environment" in outcome.output
    assert project.audit(*fresh, "FLAGS=1", environment=none).status != 0


@can_import
@pytest.mark.parametrize(
    "asked", ["$(wildcard *.c $(D)/*.c)", "$(wildcard *.c $(addsuffix /*.c,$(D)))"]
)
def test_a_new_file_for_which_a_makefile_asks_by_a_pattern(project: Project, asked: str) -> None:
    """GNU make finds it, and has one more object to make."""
    makefile = GNU.replace("$(wildcard *.c)", asked)
    project.write({"Makefile": f"D = sub\n{makefile}", **SOURCES, "sub/one.txt": "1\n"})
    recorded = project.audit()
    project.write({"README": "1\n", "sub/README": "1\n"})
    assert project.audit("--no-record", "--fresh-only").output == recorded.output
    for name in ("sub/more.c", "more.c"):
        project.write({name: "int more;\n"})
        outcome = project.audit("--no-record", "--fresh-only")
        assert f"before {name} was there, for which a makefile asks by a pattern" in outcome.output
        assert outcome.status == 2
        (project.folder / name).unlink()


@can_record
def test_a_new_file_in_a_folder_that_a_recipe_lists(project: Project) -> None:
    project.write({"makefile": "out: d/1\n\tcat d/* > out; ls > /dev/null\n", "d/1": "1\n"})
    recorded = project.audit()
    project.make("out")
    (project.folder / ".git").mkdir()
    assert project.audit("--no-record", "--fresh-only").output == recorded.output
    project.write({"d/2": "2\n"})
    outcome = project.audit("--no-record", "--fresh-only")
    assert "recorded before the names in d changed, which a recipe lists" in outcome.output
    assert outcome.status == 2
