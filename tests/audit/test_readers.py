"""Which reader is picked, and the line that says why."""

from __future__ import annotations

import shutil
from pathlib import Path

import pytest
from mkcheck_tools.audit.readers import Wanted, picked
from mkcheck_tools.faults import Fault
from mkcheck_tools.run.paths import RealPath

from audit.project import MKCHECK


@pytest.mark.parametrize("makefile", ["a:\n\techo $(wildcard *)\n", "b:\nifdef X\na:\nendif\n"])
def test_the_line_that_is_not_posix_is_named(
    makefile: str, tmp_path: Path, monkeypatch: pytest.MonkeyPatch
) -> None:
    """Also where it is a command."""
    monkeypatch.setenv("MKCHECK", MKCHECK)
    (tmp_path / "Makefile").write_text(makefile)
    said = picked(Wanted(RealPath(str(tmp_path)))).line
    assert said == "Makefile is read as GNU make reads it, since Makefile:2 isn't POSIX's"


def test_what_no_footprint_can_say_is_left_to_gnu_make(
    tmp_path: Path, monkeypatch: pytest.MonkeyPatch
) -> None:
    """A folder as a prerequisite, and the compiler of POSIX, which few systems have."""
    monkeypatch.setenv("MKCHECK", MKCHECK)
    wanted, makefile = Wanted(RealPath(str(tmp_path))), tmp_path / "Makefile"
    (tmp_path / "src").mkdir()
    makefile.write_text("list: src\n\tls src > list\n")
    assert picked(wanted).line == "Makefile is read as GNU make reads it, since src is a folder"
    makefile.write_text("list: src\n\tls src > list\nsrc:\n\tmkdir src\n")
    assert picked(wanted).line == "Makefile is read as POSIX defines make"
    (tmp_path / "a.c").write_text("")
    makefile.write_text("a.o: a.c\n\t$(CC) -c a.c\n")
    found = shutil.which
    monkeypatch.setattr(shutil, "which", lambda name: None if name == "c17" else found(name))
    assert picked(wanted).line == (
        "Makefile is read as GNU make reads it, since the recipe of a.o starts c17, POSIX's"
        " compiler, which isn't there"
    )


@pytest.mark.parametrize(
    ("makefile", "why"),
    [
        ("a: b\n\t$(CXX) -o a b\n", ", since it uses CXX, which GNU make sets"),
        ("a: $(CURDIR)/b\n\tcp b a\n", ", since it uses CURDIR, which GNU make sets"),
        ("VPATH = src\na: b\n\tcp b a\n", ", since it sets VPATH, which GNU make obeys"),
        ("CXX = c++\na: b\n\t$(CXX) -o a b\n", ""),
        ("a: b\n\tcp b a\nclean:\n\t$(RM) a\n", ""),
    ],
)
def test_macros_of_gnu_make(
    makefile: str, why: str, tmp_path: Path, monkeypatch: pytest.MonkeyPatch
) -> None:
    """Only those on which the goals depend, and which the makefile doesn't set."""
    monkeypatch.setenv("MKCHECK", MKCHECK)
    (tmp_path / "Makefile").write_text(makefile)
    reader = "GNU make reads it" if why else "POSIX defines make"
    assert picked(Wanted(RealPath(str(tmp_path)))).line == f"Makefile is read as {reader}{why}"


def test_a_build_folder_of_cmake_names_the_folder_of_its_sources(tmp_path: Path) -> None:
    """A build in the folder of the sources is taken, as is one of sources elsewhere."""
    build = tmp_path / "out" / "debug"
    build.mkdir(parents=True)
    (build / "build.ninja").write_text("rule r\n  command = true\n")
    cache = build / "CMakeCache.txt"
    cache.write_text(f"X:STRING=y\nCMAKE_HOME_DIRECTORY:INTERNAL={tmp_path}\n")
    with pytest.raises(Fault) as refused:
        picked(Wanted(RealPath(str(build))))
    assert str(refused.value) == (
        f"{build} is a build folder, whose sources lie in {tmp_path}: give that folder with -C, and"
        " this one with -S out/debug"
    )
    for home in (build, tmp_path / "elsewhere"):
        cache.write_text(f"CMAKE_HOME_DIRECTORY:INTERNAL={home}\n")
        assert picked(Wanted(RealPath(str(build)))).kind == "ninja"
