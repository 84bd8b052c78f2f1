"""Where a line is added to a makefile: GNU make itself says that nothing else changes by it."""

from __future__ import annotations

import shutil
import subprocess
from pathlib import Path

import pytest
from mkcheck_tools.audit.layouts import Layout
from mkcheck_tools.audit.makefile_lines import mark_of
from mkcheck_tools.audit.mending import Addition, with_additions
from mkcheck_tools.gnu.rule_lines import pattern_rule, rule_line

# Each makefile has the rule that is extended at the line with `# HERE`, and the place that is
# expected at the line `# THERE`, which isn't part of it.
MAKEFILES = {
    "behind the recipe": """\
a: b # HERE
\techo a
# THERE
b:
\techo b
""",
    "behind a recipe that goes on over comments and empty lines": """\
a: b # HERE
\techo 1
# a comment

\techo 2
# THERE

b: ; echo b
""",
    "behind a continued line": """\
a: b \\
   c # HERE: not read, since a comment ends the rule
\techo 1 \\
\t  2
# THERE
b c: ; echo $@
""",
    "not inside a conditional": """\
a: b
\techo a
ifdef NOTHING
b:
\techo other
else
b: # HERE
\techo b
endif
# THERE
c: ; echo c
""",
    "behind a conditional within a recipe": """\
a: # HERE
\techo 1
ifdef NOTHING
\techo 2
else
\techo 3
endif
# THERE
b: ; echo b
""",
    "before a conditional that isn't of the recipe": """\
a: # HERE
\techo 1
# THERE
ifdef NOTHING
x = 1
endif
b: ; echo b
""",
    "not in front of the first goal": """\
%.o: %.c # HERE
\techo $@
a: b.o
\techo a
# THERE
b.c: ; echo b
""",
    "not inside a definition": """\
a: b
\techo a
define RULE
b: # HERE
\techo b
endef
# THERE
$(eval $(RULE))
""",
    "behind a rule in one line": """\
a: b ; echo a # HERE
# THERE
b: ; echo b
""",
}


def parts(text: str) -> tuple[str, int, int]:
    """The makefile, the line of the rule, and the place that is expected."""
    lines = text.splitlines()
    there = lines.index("# THERE")
    here = next(number for number, line in enumerate(lines, 1) if "# HERE" in line)
    return "".join(f"{line}\n" for line in lines if line != "# THERE"), here, there


def run_make(folder: Path, makefile: str, *words: str) -> str:
    """What GNU make prints of a makefile."""
    (folder / "makefile").write_text(makefile)
    done = subprocess.run(["make", *words], cwd=folder, capture_output=True, text=True, check=False)
    assert done.returncode == 0, done.stderr
    return done.stdout


@pytest.mark.skipif(shutil.which("make") is None, reason="no make")
@pytest.mark.parametrize("name", MAKEFILES)
def test_a_line_is_added(name: str, tmp_path: Path) -> None:
    makefile, here, there = parts(MAKEFILES[name])
    lines = makefile.split("\n")
    here = rule_line(lines, here) or here
    assert Layout.of(lines).place_after(here) == there
    (tmp_path / "extra").write_text("")
    (tmp_path / "b.c").write_text("")
    target = lines[here - 1].partition(":")[0].replace("%", "b")
    extended = with_additions(makefile, [Addition("makefile", there, (f"{target}: extra",))])
    assert f"{target}: extra\n" in extended
    # The same goal is made by the same commands, and the target needs the file.
    assert run_make(tmp_path, extended, "-n") == run_make(tmp_path, makefile, "-n")
    assert "extra" in run_make(tmp_path, extended, "-n", "-W", "extra", "--debug=v")


def test_a_makefile_with_another_prefix_is_extended_at_its_end() -> None:
    lines = [".RECIPEPREFIX = >", "a:", ">echo a", "b:", ">echo b", ""]
    assert Layout.of(lines).place_after(2) is None


def test_a_file_without_a_goal_has_no_place() -> None:
    lines = ["%.o: %.c", "\tcc -c $<", ".PHONY: x", "X := a:b", ""]
    layout = Layout.of(lines)
    assert layout.first_goal is None
    assert layout.place_after(1) is None


@pytest.mark.parametrize(
    "text, expected",
    [
        ("a:\n\tx\n", "a:\n\tx\nNEW\n"),
        ("a:\n\tx", "a:\n\tx\nNEW\n"),
        ("a:\r\n\tx\r\n", "a:\r\n\tx\r\nNEW\r\n"),
        ("a: b \\\n", "a: b \\\n\nNEW\n"),
        ("a:\n\tx \\", "a:\n\tx \\\n\nNEW\n"),
        ("", "NEW\n"),
    ],
)
def test_a_line_at_the_end_is_a_line_of_its_own(text: str, expected: str) -> None:
    assert with_additions(text, [Addition("makefile", None, ("NEW",))]) == expected


def test_lines_keep_their_ends() -> None:
    text = "a:\r\n\tx\r\nb:\r\n"
    additions = [Addition("makefile", 2, ("a: c",)), Addition("makefile", None, ("b: c",))]
    assert with_additions(text, additions) == "a:\r\n\tx\r\na: c\r\nb:\r\nb: c\r\n"


def test_a_rule_is_found_above_its_recipe() -> None:
    lines = ["a: b \\", "  c", "\techo 1", "ifdef X", "\techo 2", "endif", "# x", "", "\techo 3"]
    for number in range(1, 10):
        assert rule_line(lines, number) == 1
    assert rule_line(lines, None) is None
    assert rule_line(["x = 1", "\techo"], 2) == 2


def test_a_pattern_rule() -> None:
    """As its makefile spells it, on one line."""
    lines = ["$D/%.o: %.c \\", "  h | $D # objects", "", "\tcc -c $<", "x.o: x.c", "\tcc -c x.c"]
    for number in (1, 4):
        assert pattern_rule(lines, number) == "$D/%.o: %.c h | $D"
    for missing in (5, 6, 9, None):
        assert pattern_rule(lines, missing) == ""
    assert pattern_rule(["%.o: %.c ; cc -c $<"], 1) == "%.o: %.c"
    assert pattern_rule(["X = %"], 1) == ""


@pytest.mark.parametrize(
    "line, targets, expected",
    [
        ("a.o b.o: x", ("b.o",), (4, 3)),
        ("xa.o a.o: x", ("a.o",), (5, 3)),
        ("prog: a.o", ("sub/prog",), (0, 4)),
        ("%.o: %.c", ("a.o",), (0, 3)),
        ("  $(X): y", ("a.o",), (2, 4)),
        ("", ("a",), (0, 1)),
    ],
)
def test_a_mark(line: str, targets: tuple[str, ...], expected: tuple[int, int]) -> None:
    assert mark_of(line, targets) == expected
