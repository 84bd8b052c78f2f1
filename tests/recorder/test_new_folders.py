"""Folders that two recipes make by plain `mkdir`: with several jobs one of them may fail."""

from __future__ import annotations

import pytest
from mkcheck_tools.answers.graphs import Command
from mkcheck_tools.judge.new_folders import folders_in

from recorder.project import ProjectTest, traced

MAKING = "if [ ! -d o ]; then mkdir o; fi"
WARNING = (
    "the recipes of o/a, o/b make the folder o by mkdir without -p: with several jobs both may find"
    " that it isn't there, and then the second one fails; write `mkdir -p o`"
)


@traced
class NewFolderTest(ProjectTest):
    """Two recipes that write into one folder."""

    replays = True

    def rules(self, making: str, needs: str = "") -> None:
        """Writes the project, whose recipes make the folder so."""
        recipes = (
            f"o/a: x\n\t{making}\n\tcp x o/a\no/b: y {needs}\n\t{making}\n\tcp y o/b\n"
        )
        self.write({"makefile": f"all: o/a o/b\n{recipes}", "x": "", "y": ""})

    def test_side_by_side(self) -> None:
        self.rules(MAKING)
        self.assertEqual(self.recorded().warnings(), [WARNING])
        self.assertEqual(self.check()[0].split()[:3], ["yes", "2", "recipes"])

    def test_one_after_the_other(self) -> None:
        self.rules(MAKING, "o/a")
        self.assertEqual(self.recorded().warnings(), [])

    def test_a_folder_that_may_be_there(self) -> None:
        self.rules("mkdir -p o")
        self.assertEqual(self.recorded().warnings(), [])


@pytest.mark.parametrize(
    ("text", "folders"),
    [
        (MAKING, ["o"]),
        ("test -d o || mkdir o", ["o"]),
        ("[ -d o ] || /bin/mkdir -v o 2>/dev/null", ["o"]),
        ("cd sub; set +e; mkdir o && cp x o", ["sub/o"]),
        ("for d in a b; do mkdir o; done", ["o"]),
        ("mkdir o/ ./p", ["o", "p"]),
        ("mkdir -p o", []),
        ("mkdir -m 755 o", []),
        ("-mkdir o", []),
        ("mkdir o || true", []),
        ("mkdir o && cp x o || true", []),
        ("mkdir o; cp x o", []),
        ("mkdir $$d ${d} 'a b'", []),
        ("echo mkdir o", []),
        ("mkdir 'o", []),
    ],
)
def test_commands_that_fail_where_a_folder_is_there(text: str, folders: list[str]) -> None:
    """What hides the failure, or makes none of it, doesn't count."""
    assert list(folders_in(Command.of(text))) == folders
