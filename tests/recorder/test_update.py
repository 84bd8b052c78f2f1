"""`--update` gives what a full recording gives, with few recipes, and believes no wrong state."""

from __future__ import annotations

import contextlib
import json
import os
import random
import shutil
import signal
import subprocess
import sys
import time
import unittest
from collections.abc import Callable
from concurrent.futures import Future, ThreadPoolExecutor
from pathlib import Path

from mkcheck_tools.book import states
from mkcheck_tools.run import places
from recorder.project import MKCHECK, RECORDER, Outcome, ProjectTest, compiled, traced
from waits import MOMENT, SECONDS_AT_MOST, Found, wait_for

ALL = "all recipes are recorded"

# A project in which files are looked for, listed, generated, linked and started. `find` takes the
# first of two folders that has a file, `tool` and `lib` are read by a script, `d` is read whole.
MAKEFILE = """\
prog: a.o b.o gen.h list link.o deep/stamp
\tcat a.o b.o gen.h list link.o > prog
a.o: a.c gen.h
\t./find x.h > a.o; cat a.c gen.h >> a.o
b.o: b.c
\t./find y.h > b.o; cat b.c >> b.o
gen.h: gen.in tool
\t./tool gen.in > gen.h
list: d/1.txt
\tcat d/*.txt > list
link.o: l
\tcat l > link.o; readlink l >> link.o
deep/stamp:
\tmkdir -p deep/er; echo 1 > deep/er/x; touch deep/stamp
"""
FILES = {
    "a.c": "a\n",
    "b.c": "b\n",
    "gen.in": "g\n",
    "lib": "lib\n",
    "tool": '#!/bin/sh\ncat lib "$1"\n',
    "find": "#!/bin/sh\nfor d in one two; do if test -f $d/$1; then cat $d/$1; exit 0; fi; done\n",
    "two/x.h": "x\n",
    "two/y.h": "y\n",
    "one/keep": "",
    "d/1.txt": "1\n",
    "d/2.txt": "2\n",
    "unused": "",
}


class UpdateTest(ProjectTest):
    """A project that is recorded again and again."""

    def setUp(self) -> None:
        super().setUp()
        self.updated = self.scratch / "updated.json"

    def start(self) -> None:
        """Writes the project above."""
        self.write({"makefile": MAKEFILE, **FILES})
        (self.folder / "l").symlink_to("two/x.h")

    def start_again(self) -> None:
        """Writes it again, since it was changed so that it can't be recorded."""
        shutil.rmtree(self.folder)
        self.folder.mkdir()
        self.start()

    def update(self, *words: str, environment: dict[str, str] | None = None) -> Outcome:
        """Updates the footprints, without a replay."""
        return self.record_plainly("--update", str(self.updated), *words, environment=environment)

    def full(self, *words: str) -> Outcome:
        """Records all anew."""
        return self.record(*words)

    def told(self, outcome: Outcome) -> list[str]:
        """What was said besides warnings."""
        front = "mkcheck-record: "
        lines = [
            line[len(front) :] for line in outcome.errors.splitlines() if line.startswith(front)
        ]
        return [line for line in lines if not line.startswith("warning: ")]

    def count(self, outcome: Outcome) -> int:
        """How many recipes were recorded."""
        self.assertEqual((outcome.status, outcome.output), (0, ""), outcome.errors)
        (line,) = [line for line in self.told(outcome) if " recipes were recorded" in line]
        recorded, _, recipes, *_ = line.split()
        rest = ", the others hadn't changed" if recorded != recipes else ""
        self.assertEqual(line, f"{recorded} of {recipes} recipes were recorded{rest}")
        return int(recorded)

    def assert_as_full(self, *words: str) -> None:
        """The footprints and the warnings are those of a full recording."""
        outcome = self.update(*words)
        full = self.full(*words)
        self.assertEqual((outcome.status, full.status), (0, 0), outcome.errors + full.errors)
        self.assertEqual(self.updated.read_text(), self.book.read_text())
        self.assertEqual(outcome.warnings(), full.warnings())


@traced
class CountTest(UpdateTest):
    """How many recipes are recorded after which change. The project has seven."""

    def after(self, change: Callable[[], object]) -> int:
        """Changes something; the update has to be right, and gives how many recipes it recorded."""
        change()
        outcome = self.update()
        count = self.count(outcome)
        self.full()
        self.assertEqual(self.updated.read_text(), self.book.read_text())
        return count

    def link(self, name: str, text: str) -> None:
        """Makes a link anew."""
        (self.folder / name).unlink()
        (self.folder / name).symlink_to(text)

    def begin(self) -> Callable[[str, str], object]:
        """Records all for the first time; returns what writes a file."""
        self.start()
        first = self.update()
        self.assertEqual(self.count(first), 7)
        self.assertEqual(self.told(first)[0], f"{self.updated} isn't there yet: {ALL}")
        return lambda name, text: (self.folder / name).write_text(text)

    def test_sources(self) -> None:
        put = self.begin()
        self.assertEqual(self.after(lambda: None), 0)
        self.assertEqual(self.after(lambda: put("unused", "2")), 0)
        self.assertEqual(self.after(lambda: put("new", "")), 0)
        self.assertEqual(self.after(lambda: os.utime(self.folder / "a.c")), 0)
        # A source, and what reads what is made of it.
        self.assertEqual(self.after(lambda: put("a.c", "A\n")), 2)
        self.assertEqual(self.after(lambda: put("gen.in", "G\n")), 3)
        # A file that a script reads, and the script.
        self.assertEqual(self.after(lambda: put("lib", "LIB\n")), 3)
        self.assertEqual(self.after(lambda: put("tool", '#!/bin/sh\ncat lib\ncat "$1"\n')), 1)

    def test_looks(self) -> None:
        put = self.begin()
        # A file that is found earlier; its reader's output stays the same in the second case.
        self.assertEqual(self.after(lambda: put("one/x.h", "other\n")), 2)
        self.assertEqual(self.after(lambda: put("one/y.h", "y\n")), 1)
        self.assertEqual(self.after(lambda: (self.folder / "one/x.h").unlink()), 2)
        # A folder that is read whole.
        self.assertEqual(self.after(lambda: put("d/3.txt", "3\n")), 2)
        self.assertEqual(self.after(lambda: put("d/notes", "")), 1)
        # A link, and what it leads to.
        self.assertEqual(self.after(lambda: put("two/x.h", "X\n")), 3)
        self.assertEqual(self.after(lambda: self.link("l", "two/y.h")), 2)
        # A mode, which no mask gives.
        self.assertEqual(self.after(lambda: (self.folder / "b.c").chmod(0o700)), 1)

    def test_commands(self) -> None:
        put = self.begin()
        text = MAKEFILE.replace("cat b.c >> b.o", "cat b.c b.c >> b.o")
        self.assertEqual(self.after(lambda: put("makefile", text)), 2)
        text = text.replace("prog: a.o b.o", "prog: b.o a.o")
        self.assertEqual(self.after(lambda: put("makefile", text)), 0)
        text = (
            text.replace("deep/stamp\n", "deep/stamp extra\n", 1)
            + "extra: deep/stamp\n\tcat deep/er/x > extra\n"
        )
        # The new recipe, and the one before which it is always made now.
        self.assertEqual(self.after(lambda: put("makefile", text)), 2)

    def test_outputs_in_the_folder_count_for_nothing(self) -> None:
        self.start()
        self.update()
        self.write({"a.o": "old", "prog": "old", "deep/stamp": "", "deep/er/x": "old"})
        self.assertEqual(self.count(self.update()), 1)
        (self.folder / "a.c").write_text("A\n")
        self.assert_as_full()

    def test_goals(self) -> None:
        self.start()
        self.update()
        self.assertEqual(self.count(self.update("a.o", "list")), 0)
        self.full("a.o", "list")
        self.assertEqual(self.updated.read_text(), self.book.read_text())
        self.assertEqual(self.count(self.update("b.o")), 1)

    def test_a_file_that_two_recipes_write(self) -> None:
        self.write(
            {
                "makefile": (
                    "all: a b c\na: s\n\tcp s x; cp s a\nb: a\n\techo 2 >> x; cp x b\nc: b\n\tcp"
                    " x c\n"
                ),
                "s": "1\n",
            }
        )
        self.update()
        self.assertEqual(self.count(self.update()), 0)
        self.write({"s": "3\n"})
        self.assertEqual(self.count(self.update()), 3)
        self.assert_as_full()

    def test_warnings_come_again(self) -> None:
        self.write({"makefile": "all: a b\na:\n\techo > x; echo > a\nb: a\n\trm x; echo > b\n"})
        first = self.update().warnings()
        self.assertEqual(len(first), 2, first)
        second = self.update()
        self.assertEqual((self.count(second), second.warnings()), (0, first))

    def test_removals_in_vain_are_known(self) -> None:
        text = "all: a b\na: s\n\trm -f t; cp s a\nb: r\n\tcp r b\n"
        self.write({"makefile": text, "s": "", "r": ""})
        self.assertEqual(self.count(self.update()), 2)
        self.write({"makefile": text.replace("cp r b", "cp r t; mv t b")})
        self.assertEqual(self.count(self.update()), 1)
        self.assert_as_full()
        self.assertEqual(self.full().own("a"), ({"s"}, {"a", "t"}))

    def test_a_tool_under_a_fixed_prefix(self) -> None:
        tools, others = self.scratch / "tools", self.scratch / "others"
        for folder in (tools, others):
            folder.mkdir()
        self.write({"makefile": "all: a b\na:\n\tmytool > a\nb:\n\techo > b\n"})
        path = f"{others}:{tools}:{os.environ['PATH']}"
        words = ("--fixed", str(tools), "--fixed", str(others))

        def put(folder: Path, text: str) -> int:
            (folder / "mytool").write_text(f"#!/bin/sh\necho {text}\n")
            (folder / "mytool").chmod(0o755)
            return self.count(self.update(*words, environment={"PATH": path}))

        self.assertEqual(put(tools, "1"), 2)
        self.assertEqual(put(tools, "1"), 0)
        self.assertEqual(put(tools, "2"), 1)
        self.assertEqual(put(others, "3"), 1)
        self.assertIn(f"{others}/mytool", self.updated.read_text())

    @compiled
    def test_headers_that_are_found_earlier(self) -> None:
        self.write(
            {
                "makefile": "m.o: m.c\n\tcc -Ione -Itwo -c m.c\nn.o: n.c\n\tcc -Itwo -c n.c\n",
                "m.c": "#include <h.h>\n",
                "n.c": "#include <h.h>\n",
                "two/h.h": "",
                "one/k": "",
            }
        )
        self.assertEqual(self.count(self.update("m.o", "n.o")), 2)
        self.write({"one/h.h": ""})
        self.assertEqual(self.count(self.update("m.o", "n.o")), 1)
        self.full("m.o", "n.o")
        self.assertEqual(self.updated.read_text(), self.book.read_text())
        self.assertIn("one/h.h", self.updated.read_text())


@traced
class RandomTest(UpdateTest):
    """Random edits, one or several at a time, each compared with a full recording."""

    def edit(self, numbers: random.Random) -> str:
        """Changes something in the project; tells what."""
        files = [
            path
            for path in sorted(self.folder.rglob("*"))
            if path.is_file() and not path.is_symlink()
        ]
        path = numbers.choice(
            [path for path in files if path.name not in ("makefile", "tool", "find")]
        )
        kind = numbers.choice(
            ("write", "append", "new", "gone", "mode", "script", "command", "back", "link")
        )
        if kind == "write":
            path.write_text(f"{numbers.randrange(4)}\n")
        elif kind == "append":
            path.write_text(path.read_text() + "more\n")
        elif kind == "new":
            folder = self.folder / numbers.choice(("one", "two", "d", "deep", "."))
            folder.mkdir(exist_ok=True)
            name = numbers.choice(("x.h", "y.h", "3.txt", "4.txt", "er", "note"))
            if not (folder / name).is_dir():
                (folder / name).write_text(numbers.choice(("x\n", "new\n")))
        elif kind == "gone" and path.parent.name in ("one", "d", "deep") and path.name != "1.txt":
            path.unlink()
        elif kind == "mode":
            path.chmod(numbers.choice((0o644, 0o755, 0o600)))
        elif kind == "script":
            path = self.folder / numbers.choice(("tool", "find"))
            path.write_text(
                path.read_text()
                + numbers.choice(("cat lib\n", "true\n", "ls d\n", "test -f one/none\n"))
            )
        elif kind == "command":
            makefile = self.folder / "makefile"
            one, two = numbers.choice(
                (
                    (" > prog", " unused > prog"),
                    ("cat b.c", "cat unused b.c"),
                    ("d/*.txt", "d/*"),
                    ("./find x.h", "./find y.h"),
                    ("echo 1", "echo 2"),
                    ("a.o b.o", "b.o a.o"),
                )
            )
            makefile.write_text(makefile.read_text().replace(one, two, 1))
        elif kind == "back":
            (self.folder / "makefile").write_text(MAKEFILE)
        elif kind == "link":
            (self.folder / "l").unlink()
            (self.folder / "l").symlink_to(numbers.choice(("two/x.h", "two/y.h", "unused")))
        return f"{kind} {path.name}"

    def edits(self, seed: int, rounds: int) -> None:
        """As many rounds of edits."""
        numbers = random.Random(seed)
        self.start()
        self.assert_as_full()
        done, right = [], 0
        for _ in range(rounds):
            done.append([self.edit(numbers) for _ in range(numbers.choice((1, 1, 1, 2, 4)))])
            outcome, full = self.update(), self.full()
            said = f"seed {seed}: {done}\n{outcome.errors}{full.errors}"
            self.assertEqual(outcome.status, full.status, said)
            if self.book.exists():
                self.assertEqual(self.updated.read_text(), self.book.read_text(), said)
            if full.status != 0:
                self.start_again()
                continue
            right += 1
            self.assertEqual(outcome.warnings(), full.warnings(), said)
        self.assertGreater(right, rounds // 2)

    def test_first(self) -> None:
        self.edits(1, 10)

    def test_second(self) -> None:
        self.edits(2, 10)

    def test_third(self) -> None:
        self.edits(3, 10)


@traced
class LateTest(UpdateTest):
    """Recipes that list a folder are recorded again when other recipes make other files in it."""

    replays = True

    def test_files_that_come_later(self) -> None:
        text = "all: list d/b\nlist: x\n\tls d > list\nd/b: x\n\tcp x d/b\n"
        self.write({"makefile": text, "x": "1\n", "d/.keep": ""})
        first = self.update()
        self.assertEqual(self.count(first), 2)
        second = self.update()
        self.assertEqual((self.count(second), second.warnings()), (0, first.warnings()))
        self.write({"makefile": text.replace("d/b", "d/c")})
        self.assertEqual(self.count(self.update()), 2)
        self.assert_as_full()
        self.assertIn("d/c", self.full().own("list")[0])

    def test_scratch_files_of_others(self) -> None:
        """The recipe that makes one may be written anew, or be ordered otherwise."""
        text = "all: a b\na: x\n\tcat *.t > a || cp x a\nb: x\n\tcp x b\n"
        self.write({"makefile": text, "x": "1\n"})
        self.assertEqual(self.count(self.update()), 2)
        passing = text.replace("\tcp x b\n", "\tcp x b.t; mv b.t b\n")
        self.write({"makefile": passing})
        self.assertEqual(self.count(self.update()), 2)
        self.assertIn("b.t", self.full().own("a")[0])
        self.assert_as_full()
        self.write({"makefile": passing.replace("a: x", "a: x b")})
        self.assert_as_full()
        self.assertNotIn("b.t", self.full().own("a")[0])

    def test_what_is_always_made_before(self) -> None:
        """Without it the replay finds no folder, or another order of stamps."""
        dirs = "dirs: x\n\tmkdir -p d; cp x dirs\n"
        for text, told in (
            (f"all: dirs a\na: x dirs\n\tcp x d/x; cp x a\n{dirs}", "the folder d is made by"),
            (
                "a: x dirs c\n\tcat x c dirs > a; test c -nt dirs\n" f"{dirs}c: x dirs\n\tcp x c\n",
                "it compares stamps of files",
            ),
        ):
            self.write({"makefile": text, "x": "1\n"})
            self.assertEqual(self.update().status, 0)
            self.assertEqual(self.count(self.update()), 0)
            other = "a: x\n" if "all" in text else "c: x\n"
            self.write({"makefile": text.replace(f"{other[:-1]} dirs\n", other)})
            outcome = self.update()
            self.assertEqual((outcome.status, self.full().status), (1, 1), outcome.errors)
            self.assertIn(told, outcome.errors)
            self.assertEqual(self.updated.read_text(), self.book.read_text())

    def test_a_recipe_that_makes_a_folder_is_ordered_before_what_lies_there(self) -> None:
        """`mkdir d` fails where `d/e/b` is there, which may come earlier until that needs `d`. An
        update knows so in both directions."""
        for needs, reads in (("", {"d/e/b"}), (" d", set()), ("", {"d/e/b"}), (" d", set())):
            rules = f"all: d d/e/b\nd:\n\tmkdir d\nd/e/b: s{needs}\n"
            self.write({"makefile": f"{rules}\tmkdir -p d/e; cp s d/e/b\n", "s": "1\n"})
            self.update()
            book = json.loads(self.updated.read_text())
            record = next(one for one in book["records"] if one["target"] == "d")
            own = {name for name in record["reads"] if not name.startswith("/")}
            with self.subTest(needs):
                self.assertEqual(own, reads)


@traced
class StateTest(UpdateTest):
    """States that are wrong, old or torn."""

    def setUp(self) -> None:
        super().setUp()
        self.write({"makefile": "b: a\n\tcp a b\na: s\n\tcp s a\n", "s": "1\n"})
        self.assertEqual(self.count(self.update()), 2)
        self.state = Path(f"{self.updated}.state")
        self.store = Path(f"{self.updated}.state.d")

    def all_again(self, *words: str, environment: dict[str, str] | None = None) -> str:
        """Updates, for which all has to be recorded; gives the reason."""
        outcome = self.update(*words, environment=environment)
        self.assertEqual(self.count(outcome), 2)
        self.assertEqual(self.count(self.update(*words, environment=environment)), 0)
        front = f"{self.state} "
        (line,) = [line for line in self.told(outcome) if line.startswith(front)]
        self.assertTrue(line.endswith(f": {ALL}"), line)
        return line[len(front) : -len(f": {ALL}")]

    def test_none_after_a_recording_that_keeps_none(self) -> None:
        """What was recorded by `-o` alone has no state."""
        self.state.unlink()
        shutil.rmtree(self.store)
        self.assertEqual(self.all_again(), "isn't there, as after a recording by -o")

    def test_torn(self) -> None:
        whole = self.state.read_text()
        for text in (
            whole[:-2],
            whole[: len(whole) // 2],
            "",
            "[]",
            "{}",
            '{"format":7,"digest":"","state":{}}',
        ):
            self.state.write_text(text)
            self.assertEqual(self.all_again(), "isn't whole")
        self.state.write_bytes(b"\xff")
        self.assertEqual(self.all_again(), "can't be read")
        self.state.write_text(whole.replace('"format":7', '"format":4', 1))
        self.assertEqual(self.all_again(), "is of another version of mkcheck-record")

    def test_changed_by_hand(self) -> None:
        self.state.write_text(self.state.read_text().replace("cp a b", "cp a c"))
        self.assertEqual(self.all_again(), "isn't whole")

    def test_gone(self) -> None:
        self.state.unlink()
        self.assertEqual(self.all_again(), "isn't there, as after a recording by -o")

    def test_footprints_that_were_changed_or_are_gone(self) -> None:
        """The state has all that stands in them."""
        text = self.updated.read_text()
        self.updated.write_text(text + "\n")
        self.assertEqual((self.count(self.update()), self.updated.read_text()), (0, text))
        self.updated.unlink()
        self.assertEqual((self.count(self.update()), self.updated.read_text()), (0, text))

    def test_a_kept_file_that_was_changed(self) -> None:
        (file,) = self.store.iterdir()
        file.write_text("2\n")
        self.assertEqual(self.all_again(), "misses a file that a recipe left")
        shutil.rmtree(self.store)
        self.assertEqual(self.all_again(), "misses a file that a recipe left")

    def test_other_conditions(self) -> None:
        self.assertEqual(
            self.all_again("--fixed", "/nowhere"), "was written under other conditions (fixed)"
        )
        self.assertEqual(
            self.all_again(environment={"A_VARIABLE": "1"}),
            "was written under other conditions ($A_VARIABLE)",
        )
        self.assertEqual(
            self.all_again("CC=cc", environment={"A_VARIABLE": "2"}),
            "was written under other conditions ($A_VARIABLE, $CC, $MAKEFLAGS)",
        )
        self.assertNotIn("A_VARIABLE=", self.state.read_text())
        outcome = self.update(environment={"TERM": "other", "SHLVL": "7"})
        self.assertEqual(
            self.told(outcome)[:2],
            [
                "as before: --fixed /nowhere/ CC=cc",
                f"{self.state} was written under other conditions ($A_VARIABLE): {ALL}",
            ],
        )
        self.assertEqual(self.count(self.update(environment={"TERM": "another", "SHLVL": "8"})), 0)

    def test_another_mask(self) -> None:
        old = os.umask(0)
        os.umask(old ^ 0o050)
        try:
            self.assertEqual(self.all_again(), "was written under other conditions (umask)")
        finally:
            os.umask(old)

    def test_names_outside_of_the_project(self) -> None:
        whole = json.loads(self.state.read_text())
        (number,) = whole["state"]["recipes"][1]["after"]
        whole["state"]["names"][number][0] = "../elsewhere"
        whole["digest"] = states.digest_of(states.packed(whole["state"]))
        self.state.write_text(json.dumps(whole))
        self.assertEqual(self.all_again(), "isn't whole")
        self.assertFalse((self.scratch / "elsewhere").exists())

    def test_a_failure_costs_that_recipe(self) -> None:
        self.write({"makefile": "b: a\n\tcp a b; false\na: s\n\tcp s a\n"})
        failed = self.update()
        self.assertEqual((failed.status, failed.counts), (1, (1, 2)), failed.errors)
        records = json.loads(self.updated.read_text())["records"]
        self.assertEqual([record["target"] for record in records], ["a"])
        self.write({"makefile": "b: a\n\tcp a b\na: s\n\tcp s a\n"})
        self.assertEqual(self.count(self.update()), 0)
        self.assert_as_full()

    def test_where_nothing_can_be_recorded_all_stays_as_it_was(self) -> None:
        before = self.updated.read_text()
        self.write({"makefile": "b: a\n\tcp a b\na: s\n\tcp s a; false\n"})
        failed = self.update()
        self.assertEqual((failed.status, failed.counts), (1, (0, 2)), failed.errors)
        self.assertEqual(failed.behind, (f"{self.updated} is still that of the recording before",))
        self.assertEqual(self.updated.read_text(), before)
        self.write({"makefile": "b: a\n\tcp a b\na: s\n\tcp s a\n"})
        self.assertEqual(self.count(self.update()), 0)

    def test_files_that_are_kept_no_longer(self) -> None:
        (file,) = self.store.iterdir()
        self.assertEqual(file.read_text(), "1\n")
        self.write({"s": "2\n"})
        self.update()
        (file,) = self.store.iterdir()
        self.assertEqual(file.read_text(), "2\n")

    def test_within_the_project(self) -> None:
        self.write({"makefile": "b: a\n\tls > b; ls *.d > c || true\na: s\n\tcp s a\n"})
        self.updated = self.folder / "kept.json"
        self.assertEqual(self.count(self.update()), 2)
        self.assertEqual(self.count(self.update()), 1)
        self.assertEqual(self.count(self.update()), 0)
        self.assertNotIn(".state", self.updated.read_text())

    def test_words_that_cannot_stand_together(self) -> None:
        for word in ("--in-place", "--again", "--make"):
            self.assertEqual(self.update(word).status, 2)
        self.assertEqual(self.update("-o", str(self.book)).status, 2)


@traced
class StampsTest(UpdateTest):
    """Updates without a change, which look at stamps alone."""

    def setUp(self) -> None:
        super().setUp()
        self.write({"makefile": "b: a\n\tcp a b; ls none* > l || true\na: s\n\tcp s a\n"})
        self.write({"s": "1\n", "d/keep": ""})
        self.state = Path(f"{self.updated}.state")
        self.stamps = Path(f"{self.updated}.stamps")
        self.assertEqual(self.count(self.update()), 2)
        # Until then stamps of what was changed just now aren't relied on.
        time.sleep(3)
        self.assertEqual(self.count(self.update()), 0)

    def looked_only(self, *words: str, environment: dict[str, str] | None = None) -> Outcome | None:
        """An update that records nothing; what it gave, if it wrote no state."""
        before = self.state.stat()
        outcome = self.update(*words, environment=environment)
        self.assertEqual(self.count(outcome), 0)
        return outcome if self.state.stat().st_ino == before.st_ino else None

    def test_the_first_one_writes_them(self) -> None:
        """Also where the footprints lie in the project's folder, in which they are new."""
        self.write({"makefile": "b: a\n\tcp a b\n", "a": "1\n"})
        outcome = self.record_plainly("--update", str(self.folder / "B"))
        self.assertEqual(outcome.status, 0, outcome.errors)
        self.assertTrue((self.folder / "B.stamps").exists())
        self.assertIn("0 of 1 recipes", self.record_plainly("--update", f"{self.folder}/B").errors)

    def test_nothing_is_written(self) -> None:
        first = self.looked_only()
        self.assertIsNotNone(first)
        self.write({"s": "2\n"})
        self.assertEqual(self.count(self.update()), 2)
        self.assertIsNotNone(self.looked_only())

    def test_a_file_of_the_same_size_and_time(self) -> None:
        path = self.folder / "s"
        status = path.stat()
        self.write({"s": "2\n"})
        os.utime(path, ns=(status.st_atime_ns, status.st_mtime_ns))
        self.assertEqual(path.stat().st_mtime_ns, status.st_mtime_ns)
        self.assertEqual(self.count(self.update()), 2)
        self.assert_as_full()

    def test_a_file_that_is_replaced(self) -> None:
        other = self.scratch / "other"
        other.write_text("2\n")
        shutil.copystat(self.folder / "s", other)
        other.replace(self.folder / "s")
        self.assertEqual(self.count(self.update()), 2)

    def test_what_is_the_same_under_another_stamp(self) -> None:
        (self.folder / "s").touch()
        self.assertIsNotNone(self.looked_only())

    def changed_meanwhile(self, recipe: str, change: dict[str, str]) -> int:
        """Changes files while another recipe runs than this one of `a`, and long before its end;
        how many recipes the next update records, which has to be right."""
        mark = self.scratch / "mark"
        # Each run reads the same programs, however long it waits.
        waiting = f": > {mark}; until sleep 0.1; test -s {mark}; do :; done; rm {mark}"
        self.write({"makefile": f"b: a\n\t{waiting}; cp a b\na: s\n\t{recipe}\n"})
        with ThreadPoolExecutor(1) as pool:
            running = pool.submit(self.update)
            wait_for(lambda: mark.exists() or running.done())
            self.write(change)
            time.sleep(3)
            mark.write_text("go on\n")
            self.assertGreater(self.count(running.result()), 0)
            count = self.count(self.let_go(mark, pool.submit(self.update)))
            self.let_go(mark, pool.submit(self.assert_as_full))
        return count

    def let_go(self, mark: Path, running: Future[Found]) -> Found:
        """What a recording gives whose recipe need not wait."""
        while not running.done():
            with contextlib.suppress(FileNotFoundError), open(mark, "r+", encoding="utf-8") as file:
                file.write("go on\n")
            time.sleep(MOMENT)
        return running.result()

    def test_an_edit_while_recipes_run(self) -> None:
        """The stamps at the end are those of files that no recipe has seen."""
        self.assertEqual(self.changed_meanwhile("cp s a", {"s": "2\n"}), 2)

    def test_a_name_that_comes_while_recipes_run(self) -> None:
        self.assertEqual(self.changed_meanwhile("ls > l; cp s a", {"new": ""}), 1)

    def test_a_prerequisite_outside_of_the_folder(self) -> None:
        """No recipe looks at it, and by this name it lies under no fixed prefix."""
        other = self.scratch / "fixed" / "x"
        other.parent.mkdir()
        other.touch()
        self.write({"makefile": "a: s ../fixed/x\n\tcp s a\n"})
        self.assertEqual(self.update().status, 0)
        self.assertIsNotNone(self.looked_only())
        other.unlink()
        outcome = self.update()
        self.assertEqual(outcome.status, 2)
        self.assertIn("no rule makes", outcome.errors)

    def test_other_names(self) -> None:
        (self.folder / "d" / "new").touch()
        self.assertIsNone(self.looked_only())
        self.assertIsNotNone(self.looked_only())
        (self.folder / "none1").touch()
        self.assertEqual(self.count(self.update()), 1)

    def test_other_words_and_variables(self) -> None:
        self.assertIsNone(self.looked_only("a"))
        self.assertEqual(self.update("a", environment={"OTHER": "1"}).status, 0)
        self.assertIsNotNone(self.looked_only("a", environment={"OTHER": "1", "TERM": "other"}))
        self.write({"makefile": "b: a\n\tcp a b\na: s\n\tcp s a # $(TERM)\n"})
        self.update("b", environment={"TERM": "one"})
        self.assertIsNotNone(self.looked_only("b", environment={"TERM": "one"}))
        self.assertIsNone(self.looked_only("b", environment={"TERM": "other"}))

    def test_texts_that_macros_name(self) -> None:
        self.write({"makefile": "I = more\ninclude $(I)\nb: s\n\tcp s b\n", "more": "A = 1\n"})
        self.update()
        self.assertIsNone(self.looked_only())

    def test_files_beside_the_footprints(self) -> None:
        for path in (self.updated, Path(f"{self.updated}.notes"), self.stamps):
            text = path.read_text()
            path.write_text(text[:-1] + " \n")
            self.assertIsNone(self.looked_only(), path)
        self.stamps.unlink()
        self.assertIsNone(self.looked_only())
        self.assertIsNotNone(self.looked_only())

    def test_warnings_come_again(self) -> None:
        self.write({"makefile": "all: a b\na:\n\techo > x; echo > a\nb: a\n\trm x; echo > b\n"})
        first = self.update("all")
        second = self.looked_only("all")
        assert second is not None
        self.assertEqual(len(second.warnings()), 2)
        self.assertEqual(second.warnings(), first.warnings())


@traced
class ReplayedTest(UpdateTest):
    """Updates with a replay."""

    replays = True

    def test_trusted_recipes_are_recorded_each_time(self) -> None:
        self.write({"makefile": "all: a b\na:\n\tdate +%s%N > a\nb: s\n\tcp s b\n", "s": ""})
        self.assertEqual(self.count(self.update("--trust", "a")), 2)
        second = self.update("--trust", "a")
        self.assertEqual(self.count(second), 1)
        self.assertIn("trusted, and not shown to be right: the recipe of a, ", second.errors)
        third = self.update()
        self.assertEqual((self.told(third)[0], self.count(third)), ("as before: --trust a", 1))

    def test_trusted_recipes_that_pass_over_outputs_are_kept(self) -> None:
        self.write(
            {"makefile": "all: a b\na: s\n\tcmp -s s a || cp s a\nb: s\n\tcp s b\n", "s": "1\n"}
        )
        both = ("--trust", "a", "--trust", "b")
        self.assertEqual(self.count(self.update(*both)), 2)
        second = self.update(*both)
        self.assertEqual(self.count(second), 0)
        self.assertIn("trusted, and not shown to be right: the recipe of a, run", second.errors)
        self.assertIn("trusted without need: the recipe of b left", second.errors)
        third = self.update("--trust", "a")
        self.assertEqual(self.count(third), 1, third.errors)
        self.assertNotIn("the recipe of b", third.errors)
        self.write({"s": "2\n"})
        self.assertEqual(self.count(self.update("--trust", "a")), 2)

    def test_a_recipe_that_is_trusted_now_is_recorded_again(self) -> None:
        self.write({"makefile": "b: s\n\tcp s b\n", "s": ""})
        self.assertEqual(self.count(self.update()), 1)
        second = self.update("--trust", "b")
        self.assertEqual(self.count(second), 1)
        self.assertIn("trusted without need: the recipe of b left", second.errors)

    def test_what_was_not_replayed_is_recorded_again(self) -> None:
        self.write({"makefile": "a: s\n\tcat s > a\n", "s": ""})
        self.assertEqual(self.count(self.update("--no-replay")), 1)
        self.assertEqual(self.count(self.update()), 1)
        self.assertEqual(self.count(self.update()), 0)

    def test_replays_read_what_is_kept(self) -> None:
        self.write(
            {
                "makefile": (
                    "all: b c\na: s\n\tcp s a; mkdir -p d; echo > d/x\nb: a t\n\tcat a d/x t >"
                    " b\nc: a\n\tcp a c\n"
                ),
                "s": "1\n",
                "t": "1\n",
            }
        )
        self.assertEqual(self.count(self.update()), 3)
        self.write({"t": "2\n"})
        self.assertEqual(self.count(self.update()), 1)


@traced
class StoppedTest(UpdateTest):
    """Recordings that a signal ends: what was recorded is kept."""

    replays = True
    makefile = "c: a b\n\tcat a b > c; @WAIT@\na: s\n\tcp s a\nb: a\n\tcp a b; echo > x\n"

    def stop(self, number: signal.Signals, option: str) -> str:
        """Starts a recording whose last recipe waits, and sends it a signal; it has to end soon.
        Returns what it said."""
        self.write({"makefile": self.makefile.replace("@WAIT@", "touch wait; sleep 3600")})
        self.write({"s": "1\n"})
        words = [sys.executable, str(RECORDER), "-C", str(self.folder), option, str(self.updated)]
        environment = {**os.environ, "MKCHECK": MKCHECK, "TMPDIR": str(self.scratch)}
        with subprocess.Popen(
            words,
            env=environment,
            stderr=subprocess.PIPE,
            text=True,
            # A shell has its background jobs ignore SIGINT, and they hand that down.
            preexec_fn=lambda: signal.signal(number, signal.SIG_DFL),
        ) as run:
            copies = self.scratch.glob
            wait_for(lambda: any(copies("mkcheck-record-*/copy/project/wait")))
            run.send_signal(number)
            _, errors = run.communicate(timeout=SECONDS_AT_MOST)
        self.assertEqual(run.returncode, 128 + number)
        # What is large is removed behind the end of the recorder.
        self.assertTrue(wait_for(lambda: not list(copies("mkcheck-record-*"))))
        return errors

    def test_the_next_update_goes_on(self) -> None:
        for option in ("-o", "--update"):
            errors = self.stop(signal.SIGINT, option)
            self.assertTrue(
                errors.endswith(
                    "mkcheck-record: stopped by SIGINT, what was recorded is kept: mkcheck-record"
                    f" --update {self.updated} goes on from there\n"
                ),
                errors,
            )
            self.assertFalse(self.updated.exists())
            self.write({"makefile": self.makefile.replace("; @WAIT@", "")})
            outcome = self.update(environment={"TMPDIR": str(self.scratch)})
            self.assertEqual(self.count(outcome), 1)
            full = self.record(environment={"TMPDIR": str(self.scratch)})
            self.assertEqual(self.updated.read_text(), self.book.read_text())
            self.assertEqual(outcome.warnings(), full.warnings())
            for path in (self.updated, Path(f"{self.updated}.state")):
                path.unlink()

    @unittest.skipUnless(places.namespace(), "no mount namespace is allowed")
    def test_what_was_kept_is_still_replayed(self) -> None:
        self.makefile = self.makefile.replace("cp s a", "cp s a; date +%s%N >> a")
        self.stop(signal.SIGTERM, "-o")
        self.write({"makefile": self.makefile.replace("; @WAIT@", "")})
        outcome = self.update(environment={"TMPDIR": str(self.scratch)})
        self.assertEqual((outcome.status, outcome.counts), (1, (2, 3)), outcome.errors)
        self.assertIn("the recipe of a, run in a folder that holds only what", outcome.errors)


if __name__ == "__main__":
    unittest.main()
