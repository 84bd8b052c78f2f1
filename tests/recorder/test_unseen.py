"""What a recorder can overlook: each case is recorded rightly, or refused."""

from __future__ import annotations

import os
import shutil
import socket
import subprocess
import sys
import tempfile
import unittest
from pathlib import Path

from mkcheck_tools.judge.sharing import matches
from mkcheck_tools.run import places
from recorder.project import Outcome, ProjectTest, compiled, free_port, traced
from waits import wait_for

OLD = (
    "the recipe of NAME gives NAME an old stamp, as cp -p, touch -r and tar do: after a change of"
    " what it is made from it may still look old, and what needs it isn't made again; let the"
    " recipe end with touch NAME"
)
# The shell lists the folder for a pattern.
UNTESTED = (
    "the recipe of a listed folders, or looked for some, in which other recipes make files later,"
    " such as b: nothing tests whether it uses these"
)
ARCHIVES = unittest.skipUnless(shutil.which("tar"), "no tar")
UNRUN = " wasn't run, since it depends on one that failed\n"


class Refusals(ProjectTest):
    """Projects that are refused."""

    def refused(self, makefile: str, files: dict[str, str] | None = None, *words: str) -> str:
        """Records, which has to be refused with status 1; returns what was said, but for recipes
        that then weren't run."""
        self.write({"makefile": makefile, **(files or {})})
        outcome = self.record(*words)
        self.assertTrue(outcome.is_refused, outcome.errors)
        lines = outcome.errors.splitlines(keepends=True)
        return "".join(line for line in lines if not line.endswith(UNRUN))

    def of(self, makefile: str, files: dict[str, str] | None = None, *words: str) -> Outcome:
        """Records, which has to succeed."""
        self.write({"makefile": makefile, **(files or {})})
        return self.recorded(*words)


@traced
class ScratchTest(Refusals):
    """Files that are gone when their recipe has ended."""

    def test_two_recipes_with_one_scratch_file(self) -> None:
        outcome = self.of(
            "all: a b\na: x\n\tcp x t; cp t a; rm t\nb: y\n\tcp y t; cp t b; rm t\n",
            {"x": "", "y": ""},
        )
        self.assertEqual(
            (outcome.own("a"), outcome.own("b")), (({"x"}, {"a", "t"}), ({"y"}, {"b", "t"}))
        )
        end = "too: with several jobs they destroy each other's, so it counts as written by each"
        self.assertEqual(
            outcome.warnings(),
            [
                f"the recipe of a makes and takes away t, which that of b uses {end}",
                f"the recipe of b makes and takes away t, which that of a uses {end}",
            ],
        )
        self.assertEqual(self.check(), ["no writers a b t"])

    def test_a_scratch_file_that_is_renamed(self) -> None:
        outcome = self.of(
            "all: a b\na: x\n\tcp x t; mv t a\nb: y\n\tcp y t; mv t b\n", {"x": "", "y": ""}
        )
        self.assertEqual(
            (outcome.own("a"), outcome.own("b")), (({"x"}, {"a", "t"}), ({"y"}, {"b", "t"}))
        )
        self.assertEqual(self.check(), ["no writers a b t"])

    def test_a_scratch_file_of_one_recipe(self) -> None:
        outcome = self.of(
            "all: a b\na: x\n\tcp x t; mv t a\nb: x\n\tcp x u; cp u b; rm u\n", {"x": ""}
        )
        self.assertEqual((outcome.own("a"), outcome.own("b")), (({"x"}, {"a"}), ({"x"}, {"b"})))
        self.assertEqual(outcome.warnings(), [])

    def test_a_scratch_file_that_is_another_recipes_output(self) -> None:
        outcome = self.of(
            "all: a t\na: x\n\tcp x t; cp t a; rm t\nt: y\n\tcp y t\n", {"x": "", "y": ""}
        )
        self.assertEqual(
            (outcome.own("a"), outcome.own("t")), (({"x"}, {"a", "t"}), ({"y"}, {"t"}))
        )
        self.assertEqual(self.check()[0], "no writers a t t")

    def test_a_folder_that_two_recipes_make_and_take_away(self) -> None:
        outcome = self.of(
            (
                "all: a b\na: x\n\tmkdir t; cp x t/1; cp t/1 a; rm -r t\n"
                "b: x\n\tmkdir t; cp x t/2; cp t/2 b; rm -r t\n"
            ),
            {"x": ""},
        )
        self.assertEqual(
            (outcome.own("a"), outcome.own("b")), (({"x"}, {"a", "t"}), ({"x"}, {"b", "t"}))
        )
        self.assertEqual(self.check(), ["no writers a b t"])

    def test_a_folder_that_one_recipe_takes_away_and_another_fills(self) -> None:
        outcome = self.of(
            (
                "all: a t/b\na: x\n\tmkdir t; cp x t/1; cp t/1 a; rm -r t\n"
                "t/b: x\n\tmkdir -p t; cp x t/b\n"
            ),
            {"x": ""},
        )
        self.assertEqual(
            (outcome.own("a"), outcome.own("t/b")), (({"x"}, {"a", "t"}), ({"x", "t"}, {"t/b"}))
        )
        self.assertEqual(self.check(), ["no race t/b a t", "no stale t/b t"])

    def test_a_removal_in_vain(self) -> None:
        for way in ("rm -f a core", "rm -rf a", "-rmdir a", "-mv a core"):
            outcome = self.of(f"all: clean a\na: x\n\tcp x a\nclean:\n\t{way}\n", {"x": ""})
            self.assertEqual(
                (outcome.own("clean"), outcome.own("a")), ((set(), {"a"}), ({"x"}, {"a"})), way
            )
            self.assertEqual(
                outcome.warnings(),
                ["clean removes files of other recipes: record and check it by itself"],
            )
            self.assertIn("no writers clean a a", self.check())

    def test_a_clean_beside_what_it_removes(self) -> None:
        """One warning, and one for each file that no recipe makes."""
        outcome = self.of(
            "all: a b clean\na: x\n\tcp x a\nb: x\n\tcp x b; cp x c\nclean:\n\trm -f a b c y\n",
            {"x": "", "y": ""},
        )
        self.assertEqual(
            outcome.warnings(),
            [
                "clean removes files of other recipes: record and check it by itself",
                "the recipe of clean takes away y, which it didn't make: let it leave that there",
            ],
        )
        self.assertIn("no writers a clean a", self.check())

    def test_a_look_in_vain(self) -> None:
        for way, read in (
            ("if test -e flag; then cp x b; else cp y b; fi", "y"),
            ("if [ -f flag ]; then cp x b; else cp y b; fi", "y"),
            ("cat flag > b 2>/dev/null || cp y b", "y"),
            ("./flag 2>/dev/null || cp y b", "y"),
        ):
            outcome = self.of(
                f"all: b flag\nb: y x\n\t{way}\nflag: x\n\tcp x flag\n", {"x": "1", "y": "2"}
            )
            self.assertEqual(outcome.own("b"), ({read, "flag"}, {"b"}), way)
            self.assertEqual(
                outcome.warnings(),
                [
                    "the recipe of b looks for flag, which the recipe of flag makes later: with"
                    " several jobs, or in another make, it is there, so it counts as read; let b"
                    " need flag, and record again"
                ],
            )
            self.assertIn("no race b flag flag", self.check())

    def test_looks_in_vain_for_what_nobody_else_makes(self) -> None:
        outcome = self.of(
            "all: b c\nb: x\n\ttest -e other || test -e b || cp x b\nc: b\n\ttest -e b; cp b c\n",
            {"x": ""},
        )
        self.assertEqual((outcome.own("b"), outcome.own("c")), (({"x"}, {"b"}), ({"b"}, {"c"})))
        self.assertEqual(outcome.warnings(), [])

    def test_a_look_in_vain_for_what_needs_the_recipe(self) -> None:
        outcome = self.of("c: b\n\tcp b c\nb: x\n\ttest -e c && cp c b || cp x b\n", {"x": ""})
        self.assertEqual(outcome.own("b"), ({"x", "c"}, {"b"}))
        self.assertEqual(
            outcome.warnings(),
            [
                "the recipe of b looks for c, which the recipe of c makes later: with several jobs,"
                " or in another make, it is there, so it counts as read; c needs b, so let the"
                " recipe of b do without that"
            ],
        )
        self.assertEqual(self.check(), ["no race b c c", "no stale b c"])

    def test_a_look_in_vain_for_a_second_output(self) -> None:
        outcome = self.of(
            "all: b c\nb: x\n\ttest -e c.log || cp x b\nc: x\n\tcp x c; cp x c.log\n", {"x": ""}
        )
        self.assertEqual(outcome.own("b"), ({"x", "c.log"}, {"b"}))
        (warning,) = outcome.warnings()
        self.assertTrue(warning.endswith("; let b need c, and record again"), warning)

    def test_looks_in_vain_for_several_files(self) -> None:
        rules = "".join(f"{name}: x\n\tcp x {name}\n" for name in "cdef")
        outcome = self.of(
            f"all: b c d e f\nb: x\n\tcat c d e f 2>/dev/null || cp x b\n{rules}", {"x": ""}
        )
        self.assertEqual(outcome.own("b"), ({"x", "c", "d", "e", "f"}, {"b"}))
        self.assertEqual(
            outcome.warnings(),
            [
                "the recipe of b looks for c, d, e and 1 more, which other recipes make later: with"
                " several jobs, or in another make, they are there, so they count as read; let b"
                " need c, d, e and 1 more, and record again"
            ],
        )

    def test_a_look_in_vain_for_a_scratch_file(self) -> None:
        outcome = self.of(
            "all: b c\nb: x\n\ttest -e lock || cp x b\nc: x\n\t: > lock; cp x c; rm lock\n",
            {"x": ""},
        )
        self.assertEqual(
            (outcome.own("b"), outcome.own("c")), (({"x", "lock"}, {"b"}), ({"x"}, {"c", "lock"}))
        )
        self.assertEqual(self.check(), ["no race b c lock", "no stale b lock"])

    def test_a_removal_in_vain_of_a_scratch_file(self) -> None:
        outcome = self.of("all: a b\na: x\n\trm -f t; cp x a\nb: x\n\tcp x t; mv t b\n", {"x": ""})
        self.assertEqual(
            (outcome.own("a"), outcome.own("b")), (({"x"}, {"a", "t"}), ({"x"}, {"b", "t"}))
        )
        self.assertEqual(self.check(), ["no writers a b t"])

    def test_a_pattern_that_matched_nothing(self) -> None:
        for pattern, name in (("*.o", "1.o"), ("d/[12].?", "d/1.o"), ("d/*", "d/e/1.o")):
            outcome = self.of(
                f"all: a {name}\na: x\n\trm -rf {pattern}; cp x a\n"
                f"{name}: x\n\tmkdir -p d/e; cp x {name}\n",
                {"x": ""},
            )
            self.assertEqual(
                (outcome.own("a"), outcome.own(name)), (({"x"}, {"a", name}), ({"x"}, {name}))
            )
            self.assertIn(f"the recipe of a would take away {name}, ", outcome.errors)
            self.assertEqual(self.check(), [f"no writers a {name} {name}"])
        outcome = self.of(
            (
                "all: a b e/x.o\na: x\n\trm -f *.o d/*.o; cp x a.o; cp x a\n"
                "b: a\n\tcp a.o b\ne/x.o: x\n\tmkdir -p e; cp x e/x.o\n"
            ),
            {"x": ""},
        )
        self.assertEqual(
            (outcome.own("a"), outcome.warnings()), (({"x"}, {"a", "a.o"}), [UNTESTED])
        )
        for pattern, name, matched in (
            ("*.o", "x.o", True),
            ("*.o", ".x.o", False),
            (".*.o", ".x.o", True),
            ("*", "d/x", True),
            ("d*", "d/x", True),
            ("*.o", "d/x.o", False),
            ("d/?", "d/xy", False),
            ("d/[!x]y", "d/zy", True),
        ):
            self.assertEqual(matches(pattern, name), matched, (pattern, name))

    def test_removals_in_vain_that_disturb_nobody(self) -> None:
        outcome = self.of(
            (
                "all: b c\n"
                "a: x\n\trm -f a core *.tmp; rm -rf d; mkdir d; cp x d/1; cp x a\n"
                "b: a\n\trm -f b core; cat a d/1 > b\n"
                "c: a\n\trm -f c c.new; cp d/1 c.new; mv c.new c\n"
            ),
            {"x": ""},
        )
        self.assertEqual(outcome.own("a"), ({"x"}, {"a", "d/1"}))
        self.assertEqual(outcome.own("b"), ({"a", "d/1"}, {"b"}))
        self.assertEqual(outcome.own("c"), ({"d/1"}, {"c"}))
        self.assertEqual(outcome.warnings(), [UNTESTED])

    def test_a_folder_that_is_made_anew_and_that_another_recipe_fills(self) -> None:
        outcome = self.of(
            (
                "all: a d/b\na: x\n\trm -rf d; mkdir d; cp x d/a; cp d/a a\n"
                "d/b: x\n\tmkdir -p d; cp x d/b\n"
            ),
            {"x": ""},
        )
        self.assertEqual(
            (outcome.own("a"), outcome.own("d/b")),
            (({"x"}, {"a", "d/a", "d"}), ({"x", "d"}, {"d/b"})),
        )
        self.assertEqual(self.check(), ["no race d/b a d", "no stale d/b d"])

    def test_an_empty_folder_that_another_recipe_made(self) -> None:
        end = (
            "the folder d, which that of a uses too: with several jobs it disturbs them, so the"
            " folder counts as written by the one and read by the others; let b need a, or leave"
            " the folder there"
        )
        for way in ("rmdir d", "rm -r d", "mv d e"):
            outcome = self.of(
                f"all: a c\nc: b\n\tcp b c\nb: x\n\t{way} || :; cp x b\n"
                "a: x\n\tmkdir d; cp x a\n",
                {"x": ""},
            )
            self.assertEqual(
                (outcome.own("a"), outcome.own("b")), (({"x", "d"}, {"a"}), ({"x"}, {"b", "d"}))
            )
            self.assertEqual(outcome.warnings(), [f"the recipe of b takes away {end}"])
            self.assertEqual(self.check(), ["no race a b d", "no stale a d"])
        outcome = self.of(
            "all: a b\na: x\n\tmkdir -p d; cp x d/a; cp x a\nb: x\n\t-rmdir d\n\tcp x b\n",
            {"x": ""},
        )
        self.assertEqual(
            (outcome.own("a"), outcome.own("b")),
            (({"x", "d"}, {"a", "d/a"}), ({"x"}, {"b", "d"})),
        )
        self.assertEqual(outcome.warnings(), [f"the recipe of b would take away {end}"])
        self.assertEqual(self.check(), ["no race a b d", "no stale a d"])

    def test_folders_that_recipes_take_away_and_nobody_else_uses(self) -> None:
        outcome = self.of(
            (
                "all: a b c\na: x\n\tmkdir d; cp x d/1; rm d/1; rmdir d; cp x a\n"
                "b: x\n\tmkdir -p e; rmdir e; mkdir e; cp x e/b; cp x b\n"
                "c: b\n\tmkdir -p e; -rmdir f; rm -rf e/f; cp b c\n"
            ).replace("-rmdir f", "rmdir f 2>/dev/null || :"),
            {"x": ""},
        )
        self.assertEqual(
            [outcome.own(name) for name in "abc"],
            [({"x"}, {"a"}), ({"x"}, {"e/b", "b"}), ({"b"}, {"c"})],
        )
        self.assertEqual(outcome.warnings(), [])

    def test_scratch_files_outside_of_the_folder(self) -> None:
        outside = self.scratch / "outside"
        makes, would = "makes and takes away", "would take away"
        for first, second, verb in (
            ("cp x T; cp T a; rm T", "cp x T; cp T b; rm T", makes),
            ("rm -f T; cp x a", "cp x T; cp T b; rm T", would),
            ("mkdir T; cp x a; rmdir T", "mkdir T; cp x T/1; cp T/1 b; rm -r T", makes),
        ):
            text = f"all: a b\na: x\n\t{first}\nb: x\n\t{second}\n"
            outcome = self.of(text.replace("T", str(outside)), {"x": ""})
            self.assertEqual(outcome.own("a"), ({"x"}, {"a", str(outside)}), first)
            self.assertIn(
                f"the recipe of a {verb} {outside}, which that of b uses too: with several jobs"
                " they destroy each other's, so it counts as written by each",
                outcome.warnings(),
            )
            self.assertEqual(self.check(), [f"no writers a b {outside}"])

    def test_scratch_files_outside_of_the_folder_of_one_recipe(self) -> None:
        outcome = self.of(
            (
                f"all: a b\na: x\n\tcp x {self.scratch}/1; cp x a; rm {self.scratch}/1\n"
                f"b: x\n\tf=`mktemp`; cp x $$f; cp $$f b; rm $$f; rm -f {self.scratch}/2\n"
            ),
            {"x": ""},
        )
        self.assertEqual((outcome.own("a"), outcome.own("b")), (({"x"}, {"a"}), ({"x"}, {"b"})))
        self.assertEqual((outcome.warnings(), self.check()[0][:3]), ([], "yes"))

    def test_a_private_scratch_file_outside_of_the_folder(self) -> None:
        """It is made as `mkstemp` makes files, and has the same name in two recipes."""
        lock = self.scratch / "lock"
        script = (
            "import os, sys\n"
            "os.open(sys.argv[1], os.O_CREAT | os.O_EXCL | os.O_RDWR, 0o600)\n"
            "os.unlink(sys.argv[1])\n"
        )
        python = os.path.realpath(sys.executable)
        line = f"\t{python} -IB p {lock}; cp x $@\n"
        outcome = self.of(
            f"all: a b\na: x p\n{line}b: x p\n{line}",
            {"x": "", "p": script},
            *("--fixed", os.path.dirname(os.path.dirname(python))),
        )
        self.assertEqual(self.check(), [f"no writers a b {lock}"])
        self.assertIn(f"the recipe of a makes and takes away {lock}, which", outcome.errors)

    def test_looks_by_the_folder_of_a_process(self) -> None:
        for path in ("/proc/self/cwd/b", f"/proc/self/root{self.folder}/b", "/proc/$$$$/cwd/b"):
            outcome = self.of(
                f"all: a b\na: x\n\ttest -e {path} || cp x a\nb: y\n\tcp y b\n",
                {"x": "", "y": ""},
            )
            self.assertEqual(outcome.own("a"), ({"x", "b"}, {"a"}), path)
            self.assertIn("no race a b b", self.check(), path)
        self.of("a: x\n\tcp x t; mv t /proc/self/cwd/a\n")
        self.assertEqual(self.check()[0][:3], "yes")

    def test_a_stamp_in_vain(self) -> None:
        """Where the file is there, it gets a stamp later than what it is made from."""
        outcome = self.of(
            "all: a b\na: x\n\ttouch -c b; cp x a\nb: y\n\tcp y b\n", {"x": "", "y": ""}
        )
        self.assertEqual(outcome.own("a"), ({"x", "b"}, {"a"}))
        self.assertIn("no race a b b", self.check())

    def test_a_shared_scratch_file_that_has_no_name(self) -> None:
        said = self.refused(
            "all: a b\na: x\n\tcp x 't 1'; mv 't 1' a\nb: x\n\tcp x 't 1'; mv 't 1' b\n",
            {"x": ""},
        )
        self.assertEqual(
            said,
            (
                "mkcheck-record: the recipe of a makes and takes away t 1, which that of b uses"
                " too: with several jobs they destroy each other's, and footprints can't hold that"
                " name, for a blank, a control character or a byte that isn't UTF-8: give each its"
                " own\n"
            ),
        )
        outcome = self.of("a: x\n\tcp x 't 1'; mv 't 1' a\n", {"x": ""})
        self.assertEqual((outcome.own("a"), outcome.warnings()), (({"x"}, {"a"}), []))

    def test_an_output_that_another_recipe_takes_away(self) -> None:
        outcome = self.of("b: a\n\tmv a b\na: x\n\tcp x a\n", {"x": ""})
        self.assertEqual(
            (outcome.own("a"), outcome.own("b")), (({"x"}, {"a"}), ({"a"}, {"a", "b"}))
        )
        self.assertEqual(self.check()[0], "no writers a b a")


@traced
class LinkTest(Refusals):
    """Symbolic links that recipes make are files that other recipes read."""

    def test_the_text_of_a_link(self) -> None:
        outcome = self.of("all: l out\nout:\n\treadlink l > out\nl:\n\tln -s a l\n")
        self.assertEqual(outcome.own("out"), ({"l"}, {"out"}))
        self.assertEqual(self.check(), ["no race out l l", "no stale out l"])

    def test_a_copy_of_a_link(self) -> None:
        outcome = self.of("m: l\n\tcp -P l m\nl:\n\tln -s a l\n")
        self.assertEqual(outcome.own("m"), ({"l"}, {"m"}))

    def test_a_copy_of_a_link_of_the_project(self) -> None:
        (self.folder / "l").symlink_to("a")
        self.assertEqual(self.of("m: l\n\tcp -P l m\n", {"a": ""}).own("m"), ({"l"}, {"m"}))

    def test_a_folder_behind_a_link(self) -> None:
        for way in (
            "cd l && cat x > ../out",
            "(cd l && exec cat x) > out",
            "cd -P l/../d && cat x > ../out",
        ):
            outcome = self.of(f"all: l out\nout: d/x\n\t{way}\nl:\n\tln -s d l\n", {"d/x": ""})
            self.assertEqual(outcome.own("out"), ({"l", "d/x"}, {"out"}), way)
            self.assertEqual(self.check(), ["no race out l l", "no stale out l"])

    @ARCHIVES
    def test_a_descriptor_of_a_folder_behind_a_link(self) -> None:
        outcome = self.of("out: l\n\ttar -C l -cf out x\nl:\n\tln -s d l\n", {"d/x": "text\n"})
        self.assertEqual(outcome.own("out"), ({"l", "d/x"}, {"out"}))

    def test_a_folder_that_is_renamed_while_a_process_stands_in_it(self) -> None:
        outcome = self.of(
            (
                "e/x: a\n\tmkdir d; cd d; mv ../d ../e; ln -s ../a l; cat l > x; cd ../e; readlink"
                " l > y\n"
            ),
            {"a": ""},
        )
        self.assertEqual(outcome.own("e/x"), ({"a"}, {"e/l", "e/x", "e/y"}))

    def test_a_list_of_a_folder_behind_a_link(self) -> None:
        outcome = self.of("out: l\n\tls l > out\nl:\n\tln -s d l\n", {"d/x": ""})
        self.assertEqual(outcome.own("out"), ({"l"}, {"out"}))

    def test_a_link_in_a_folder_that_is_renamed_later(self) -> None:
        outcome = self.of(
            "out: d/l a\n\tcat d/l > out; mv d e\nd/l:\n\tmkdir d; ln -s ../a d/l\n", {"a": ""}
        )
        self.assertEqual(outcome.own("out"), ({"d/l", "a"}, {"d/l", "e/l", "out"}))
        self.assertEqual(self.check()[0], "no writers d/l out d/l")

    def test_a_link_in_a_folder_that_gets_a_mode_and_is_renamed(self) -> None:
        outcome = self.of(
            "out: e/l a\n\tcat e/l > out\n"
            "e/l:\n\tmkdir d; ln -s ../a d/l; chmod 700 d; touch d; mv d e\n",
            {"a": ""},
        )
        self.assertEqual(outcome.own("e/l"), (set(), {"e/l"}))
        self.assertEqual(outcome.own("out"), ({"e/l", "a"}, {"out"}))

    def test_a_link_that_leads_elsewhere_later(self) -> None:
        outcome = self.of(
            "out: l\n\tcat l > out; ln -sf b l\nl:\n\tln -s a l\n", {"a": "", "b": ""}
        )
        self.assertEqual(outcome.own("out"), ({"l", "a"}, {"l", "out"}))

    def test_a_program_over_a_link_that_leads_elsewhere_later(self) -> None:
        files = {"one": "#!/bin/sh\necho 1\n", "two": "#!/bin/sh\necho 2\n"}
        outcome = self.of("out: l\n\t./l > out; ln -sfn two l\nl:\n\tln -s one l\n", files)
        self.assertEqual(outcome.own("out"), ({"l", "one"}, {"l", "out"}))

    def test_a_link_that_takes_the_place_of_another(self) -> None:
        outcome = self.of(
            "out: l\n\tln -s b m; mv m l; cat l > out\nl:\n\tln -s a l\n", {"a": "", "b": ""}
        )
        self.assertEqual(outcome.own("out"), ({"b"}, {"l", "out"}))

    def test_a_link_to_a_link(self) -> None:
        outcome = self.of("out: m\n\tcat m > out\nm: l\n\tln -s l m\nl:\n\tln -s a l\n", {"a": ""})
        self.assertEqual(outcome.own("out"), ({"m", "l", "a"}, {"out"}))

    def test_a_link_by_the_projects_own_path(self) -> None:
        outcome = self.of(
            f"out: l\n\tcat l > out\nl:\n\tln -s {self.folder}/a l\n", {"a": ""}, "--in-place"
        )
        self.assertEqual(outcome.own("out"), ({"l", "a"}, {"out"}))

    def test_a_second_name_of_a_link(self) -> None:
        outcome = self.of("out: m\n\tcat m > out\nm: l\n\tln -P l m\nl:\n\tln -s a l\n", {"a": ""})
        self.assertEqual(
            (outcome.own("m"), outcome.own("out")), (({"l"}, {"m"}), ({"m", "a"}, {"out"}))
        )

    def test_stamps_of_links_themselves(self) -> None:
        outcome = self.of("all: l m\nm: l\n\ttouch -h l; echo > m\nl: a\n\tln -s a l\n", {"a": ""})
        self.assertEqual(outcome.own("m"), ({"l"}, {"l", "m"}))
        self.assertEqual(self.check()[0], "no writers l m l")

    def test_a_copy_with_stamps_of_links(self) -> None:
        (self.folder / "d").mkdir()
        (self.folder / "d" / "l").symlink_to("x")
        outcome = self.of("e/x: d/x\n\tcp -a d e\n", {"d/x": ""})
        self.assertEqual(outcome.own("e/x"), ({"d/x", "d/l"}, {"e/x", "e/l"}))

    def test_folders_that_lead_to_each_other(self) -> None:
        for name in ("a", "b", "c"):
            (self.folder / name).mkdir()
            for other in ("a", "b", "c"):
                (self.folder / name / other).symlink_to(f"../{other}")
        outcome = self.of("out: a/b/x\n\tcat a/b/x > out\n", {"b/x": "", "a/x": "", "c/x": ""})
        self.assertEqual(outcome.own("out"), ({"a/b/x"}, {"out"}))

    def test_a_source_behind_two_links(self) -> None:
        for name, goal in (("i", "s"), ("s/j", "../t")):
            (self.folder / name).parent.mkdir(exist_ok=True)
            (self.folder / name).symlink_to(goal)
        outcome = self.of("out: i/j/x\n\tcat i/j/x > out\n", {"t/x": ""})
        self.assertEqual(outcome.own("out"), ({"t/x"}, {"out"}))


@traced
class ContentTest(Refusals):
    """What was in a file before, and who may use it."""

    def test_bytes_that_are_kept(self) -> None:
        for way in (
            "dd if=x of=a bs=1 count=1 conv=notrunc 2>/dev/null",
            "printf y 1<> a",
            "printf y >> a",
            "truncate -s 3 a",
        ):
            outcome = self.of(
                f"all: a b\nb: a\n\t{way}; echo > b\na:\n\techo old > a\n", {"x": "x"}
            )
            reads = {"x", "a"} if way.startswith("dd") else {"a"}
            self.assertEqual(outcome.own("b"), (reads, {"a", "b"}), way)
            self.assertEqual(self.check()[0], "no writers a b a")

    def test_bytes_that_are_not_kept(self) -> None:
        for way in ("dd if=/dev/null of=a 2>/dev/null", ": > a", "rm a; printf y 1<> a"):
            self.assertEqual(
                self.of(f"all: a b\nb:\n\t{way}; echo > b\na:\n\techo old > a\n", {}).own("b")[0],
                set(),
                way,
            )

    def test_a_stamp_keeps_the_bytes(self) -> None:
        outcome = self.of("all: a b\nb: a\n\ttouch a; echo > b\na:\n\techo old > a\n")
        self.assertEqual(outcome.own("b"), ({"a"}, {"a", "b"}))

    def test_a_target_that_is_only_touched(self) -> None:
        said = self.refused(
            "out: a.h\n\tcp a.h out\na.h: b.h\n\ttouch a.h\n", {"a.h": "text\n", "b.h": ""}
        )
        self.assertEqual(
            said,
            (
                "mkcheck-record: a.h was there before, and its recipe leaves it empty, so its"
                " content is made by no recipe, and a build from nothing lacks it; let the recipe"
                " write a.h, or leave out the rule's commands\n"
            ),
        )

    def test_a_target_that_no_recipe_writes(self) -> None:
        said = self.refused(
            "out: a.h\n\tcat a.h > out || :\na.h: b.h\n\t@:\n", {"a.h": "text\n", "b.h": ""}
        )
        self.assertIn("a.h was there before, and its recipe doesn't write it, so its content", said)

    def test_a_stamp_that_was_there(self) -> None:
        outcome = self.of(
            "out: stamp\n\techo > out\nstamp: a\n\ttouch stamp\n", {"stamp": "", "a": ""}
        )
        self.assertEqual(outcome.own("stamp"), (set(), {"stamp"}))

    def test_an_old_stamp(self) -> None:
        self.write({"makefile": "out: a b\n\tcat b; cp -p a out\n", "a": "", "b": ""})
        os.utime(self.folder / "a", (1e9, 1e9))
        self.assertEqual(self.recorded().warnings(), [OLD.replace("NAME", "out")])
        self.write({"makefile": "out: b\n\tcp b out; touch -d @1000000000 out\n"})
        self.assertEqual(self.recorded().warnings(), [OLD.replace("NAME", "out")])

    @ARCHIVES
    def test_an_old_stamp_from_an_archive(self) -> None:
        self.write({"makefile": "a: a.tar\n\ttar -xf a.tar\n", "a": ""})
        os.utime(self.folder / "a", (1e9, 1e9))
        subprocess.run(["tar", "-cf", "a.tar", "a"], cwd=self.folder, check=True)
        (self.folder / "a").unlink()
        self.assertEqual(self.recorded().warnings(), [OLD.replace("NAME", "a")])

    def test_the_stamp_of_the_only_read(self) -> None:
        """A change of the file that is read gives its copy a stamp that is as late."""
        for way in (
            "cp -p a b",
            "cp a b; touch -r a b",
            "cp a b; touch -m -r a b",
            "cp -p a t; mv t b",
        ):
            for makefile in (f"b: a\n\t{way}\na: x\n\tcp x a; sleep 0.3\n", f"b: a\n\t{way}\n"):
                outcome = self.of(makefile, {"x": "", "a": ""})
                self.assertEqual(outcome.warnings(), [], way)
                (self.folder / "a").unlink()

    def test_an_old_stamp_of_the_same_build(self) -> None:
        old = OLD.replace("NAME", "b")
        for way, told in (
            ("cat y; cp -p a b", [old]),
            ("cat y; cp a b; touch -r a b", [old]),
            ("cat y; cp a b; touch -m -r a b", [old]),
            ("cat y; cp -p a t; mv t b", [old]),
            ("cat y; cp -p a b; touch b", []),
            ("cat y; cp -p a b; touch -m b", []),
            ("cp a t; cp a b; touch -r t b; rm t", []),
            ("cat y; cp a b; touch -a -r a b", []),
            ("cat y; cp a b; touch -d '10 seconds' b; touch b", []),
        ):
            outcome = self.of(f"b: a y\n\t{way}\na: x\n\tcp x a; sleep 0.3\n", {"x": "", "y": ""})
            self.assertEqual(outcome.warnings(), told, way)

    def test_a_link_to_an_older_file(self) -> None:
        """Make goes by the stamp of the file to which a link leads."""
        rules = "all: p\np: l\n\treadlink l > p\nl: c a b\n"
        told = (
            "the recipe of l makes l a link to a, which is older, and make goes by the stamp of"
            " that: after a change of what the recipe reads, l may still look old, and what needs"
            " it isn't made again; let the recipe make a file in place of the link"
        )
        for way, warnings in (
            ("ln -sf `cat c` l", [told]),
            ("cp -P k l; cat c", [told]),
            ("ln -sf a l", []),
            ("rm -f l; cp a n; ln -s n l; cat c", []),
            ("ln -sf none l; cat c", []),
        ):
            self.write({"makefile": f"{rules}\t{way}\n", "a": "1\n", "b": "2\n", "c": "a\n"})
            for name in "abc":
                os.utime(self.folder / name, (1e9, 1e9))
            if not os.path.lexists(self.folder / "k"):
                (self.folder / "k").symlink_to("a")
            said = [one for one in self.recorded().warnings() if "another name" not in one]
            said = [one for one in said if "symbolic link" not in one]
            self.assertEqual(said, warnings, way)

    def test_a_stamp_of_the_future(self) -> None:
        outcome = self.of("b: a\n\tcp a b; touch -d '10 hours' b\n", {"a": ""})
        self.assertEqual(
            outcome.warnings(),
            [
                "the recipe of b gives b a stamp of the future: make takes it for newer than what"
                " changes until then; let the recipe end with touch b"
            ],
        )

    def test_a_phony_target_with_a_file_of_its_name(self) -> None:
        said = self.refused(
            ".PHONY: test\nout: test\n\tsh test > out\ntest:\n\t@echo tested\n",
            {"test": "echo 1\n"},
        )
        self.assertEqual(
            said,
            (
                "mkcheck-record: the recipe of out reads the file test, but test is a phony target,"
                " and make doesn't look at a file of that name; give one of the two another name\n"
            ),
        )

    def test_a_phony_target_without_recipe_and_a_file(self) -> None:
        said = self.refused(".PHONY: all\nall: out\nout:\n\tcp all out\n", {"all": "text\n"})
        self.assertIn("reads the file all, but all is a phony target", said)

    def test_a_phony_target_whose_file_is_used_by_nobody(self) -> None:
        outcome = self.of(".PHONY: install\ninstall: a\n\tcp a b\n", {"install": "", "a": ""})
        self.assertEqual((outcome.own("install"), outcome.warnings()), (({"a"}, {"b"}), []))

    def test_a_phony_target_that_writes_its_file(self) -> None:
        outcome = self.of(
            ".PHONY: p\nout: p\n\tcp p out\np: a\n\tcp a p\n", {"p": "old\n", "a": ""}
        )
        self.assertEqual((outcome.own("p"), outcome.own("out")), (({"a"}, {"p"}), ({"p"}, {"out"})))

    def test_a_mode_that_another_recipe_gives(self) -> None:
        outcome = self.of(
            "all: s x out\ns:\n\techo echo 1 > s\nx: s\n\tchmod 755 s; echo > x\nout: s\n\t./s >"
            " out || :\n"
        )
        self.assertEqual(outcome.own("x"), ({"s"}, {"s", "x"}))
        self.assertEqual(self.check()[0], "no writers s x s")

    def test_a_mode_of_a_folder(self) -> None:
        (self.folder / "d").mkdir()
        (self.folder / "d").chmod(0o755)
        outcome = self.of(
            "all: a d/b\na: x\n\tchmod 700 d; cp x a\nd/b: x\n\tcp x d/b\n", {"x": ""}
        )
        self.assertEqual(
            (outcome.own("a"), outcome.own("d/b")), (({"x"}, {"a", "d"}), ({"x", "d"}, {"d/b"}))
        )
        self.assertEqual(
            outcome.warnings(),
            [
                "the recipe of a gives the folder d another mode, owner or attribute, which that of"
                " d/b uses too: it counts as written by the one and read by the others"
            ],
        )
        self.assertEqual(self.check(), ["no race d/b a d", "no stale d/b d"])
        outcome = self.of("d/b: x a\n\tcp x d/b\na: x\n\tchmod 700 d; cp x a\n")
        self.assertEqual(
            (outcome.own("a"), outcome.own("d/b")), (({"x"}, {"a", "d"}), ({"x", "d"}, {"d/b"}))
        )
        self.assertEqual(self.check()[0][:3], "yes")

    def test_modes_of_folders_that_disturb_nobody(self) -> None:
        (self.folder / "d").mkdir()
        (self.folder / "d").chmod(0o755)
        outcome = self.of(
            (
                "all: a b c\n"
                "a: x\n\tmkdir -p o/e; chmod 700 o/e; cp x o/e/1; cp x a\n"
                "b: x\n\tmkdir -p o; chmod 755 d; cp x d/b; cp x b\n"
                "c: a\n\tmkdir -p o/e; chmod 700 o/e; chmod 755 d; cp o/e/1 d/c; cp x c\n"
            ),
            {"x": ""},
        )
        self.assertEqual(outcome.own("a"), ({"x"}, {"o/e/1", "a"}))
        self.assertEqual(outcome.own("b"), ({"x"}, {"d/b", "b"}))
        self.assertEqual(outcome.own("c"), ({"o/e/1", "x"}, {"d/c", "c"}))
        self.assertEqual(outcome.warnings(), [])

    def test_modes_of_folders_that_have_no_name(self) -> None:
        self.folder.chmod(0o755)
        (self.scratch / "other").mkdir()
        (self.scratch / "other").chmod(0o755)
        end = (
            " another mode, owner or attribute, which no footprint can say: other recipes may find"
            " the one or the other; let it leave that folder as it is"
        )
        for path, name in (
            (".", "the project's folder"),
            (str(self.scratch / "other"), f"the folder {self.scratch}/other"),
        ):
            outcome = self.of(f"a: x\n\tchmod 700 {path}; cp x a\n", {"x": ""})
            self.assertEqual(outcome.warnings(), [f"the recipe of a gives {name}{end}"])

    def test_a_mode_that_a_file_has_already(self) -> None:
        outcome = self.of(
            (
                "all: s x\ns:\n\techo echo 1 > s; chmod 755 s\nx: s t\n\tchmod 755 s t; ./s > x;"
                " ./t >> x\n"
            ),
            {"t": "#!/bin/sh\necho 2\n"},
        )
        self.assertEqual(outcome.own("x"), ({"s", "t"}, {"x"}))

    def test_a_mode_of_a_source(self) -> None:
        said = self.refused("x: s\n\tchmod u=rwx,go= s; ./s > x\n", {"s": "#!/bin/sh\necho 1\n"})
        self.assertIn(
            (
                "the recipe of x writes s, which the makefile takes for a source, since no rule"
                " makes it"
            ),
            said,
        )


@traced
class ProgramTest(Refusals):
    """Programs, and what starts in their place."""

    def test_a_relative_interpreter(self) -> None:
        outcome = self.of("out: s\n\t./s\n", {"s": "#!./i x\n", "i": "#!/bin/sh\necho 1 > out\n"})
        self.assertEqual(outcome.own("out"), ({"s", "i"}, {"out"}))

    def test_a_relative_interpreter_from_another_folder(self) -> None:
        outcome = self.of(
            "out: s\n\tcd d && ../s\n", {"s": "#!./i\n", "d/i": "#!/bin/sh\necho 1 > ../out\n"}
        )
        self.assertEqual(outcome.own("out"), ({"s", "d/i"}, {"out"}))

    def test_an_interpreter_behind_a_link_that_a_recipe_made(self) -> None:
        outcome = self.of(
            "all: l out\nout: s\n\t./s\nl:\n\tln -s i l\n",
            {"s": "#!./l\n", "i": "#!/bin/sh\necho > out\n"},
        )
        self.assertEqual(outcome.own("out"), ({"s", "l", "i"}, {"out"}))

    @compiled
    def test_a_relative_loader(self) -> None:
        self.write(
            {
                "makefile": (
                    "all: p out\nout: p\n\t./p > out\np: p.c\n\tcc -o p p.c"
                    " -Wl,--dynamic-linker=./ld\n"
                ),
                "p.c": "int main(void) { return 0; }\n",
            }
        )
        loader = next(
            (
                path
                for path in ("/lib64/ld-linux-x86-64.so.2", "/lib/ld-linux-aarch64.so.1")
                if os.path.exists(path)
            ),
            None,
        )
        if loader is None:
            self.skipTest("no loader of a known name")
        shutil.copy(os.path.realpath(loader), self.folder / "ld")
        self.assertEqual(self.recorded().own("out"), ({"p", "ld"}, {"out"}))


@traced
class NameTest(Refusals):
    """Names of files, and of folders for temporary files."""

    def test_names_that_footprints_cannot_hold(self) -> None:
        for name in ("a b", "x) = -1 ENOENT (No such file)", "x (deleted)", "a <unfinished ...>"):
            said = self.refused(f"out:\n\techo > '{name}'; echo > out\n")
            self.assertEqual(
                said,
                (
                    "mkcheck-record: the recipe of out writes files whose names footprints can't"
                    " hold, for a blank, a control character or a byte that isn't UTF-8: give them"
                    f" other names\n\tout writes {self.folder}/{name}\n"
                ),
            )
            said = self.refused(f"out:\n\tcat '{name}' > out\n", {name: ""})
            self.assertIn(f"\tout reads {self.folder}/{name}\n", said)
            (self.folder / name).unlink()

    def test_files_that_only_a_copy_of_the_whole_would_use(self) -> None:
        self.write({"makefile": "out: a\n\tcp a out\n", "a": "", "b c": ""})
        os.mkfifo(self.folder / "pipe")
        with socket.socket(socket.AF_UNIX) as unused:
            unused.bind(str(self.folder / "s"))
        (self.folder / "huge").touch()
        os.truncate(self.folder / "huge", 1 << 42)
        outcome = self.recorded()
        self.assertEqual(outcome.own("out"), ({"a"}, {"out"}))
        (told,) = outcome.warnings()
        self.assertRegex(
            told, r"^not copied, since they can't be read or are no files: (pipe, s|s, pipe)$"
        )

    def test_names_that_are_the_recorders_own(self) -> None:
        above = self.scratch / "above"
        above.mkdir()
        for name in ("trace", "book.json", "copy", "store", "replays", "trace.pipe"):
            folder = above / name
            folder.mkdir()
            (folder / "makefile").write_text(f"out: {name}.c\n\tcat {name}.c > out\n")
            (folder / f"{name}.c").write_text("")
            outcome = self.record("-C", str(folder))
            self.assertEqual(
                (outcome.status, outcome.own("out")), (0, ({f"{name}.c"}, {"out"})), outcome.errors
            )

    def test_a_folder_for_temporary_files_with_odd_characters(self) -> None:
        for name in ("a b", "it's", 'q"', "$x", "ä;"):
            folder = self.scratch / name
            folder.mkdir()
            self.write(
                {
                    "makefile": 'out: a\n\tt=`mktemp`; cp a "$$t"; cat "$$t" > out; rm "$$t"\n',
                    "a": "",
                }
            )
            outcome = self.record("--make", environment={"TMPDIR": str(folder)})
            self.assertEqual(
                (outcome.status, outcome.own("out"), outcome.warnings()),
                (0, ({"a"}, {"out"}), []),
                name,
            )
            self.assertEqual(list(folder.iterdir()), [])

    @unittest.skipUnless(os.access("/dev/shm", os.W_OK), "no /dev/shm")
    def test_a_folder_that_seems_to_hold_devices(self) -> None:
        self.write({"makefile": "out: a\n\tcp a out\n", "a": ""})
        outcome = self.record(environment={"TMPDIR": "/dev/shm"})
        self.assertEqual(outcome.own("out"), ({"a"}, {"out"}))
        folder = f"/dev/shm/{os.path.basename(self.scratch)}"
        shutil.copytree(self.folder, folder)
        self.addCleanup(shutil.rmtree, folder)
        self.assertEqual(self.record("-C", folder).own("out"), ({"a"}, {"out"}))

    def test_a_folder_as_prerequisite(self) -> None:
        self.write({"makefile": "out: d\n\techo > out\n", "d/x": ""})
        outcome = self.record()
        self.assertEqual((outcome.status, outcome.book), (2, None))
        self.assertEqual(
            outcome.errors,
            (
                "mkcheck-record: mkcheck graph: refused 41 d: d is a folder, and footprints have"
                " files alone; name a file in it, or let each recipe that needs the folder make"
                " it (mkdir -p d)\n"
            ),
        )

    def test_files_above_the_folder(self) -> None:
        (self.scratch / "above").mkdir()
        (self.scratch / "above" / "a").write_text("")
        said = self.refused("out:\n\tcat ../above/a > out\n")
        self.assertEqual(
            said,
            (
                "mkcheck-record: the recipe of out reads files above the folder: record from the"
                " folder that holds both, where a makefile there builds this one, or give --fixed"
                f" ../above/ where they never change\n\tout reads {self.scratch}/above/a\n"
            ),
        )
        (self.scratch / "b").write_text("")
        said = self.refused("out:\n\tcat ../above/a ../b > out\n")
        self.assertIn("or give --fixed PREFIX where they never change", said)
        outcome = self.of("out:\n\tcat ../above/a > out\n", {}, "--fixed", "../above")
        self.assertEqual(outcome.own("out"), ({"../above/a"}, {"out"}))

    def test_files_elsewhere(self) -> None:
        """A prefix is named that holds all of them, unless it is a home."""
        with tempfile.TemporaryDirectory() as room:
            other = Path(room).resolve()
            (other / "d").mkdir()
            (other / "d" / "a").write_text("")
            (other / "b").write_text("")
            makefile = f"out:\n\tcat {other}/d/a {other}/b > out\n"
            said = self.refused(makefile)
            self.assertIn(f" nor under a fixed prefix: give --fixed {other}/ where they", said)
            self.recorded("--fixed", f"{other}/")
            said = self.record(environment={"HOME": str(other)}).errors
            self.assertIn(" nor under a fixed prefix: give --fixed PREFIX where they", said)
            said = self.refused(f"out:\n\tcp {other}/d/a out\n")
            self.assertIn(f"give --fixed {other}/d/ where they", said)


@traced
class ProcessTest(Refusals):
    """Processes that a trace doesn't follow, or that go on."""

    def test_a_process_in_the_background(self) -> None:
        # Tail shows what it reads, and goes on; the command ends as soon as that is there.
        ready = "until test -s c; do sleep 0.1; done"
        said = self.refused(
            f"out: a\n\t(tail -f a; echo > late) > c 2>&1 & {ready}; echo > out\n", {"a": "1\n"}
        )
        self.assertRegex(
            said,
            r"^mkcheck-record: the recipe of out leaves /bin/sh, \S+/tail running when its command"
            r" has ended:"
            " make doesn't wait for that, so nothing tells when its files are whole; let the"
            " command"
            " wait for it\n$",
        )

    @unittest.skipUnless(shutil.which("setsid"), "no setsid")
    def test_a_process_of_its_own_session(self) -> None:
        mark = str(self.scratch / "mark")
        said = self.refused(
            f"out:\n\tsetsid sh -c 'sleep 600; echo > {mark}' > /dev/null 2>&1 & echo > out\n"
        )
        self.assertRegex(said, r"leaves \S+/.* running when its command has ended")
        self.assertEqual(left_with(mark), [])

    def test_a_process_that_is_waited_for(self) -> None:
        self.assertEqual(
            self.of("out: a\n\tcp a b & wait; cat b > out; rm b\n", {"a": ""}).own("out"),
            ({"a"}, {"out"}),
        )

    def test_a_process_that_is_killed(self) -> None:
        outcome = self.of(
            "out: a\n\tsleep 60 & cp a out; kill $$!; yes | head -1 > b; rm b; wait\n", {"a": ""}
        )
        self.assertEqual(outcome.own("out"), ({"a"}, {"out"}))

    def test_a_server_that_is_asked(self) -> None:
        script = (
            "import socket, sys\n"
            "server = socket.socket(socket.AF_UNIX)\n"
            "if len(sys.argv) > 2:\n"
            "    server.bind(sys.argv[2])\n"
            "    server.listen()\n"
            "socket.socket(socket.AF_UNIX).connect(sys.argv[1])\n"
            "open('out', 'w').close()\n"
        )
        python = os.path.realpath(sys.executable)
        path = str(self.scratch / "s")
        with socket.socket(socket.AF_UNIX) as server:
            server.bind(path)
            server.listen()
            self.write({"makefile": f"out: ask\n\t{python} -IB ask {path}\n", "ask": script})
            self.assertEqual(
                self.recorded("--fixed", os.path.dirname(os.path.dirname(python))).warnings(),
                [
                    f"the recipe of out asks the socket {path}: what that does or answers isn't"
                    " recorded, so no make notices where it changes; let the recipe do without it"
                ],
            )
        self.write({"makefile": f"out: ask\n\t{python} -IB ask own own; rm own\n"})
        self.assertEqual(
            self.recorded("--fixed", os.path.dirname(os.path.dirname(python))).warnings(), []
        )

    def test_an_address_at_which_two_recipes_serve(self) -> None:
        own, port = f"mkcheck-record-test-{os.getpid()}", free_port()
        script = (
            "import socket, sys\n"
            "if sys.argv[1] == '@':\n"
            f"    socket.socket(socket.AF_UNIX).bind('\\0{own}')\n"
            "else:\n"
            "    socket.socket().bind(('127.0.0.1', int(sys.argv[1])))\n"
        )
        python = os.path.realpath(sys.executable)
        fixed = ("--fixed", os.path.dirname(os.path.dirname(python)))
        for address, name in (
            ("@", f"the socket @{own}"),
            (f"{port}", f"the port {port}"),
        ):
            line = f"\t{python} -IB p {address}; cp x"
            rules = f"a: x p\n{line} a\nb: x p\n{line} b\n"
            told = (
                f"the recipes of a and b both serve at {name}: with several jobs one of them fails,"
                " or is asked what the other is; let one need the other, or take other addresses"
            )
            outcome = self.of(f"all: a b\n{rules}", {"x": "", "p": script}, *fixed)
            self.assertEqual(outcome.warnings(), [told])
            outcome = self.of("all: b\n" + rules.replace("b: x", "b: x a"), None, *fixed)
            self.assertEqual(outcome.warnings(), [])
            outcome = self.of(f"all: a b\n{rules}".replace(f"p {address}", "p 0"), None, *fixed)
            self.assertEqual(outcome.warnings(), [])

    def test_all_processes(self) -> None:
        """By ps and pkill a recipe may find processes of other recipes, and end them."""
        for way, told, they in (
            ("", "the recipe of a looks", "it finds"),
            ("ls /proc > u; rm u; ", "the recipes of a, b look", "they find"),
        ):
            rules = f"a: x\n\tls /proc > t; rm t; cp x a\nb: x\n\t{way}cp x b\n"
            said = (
                f"{told} through all processes, as ps and pkill do: with several jobs {they} those"
                " of other recipes too; go by the numbers of the recipe's own processes, or let no"
                " other recipe run beside it"
            )
            self.assertEqual(self.of(f"all: a b\n{rules}", {"x": ""}).warnings(), [said])
            ordered = rules.replace("b: x", "b: x a")
            self.assertEqual(self.of(f"all: b\n{ordered}").warnings(), [])
        own = "all: a b\na b: x\n\tkill -0 $$$$; cat /proc/self/stat > $@.t; rm $@.t; cp x $@\n"
        self.assertEqual(self.of(own).warnings(), [])

    def test_another_root_of_all_files(self) -> None:
        if (
            subprocess.run(
                ["unshare", "--user", "--map-root-user", "--mount", "true"], check=False
            ).returncode
            != 0
        ):
            self.skipTest("no namespace is allowed")
        said = self.refused("out:\n\tunshare --user --map-root-user --mount true; echo > out\n")
        self.assertIn(
            "the recipe of out calls unshare with CLONE_NEWNS, mount: after that its paths", said
        )

    @compiled
    def test_calls_that_strace_does_not_see(self) -> None:
        """A copy of a tree of files, and a filter that lets calls pass before strace does."""
        tree = 'syscall(428, -100, ".", 1)'
        program = (
            "#include <linux/filter.h>\n#include <linux/seccomp.h>\n#include <sys/prctl.h>\n"
            "#include <unistd.h>\n"
            "int main(void) {\n"
            "    struct sock_filter f = BPF_STMT(BPF_RET | BPF_K, SECCOMP_RET_ALLOW);\n"
            "    struct sock_fprog p = {1, &f};\n"
            "    prctl(PR_SET_NO_NEW_PRIVS, 1, 0, 0, 0);\n"
            "    return CALL < 0;\n"
            "}\n"
        )
        listens = "syscall(317, SECCOMP_SET_MODE_FILTER, SECCOMP_FILTER_FLAG_NEW_LISTENER, &p)"
        for call, name in (
            (tree, "open_tree"),
            (listens, "seccomp with SECCOMP_FILTER_FLAG_NEW_LISTENER"),
        ):
            (self.folder / "q.c").write_text(program.replace("CALL", call))
            done = subprocess.run(
                ["cc", "-o", "p", "q.c"], cwd=self.folder, capture_output=True, check=False
            )
            if done.returncode or subprocess.run([self.folder / "p"], check=False).returncode:
                continue
            said = self.refused("out: p\n\t./p; cp p out\n")
            self.assertIn(f"the recipe of out calls {name}: after that its paths", said)

    def test_strace_that_is_killed(self) -> None:
        self.write({"makefile": "out:\n\techo > out; kill -9 $$PPID; sleep 1; echo > late\n"})
        outcome = self.record()
        self.assertEqual((outcome.status, outcome.book), (2, None))
        self.assertIn(
            "the trace ends before the command does: strace was killed, or couldn't go on",
            outcome.errors,
        )


@traced
class LateTest(Refusals):
    """Files that other recipes make later, where a recipe listed a folder or looked for one."""

    replays = True

    def setUp(self) -> None:
        super().setUp()
        if places.namespace() is None:
            self.skipTest("no mount namespace is allowed")

    def test_files_that_are_used(self) -> None:
        late = "list: x\n\tWAY\nd/b.txt: x\n\tmkdir -p d; cp x d/b.txt\n"
        for way, folder in (
            ("ls d > list", "d"),
            ("cat d/*.txt > list 2>/dev/null || cp x list", "d"),
            ("find d -name '*.txt' -print0 | xargs -0r cat > list", "d"),
            ("find . -type d > list", ""),
            ("cp x list; test ! -d d || echo 2 > list", ""),
        ):
            shutil.rmtree(self.folder / "d", ignore_errors=True)
            files = {"x": "1\n", **({f"{folder}/.keep": ""} if folder else {})}
            outcome = self.of("all: list d/b.txt\n" + late.replace("WAY", way), files)
            self.assertEqual(outcome.own("list"), ({"x", "d/b.txt"} - self.unread(way), {"list"}))
            self.assertEqual(
                outcome.warnings(),
                [
                    "the recipe of list does something else where d/b.txt is there, which the"
                    " recipe of d/b.txt makes later: with several jobs, or in another make, it is"
                    " there, so it counts as read; let list need d/b.txt, and record again"
                ],
                way,
            )
            self.assertIn("no race list d/b.txt d/b.txt", self.check())
            # As the warning says.
            mended = "all: list\n" + late.replace("WAY", way).replace("list: x", "list: x d/b.txt")
            outcome = self.of(mended, files)
            self.assertEqual(outcome.warnings(), [], way)
            self.assertEqual(self.check()[0][:3], "yes", way)

    def unread(self, way: str) -> set[str]:
        """What a way of using files doesn't read."""
        return set() if "cp x" in way else {"x"}

    def test_files_that_are_not_used(self) -> None:
        outcome = self.of(
            "all: b d/c.o d/e/f.c\nb: d/a.c\n\tcat d/*.c > b; find . -name '*.none' >> b\n"
            "\ttest -d g || cat d/*.c > b\n"
            "d/c.o: x\n\tcp x d/c.o\nd/e/f.c: x\n\tmkdir -p d/e g; cp x g/f.c; cp x d/e/f.c\n",
            {"x": "", "d/a.c": "1\n"},
        )
        self.assertEqual(outcome.own("b"), ({"d/a.c"}, {"b"}))
        self.assertEqual((outcome.warnings(), self.check()[0][:3]), ([], "yes"))

    def test_files_that_are_taken_away(self) -> None:
        for way in ("rm -f d/*.txt", "for f in d/*; do test -s $$f && cp x $$f; done; :"):
            outcome = self.of(
                f"all: b d/b.txt\nb: x\n\tcp x d/a.txt; {way}; cp x b\n"
                "d/b.txt: x\n\tcp x d/b.txt\n",
                {"x": "1\n", "d/.keep": ""},
            )
            self.assertIn("d/b.txt", outcome.own("b")[1], way)
            self.assertIn(
                "the recipe of b would write or take away d/b.txt, which that of d/b.txt uses too:"
                " with several jobs they destroy each other's, so it counts as written by each",
                outcome.warnings(),
            )
            self.assertIn("no writers b d/b.txt d/b.txt", self.check())

    def test_files_in_a_folder_that_it_makes(self) -> None:
        """A recipe asks whether a folder is there, and makes it."""
        other = "d/b.txt: y\n\tmkdir -p d\n\tcp y d/b.txt\n"
        for way in (
            "if test -d d; then rm -r d; fi; mkdir -p d",
            "[ ! -d d ] || mv d d.old; rm -rf d.old; mkdir -p d",
            "[ -d d ] && rm -r d || true; mkdir d",
            "if cd d 2>&-; then rm -f *; cd ..; fi; mkdir -p d",
            "mkdir d 2>&- || rm -f d/*",
            "mkdir d.new; test ! -d d || rm -r d; mv d.new d",
        ):
            files = {"x": "1\n", "y": "2\n"}
            outcome = self.of(f"all: d/a d/b.txt\nd/a: x\n\t{way}\n\tcp x d/a\n{other}", files)
            self.assertEqual(outcome.own("d/a"), ({"x"}, {"d/a", "d/b.txt"}), way)
            self.assertIn("no writers d/a d/b.txt d/b.txt", self.check(), way)
        listing = "if test -d d; then cat d/*.txt; fi > e || :; mkdir -p d; mv e d/a"
        for rule in (f"d/a: x\n\t{listing}\n", "d/a:\n\tmkdir d && echo > d/a\n"):
            outcome = self.of(f"all: d/a d/b.txt\n{rule}{other}", files)
            self.assertIn("d/b.txt", outcome.own("d/a")[0], rule)
            self.assertIn("no race d/a d/b.txt d/b.txt", self.check(), rule)

    def test_a_folder_that_it_makes_and_whose_files_it_leaves(self) -> None:
        other = "d/b.txt: y\n\ttest -d d || mkdir -p d\n\tcp y d/b.txt\n"
        for way in ("mkdir -p d", "test -d d || mkdir d", "mkdir d 2>&- || :", "install -d d"):
            outcome = self.of(
                f"all: d/a d/b.txt\nd/a: x\n\t{way}\n\tcp x d/a\n{other}", {"x": "", "y": ""}
            )
            self.assertEqual(outcome.own("d/a"), ({"x"}, {"d/a"}), way)
            self.assertEqual((outcome.warnings(), self.check()[0][:3]), ([], "yes"), way)

    def test_a_folder_that_is_made_before_its_files(self) -> None:
        """Where no make makes it again, those that wait for it are never there."""
        outcome = self.of(
            "all: d/b.txt\nmade:\n\tmkdir d\n\ttouch made\nd/b.txt: y made\n\tcp y d/b.txt\n",
            {"y": ""},
        )
        self.assertEqual(outcome.own("made"), (set(), {"made"}))
        self.assertNotIn("counts as", outcome.errors)
        self.assertEqual(self.check()[0][:3], "yes")

    def test_files_of_recipes_before(self) -> None:
        """A recipe that looks at what it needs is recorded to read it, if the replay needs it."""
        flag = "flag: x\n\tcp x flag\n"
        for way, reads in (
            ("if test -e flag; then cp x b; else cp y b; fi", {"x", "flag"}),
            ("test -e flag || :; cp y b", {"y"}),
            ("ls . | grep flag && cp y b", {"y", "flag"}),
        ):
            outcome = self.of(f"b: x y flag\n\t{way}\n{flag}", {"x": "1\n", "y": "2\n"})
            self.assertEqual(outcome.own("b"), (reads, {"b"}), way)
            self.assertEqual((outcome.warnings(), self.check()[0][:3]), ([], "yes"), way)
            outcome = self.of(f"all: flag b\nb: x y\n\t{way}\n{flag}")
            self.assertEqual(outcome.own("b"), (reads, {"b"}), way)
            self.assertEqual("no race b flag flag" in self.check(), "flag" in reads, way)

    def test_scratch_files_that_are_there_for_a_moment(self) -> None:
        """It doesn't matter which of the two recipes comes first."""
        told = (
            "the recipe of a does something else where t.c is there, which the recipe of b makes"
            " and takes away: with several jobs it is there, so it counts as read; let a need b,"
            " and record again"
        )
        maker = "b: y\n\tcp y t.c; cat t.c > b; rm t.c\n"
        for way in (
            "cat *.c > a",
            "ls | sed -n /^t/p > a; cat m.c >> a",
            "find . -name 't*' > a; cat m.c >> a",
        ):
            for goals in ("a b", "b a"):
                user = f"a: m.c\n\t{way}\n"
                outcome = self.of(f"all: {goals}\n{user}{maker}", {"m.c": "1\n", "y": "2\n"})
                self.assertIn(told, outcome.warnings(), (way, goals))
                self.assertIn("t.c", outcome.own("a")[0], (way, goals))
                self.assertIn("t.c", outcome.own("b")[1], (way, goals))
                self.assertIn("no race a b t.c", self.check(), (way, goals))
            for mended in (
                f"all: a\n{user}{maker}".replace("a: m.c", "a: m.c b"),
                f"all: b\n{user}{maker}".replace("b: y", "b: y a"),
                f".NOTPARALLEL:\nall: b a\n{user}{maker}",
            ):
                outcome = self.of(mended)
                self.assertNotIn("t.c", outcome.own("a")[0] | outcome.own("b")[1], mended)
                self.assertEqual(self.check()[0][:3], "yes", mended)

    def test_scratch_files_that_are_taken_away(self) -> None:
        rules = "".join(f"{name}: x\n\tcp x {name}.t; cp {name}.t {name}; WAY\n" for name in "ab")
        for way in ("rm -f *.t", "find . -name '*.t' -delete", "for f in *.t; do rm $$f; done"):
            outcome = self.of("all: a b\n" + rules.replace("WAY", way), {"x": "1\n"})
            self.assertEqual(outcome.own("a")[1], {"a", "a.t", "b.t"}, way)
            self.assertIn("no writers a b a.t", self.check(), way)
            outcome = self.of("all: b\n" + rules.replace("WAY", way).replace("b: x", "b: x a"))
            self.assertEqual(outcome.own("a")[1], {"a"}, way)
            self.assertEqual((outcome.warnings(), self.check()[0][:3]), ([], "yes"), way)
        for way in ("rm -f $@.*", "rm -f $@.t; ls *.none || :"):
            outcome = self.of("all: a b\n" + rules.replace("WAY", way), {"x": "1\n"})
            self.assertEqual((outcome.warnings(), self.check()[0][:3]), ([], "yes"), way)

    def test_folders_without_files(self) -> None:
        maker = "made: x\n\tmkdir -p d; cp x made\n"
        for way in (
            "if test -d d; then echo 1; else echo 2; fi > a; cat x >> a",
            "find . -type d > a; cat x >> a",
            "ls -p | grep / > a || cp x a",
            "cp x a; cd d && cp ../x ../a.2 || :",
        ):
            outcome = self.of(f"all: a made\na: x\n\t{way}\n{maker}", {"x": "1\n"})
            self.assertIn("d", outcome.own("a")[0], way)
            self.assertEqual(outcome.own("made"), ({"x"}, {"d", "made"}), way)
            self.assertIn("no race a made d", self.check(), way)
            outcome = self.of(f"all: a\na: x made\n\t{way}\n{maker}")
            self.assertEqual((outcome.warnings(), self.check()[0][:3]), ([], "yes"), way)
        for way in ("test -d d || cp x a; cp x a", "ls > l; rm l; cp x a", "mkdir -p d; cp x a"):
            outcome = self.of(f"all: a made\na: x\n\t{way}\n{maker}")
            self.assertEqual((outcome.warnings(), self.check()[0][:3]), ([], "yes"), way)

    def test_a_listing_that_is_not_tested(self) -> None:
        makefile = "all: list d/b\nlist: x\n\tls d > list\nd/b: x\n\tcp x d/b\n"
        outcome = self.of(makefile, {"x": "", "d/.keep": ""}, "--no-replay")
        self.assertEqual(
            outcome.warnings(),
            [
                "the recipe of list listed folders, or looked for some, in which other recipes make"
                " files later, such as d/b: nothing tests whether it uses these"
            ],
        )


@traced
class GlanceTest(Refusals):
    """Files at which a recipe looks, and that it doesn't read: their sizes and stamps."""

    replays = True

    def setUp(self) -> None:
        super().setUp()
        if places.namespace() is None:
            self.skipTest("no mount namespace is allowed")

    def test_files_of_recipes_before(self) -> None:
        maker = "e: y\n\tgrep none y > e || :\n"
        script = "import os\ntry:\n    n = os.fstat(os.open('e', os.O_PATH)).st_size\n"
        script += "except OSError:\n    n = 0\nprint(n)\n"
        python = os.path.realpath(sys.executable)
        fixed = ("--fixed", os.path.dirname(os.path.dirname(python)))
        for way in (
            "if test -s e; then echo 1; else echo 2; fi > a; cat x >> a",
            f"{python} -IB p > a; cat x >> a",
        ):
            rules = f"a: x p\n\t{way}\n{maker}"
            outcome = self.of(f"all: e a\n{rules}", {"x": "1\n", "y": "2\n", "p": script}, *fixed)
            self.assertIn("e", outcome.own("a")[0], way)
            self.assertIn("no race a e e", self.check(), way)
            outcome = self.of("all: a\n" + rules.replace("x p", "x p e"), None, *fixed)
            self.assertIn("e", outcome.own("a")[0], way)
            self.assertEqual(self.check()[0][:3], "yes", way)

    def test_stamps_of_files_of_recipes_before(self) -> None:
        """After an edit of x it is newer than e; in a clean build it is older."""
        way = "if test e -ot x; then echo 1; else echo 2; fi > a; cat x >> a"
        front = "the recipe of a, run where the files that it reads have their stamps in another"
        for rules in ("all: e a\na: x\n", "all: a\na: x e\n"):
            said = self.refused(f"{rules}\t{way}\ne:\n\techo > e\n", {"x": "1\n"})
            self.assertIn(f"mkcheck-record: {front} order, writes a with other contents", said)
            self.assertIn('\n\tline 1 was "2"\n\tline 1 is  "1"\n', said)
        # As long as e is made from x, it is never older.
        outcome = self.of(f"all: a\na: x e\n\t{way}\ne: x\n\techo > e\n")
        self.assertEqual((outcome.warnings(), self.check()[0][:3]), ([], "yes"))

    def test_sources(self) -> None:
        self.write({"x": "1\n", "y.log": "2\n", "z.log": "", "e": ""})
        for number, name in enumerate(("z.log", "y.log", "e")):
            os.utime(self.folder / name, (1e9 + number, 1e9 + number))
        for way, looked in (
            ("if test -s e; then cp y.log a; else cp x a; fi", "e"),
            ("if test z.log -nt e; then echo 1; else cp x a; fi", "e, z.log"),
            ("cp `ls -t *.log | head -n 1` a", "z.log"),
        ):
            said = self.refused(f"a: x y.log\n\t{way}\n")
            front = "the recipe of a, run where the files at which it only looks have other sizes"
            self.assertIn(f"mkcheck-record: {front} and stamps, ", said, way)
            self.assertIn("it depends on the size, the stamp or the names of a file that it", said)
            self.assertIn(f"\n\tit looks at {looked}\n", said, way)
            outcome = self.of(f"a: x y.log\n\t{way}\n", None, "--trust", "a")
            self.assertIn("and not shown to be right: the recipe of a, run where", outcome.errors)

    def test_sources_that_an_edit_of_others_leaves_behind(self) -> None:
        """The recording finds e newer than x. An edit of x turns that, and one of e turns it back,
        and then a isn't made again."""
        self.write({"x": "1\n", "e": "2\n"})
        for number, name in enumerate(("x", "e")):
            os.utime(self.folder / name, (1e9 + number, 1e9 + number))
        way = "if test x -nt e; then echo 1; else echo 2; fi > a; cat x >> a"
        said = self.refused(f"a: x\n\t{way}\n")
        self.assertIn("where the files at which it only looks have other sizes and stamps, ", said)
        self.assertIn("\n\tit looks at e\n", said)
        outcome = self.of(f"a: x e\n\t{way}; cat e >> a\n")
        (told,) = outcome.warnings()
        self.assertIn("where the sources that it reads have other stamps in another order", told)
        self.assertEqual(self.check()[0][:3], "yes")

    def test_files_that_are_always_older(self) -> None:
        """As javac asks whether a class is newer than its source."""
        rules = "o: c\n\tcp c o\np: o\n\tcp o p\n"
        for needed, way in (
            ("o", "test ! c -nt o && cat o > a"),
            ("p", "test ! o -nt p && cat p > a"),
            ("p", "test ! c -nt o && test ! o -nt p && cat p > a"),
        ):
            outcome = self.of(f"a: {needed}\n\t{way}\n{rules}", {"c": "1\n"})
            self.assertEqual((outcome.warnings(), self.check()[0][:3]), ([], "yes"), way)
        self.refused("a: o\n\ttest ! d -nt o && cat o > a\no: c\n\tcp c o\n", {"d": "1\n"})

    def test_files_on_which_nothing_depends(self) -> None:
        rules = "all: e a\na: x\n\tWAY\ne: y\n\tcp y e\n"
        for way in (
            "test -f e || :; cp x a",
            "ls -l > l; rm l; cp x a",
            "find . -name '*.none' > l; rm l; cp x a",
            "for f in *; do test -s $$f || :; done; cp x a",
        ):
            outcome = self.of(rules.replace("WAY", way), {"x": "1\n", "y": "2\n"})
            self.assertEqual((outcome.own("a"), outcome.warnings()), (({"x"}, {"a"}), []), way)
            self.assertEqual(self.check()[0][:3], "yes", way)


@traced
class ReplayedTest(Refusals):
    """What no trace shows, but the replay does."""

    replays = True

    def setUp(self) -> None:
        super().setUp()
        if places.namespace() is None:
            self.skipTest("no mount namespace is allowed")

    def test_an_interpreter_of_a_script_that_is_gone(self) -> None:
        shutil.copy(os.path.realpath(shutil.which("echo") or "/bin/echo"), self.folder / "i")
        said = self.refused("out: i\n\tprintf '#!./i\\n' > t; chmod 755 t; ./t > out; rm t\n")
        self.assertIn("the recipe of out, run in a folder that holds only what it is", said)

    @unittest.skipUnless(shutil.which("make"), "no make")
    def test_a_make_that_leaves_files_alone(self) -> None:
        said = self.refused(
            "out: a\n\tmake -s -f sub.mk out\n",
            {"sub.mk": "out: a\n\tcp a out\n", "a": ""},
            *("--opaque", "out"),
        )
        self.assertIn("run where its own outputs are already there, doesn't write out anew", said)

    def test_a_shared_scratch_file_is_no_output(self) -> None:
        outcome = self.of("all: a b\na: x\n\tcp x t; mv t a\nb: x\n\tcp x t; mv t b\n", {"x": ""})
        self.assertEqual((outcome.own("a")[1], outcome.own("b")[1]), ({"a", "t"}, {"b", "t"}))

    def test_links_of_the_project(self) -> None:
        (self.folder / "i").symlink_to("s")
        outcome = self.of("out: s/x\n\tcat i/x > out; cd i; cat x >> ../out\n", {"s/x": "1\n"})
        self.assertEqual(outcome.own("out"), ({"s/x"}, {"out"}))


def left_with(text: str) -> list[str]:
    """The command lines of processes that hold a text, after some time for killed ones to end. It
    is far less than what they would sleep."""
    wait_for(lambda: not processes_with(text), 120)
    return processes_with(text)


def processes_with(text: str) -> list[str]:
    """The command lines of processes that hold a text."""
    found = []
    for number in filter(str.isdigit, os.listdir("/proc")):
        try:
            with open(f"/proc/{number}/cmdline", "rb") as file:
                line = file.read().decode("utf-8", "replace").replace("\0", " ")
        except OSError:
            continue
        if text in line:
            found.append(line)
    return found


if __name__ == "__main__":
    unittest.main()
