"""Builds whose makefiles know more after a build, or that are there in part already."""

from __future__ import annotations

from importer.make_folder import MakeFolderTest, can_judge
from waits import found_once, wait_for_later_stamps

# Compiles by hand: the object holds the source and what it includes, and the .d file names these.
CC = """#!/bin/sh
# cc SOURCE OBJECT: includes the files that the source names.
files=$(sed -n 's/^include //p' "$1")
cat "$1" $files > "$2"
{ printf '%s: %s' "$2" "$1"; for f in $files; do printf ' %s' "$f"; done; echo; } > "${2%.o}.d"
"""


@can_judge
class DependencyFilesTest(MakeFolderTest):
    """Dependency files that the build writes, and make includes."""

    def test_header(self) -> None:
        self.write(
            {
                "Makefile": "prog: a.o b.o\n\tcat a.o b.o > prog\n"
                "%.o: %.in cc\n\t./cc $< $@\n-include a.d b.d\n",
                "a.in": "include h\n",
                "b.in": "b\n",
                "h": "h\n",
                "cc": CC,
            }
        )
        answer = self.imported()
        self.assertEqual(answer.status, 0, answer.output + answer.errors)
        self.assertNotIn("a.in cc h", answer.first)
        self.assertIn("a.o: a.in cc h\n", answer.makefile)
        self.assertIn("two passes", answer.errors)
        self.try_answer(answer)

    def test_generated_header(self) -> None:
        """A race in a first build, and no stale read."""
        self.write(
            {
                "Makefile": "all: h a.o\n.PHONY: all\nh: h.in\n\tcp h.in h\n"
                "%.o: %.in cc\n\t./cc $< $@\n-include a.d\n",
                "a.in": "include h\n",
                "h.in": "h\n",
                "cc": CC,
            }
        )
        answer = self.imported()
        self.assertEqual(answer.status, 1, answer.output + answer.errors)
        self.assertEqual(answer.findings, ["no race a.o h h"])
        self.assertIn("(in a first build, when no dependency file is there yet)", answer.output)
        self.assertIn("Add to Makefile:\n    a.o: h\n", answer.output)
        self.assertEqual([line for line in answer.lines if line.startswith("no ")], [])
        self.try_answer(answer)

    def test_generated_header_that_is_order_only(self) -> None:
        """It comes before the first build, and when it changes the dependency file tells."""
        for rule in ("%.o: %.in cc | h\n", "a.o: a.in cc | h\n"):
            self.write(
                {
                    "Makefile": "all: h a.o\n.PHONY: all\nh: h.in\n\tcp h.in h\n"
                    f"{rule}\t./cc $< $@\n-include a.d\n",
                    "a.in": "include h\n",
                    "h.in": "h\n",
                    "cc": CC,
                }
            )
            answer = self.imported()
            self.assertEqual(answer.status, 0, answer.output + answer.errors)
            self.assertIn(["a.o", "h", "written", "a.o", "h"], answer.ways)
            self.try_answer(answer)

    def test_generated_header_by_another_spelling(self) -> None:
        """Make waits for no rule by that spelling: with several jobs it looks at the header that is
        there still."""
        self.write(
            {
                "Makefile": "prog: a.o\n\tcp a.o prog\n"
                "a.o: a.in | gen/h\n\tcat a.in gen/h > a.o; echo 'a.o: $(CURDIR)/gen/h' > a.d\n"
                "gen/h: h.in\n\tsleep 0.3; mkdir -p gen; cp h.in gen/h\n-include a.d\n",
                "a.in": "a\n",
                "h.in": "h\n",
            }
        )
        answer = self.imported()
        self.assertEqual(answer.status, 1, answer.output + answer.errors)
        self.assertEqual(answer.findings, ["no stale a.o gen/h"])
        self.assertEqual(found_once(self.edited_by_jobs, "a\nh\n"), "a\nh\n")
        self.mend("a.o: gen/h\n")

    def edited_by_jobs(self) -> str:
        """What two jobs leave after an edit of a source of the header."""
        folder = self.copied("parallel", self.built())
        for name in ("a.d", "a.o"):
            text = (folder / name).read_text().replace(str(self.scratch / "built"), str(folder))
            (folder / name).write_text(text)
        self.make(folder)
        wait_for_later_stamps(folder)
        (folder / "h.in").write_text("i\n")
        self.assertEqual(self.make(folder, "-j2").returncode, 0)
        return (folder / "prog").read_text()

    def test_empty_dependency_file(self) -> None:
        """As Automake's, it is there before the first build, and says nothing."""
        self.write(
            {
                "Makefile": "all: h a.o\n.PHONY: all\nh: h.in\n\tcp h.in h\n"
                "%.o: %.in cc\n\t./cc $< $@\ninclude a.d\n",
                "a.in": "include h\n",
                "h.in": "h\n",
                "a.d": "# dummy\n",
                "cc": CC,
            }
        )
        answer = self.imported()
        self.assertEqual(answer.findings, ["no race a.o h h"])
        self.assertIn("(in a first build, when no dependency file is there yet)", answer.output)

    def test_targets_for_headers(self) -> None:
        """With -MP each header is a target without a rule."""
        self.write(
            {
                "Makefile": "dep = .deps\n"
                "a.o: a.in cc $(dep)/a.d | $(dep)\n"
                "\t./cc $< $@ && { cat a.d; echo; echo 'h:'; } > $(dep)/a.d; rm -f a.d\n"
                "$(dep):; mkdir $@\n$(dep)/a.d:\ninclude $(wildcard $(dep)/*.d)\n",
                "a.in": "include h\n",
                "h": "h\n",
                "cc": CC,
            }
        )
        answer = self.imported()
        self.assertEqual(answer.status, 0, answer.output + answer.errors)
        self.try_answer(answer)

    def test_remade_dependency_files(self) -> None:
        """Where a rule makes the .d files, make reads them in the first build too."""
        self.write(
            {
                "Makefile": "a.o: a.in\n\tcat a.in h > a.o\n"
                "a.d: a.in\n\t{ printf 'a.o:'; sed -n 's/include//p' a.in; } > a.d\n"
                "include a.d\n",
                "a.in": "include h\n",
                "h": "h\n",
            }
        )
        answer = self.imported()
        self.assertEqual(answer.status, 0, answer.output + answer.errors)
        self.assertEqual(answer.first, "")
        self.assertEqual(answer.rules(), "a.o: a.in h\n\tset +e; cat a.in h > a.o\n")
        said = "1 makefile that make makes anew when what it is made from changes (a.d): that is"
        self.assertIn(said, answer.log)
        self.try_answer(answer)

    def test_file_without_include(self) -> None:
        self.write(
            {
                "Makefile": "a.o: a.in cc\n\t./cc $< $@\n",
                "a.in": "include h\n",
                "h": "h\n",
                "cc": CC,
            }
        )
        answer = self.imported()
        self.assertEqual(answer.findings, ["no stale a.o h"])
        self.try_answer(answer)

    def test_list_by_wildcard(self) -> None:
        """Prerequisites that `$(wildcard)` finds in the first build only, and others after it."""
        self.write(
            {
                "Makefile": "all: x y\n.PHONY: all\nx: $(wildcard *.in)\n\tcat a.in > x\n"
                "y: $(wildcard *.out)\n\tcp a.in a.out; cat a.in > y\n",
                "a.in": "a\n",
            }
        )
        answer = self.imported()
        self.assertEqual(answer.findings, ["no stale y a.in"])
        self.try_answer(answer)

    def test_other_rule(self) -> None:
        """What a build makes lets make find another implicit rule."""
        self.write(
            {
                "Makefile": "all: x.o\n.PHONY: all\n"
                "%.o: %.one\n\tcp $< $@\n%.o: %.two\n\tcp $< $@; cp $< $*.one\n",
                "x.two": "x\n",
            }
        )
        answer = self.imported()
        self.assertEqual(answer.status, 2, answer.output + answer.errors)
        self.assertIn("no answer: no recipe could be judged, of 1\n", answer.output)
        self.assertIn("after a build make has another rule for x.o", answer.output)


@can_judge
class ThereAlreadyTest(MakeFolderTest):
    """Files with rules that are there before the build."""

    def test_given(self) -> None:
        """It is taken as it is, but a change of what it is made from reaches what needs it."""
        self.write(
            {
                "Makefile": "x: p.c\n\tcat p.c p.y b > x\np.c: p.y\n\tcp p.y p.c\n",
                "p.y": "p\n",
                "b": "b\n",
            }
        )
        (self.folder / "p.c").write_text("p\n")
        answer = self.imported()
        self.assertEqual(answer.findings, ["no stale x b"])
        self.assertIn("aren't judged (1 file): p.c", answer.output)
        self.assertIn("    1 file (p.c) with rules are there already", answer.output)
        self.assertEqual(answer.status, 1)
        self.try_answer(answer)
        self.assertEqual(self.imported("--keep").status, 1)

    def test_nothing_to_do(self) -> None:
        self.write({"Makefile": "x: a\n\tcp a x\n", "a": "a\n"})
        (self.folder / "x").write_text("a\n")
        answer = self.imported()
        self.assertEqual(answer.status, 2)
        self.assertIn("make has nothing to do", answer.errors)
        self.assertIn("make clean", answer.errors)

    def test_parse_time(self) -> None:
        """What reading the makefile makes is there when the recording begins."""
        self.write(
            {
                "Makefile": "$(shell mkdir -p out; cp version.in version)\n"
                "out/x: a version\n\tcat a version > out/x\n",
                "a": "a\n",
                "version.in": "1\n",
            }
        )
        answer = self.imported()
        self.assertEqual(answer.status, 0, answer.output + answer.errors)

    def test_destructive_makefile(self) -> None:
        """A makefile that removes a source when it is read harms only a copy."""
        self.write({"Makefile": "$(shell rm -f b)\nx: a\n\tcp a x\n", "a": "a\n", "b": "b\n"})
        answer = self.imported()
        self.assertEqual(answer.status, 0, answer.output + answer.errors)

    def test_list_by_shell(self) -> None:
        """Where `make -n` shows other commands than a build runs, those of the build count."""
        self.write(
            {
                "Makefile": "y: x\n\tcat $(shell cat x) > y\nx: a\n\tcp a x\n",
                "a": "b\n",
                "b": "b\n",
            }
        )
        answer = self.imported()
        self.assertEqual(answer.findings, ["no stale y b"])
        self.assertIn("y: x\n\tset +e; cat b > y\n", answer.rules())
        self.assertIn("the commands are those of a real build", answer.log)
        self.try_answer(answer)
