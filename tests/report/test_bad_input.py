"""Odd names are escaped everywhere, and what is missing is told in one sentence."""

from __future__ import annotations

import json
import os
import subprocess
import sys

from report.project import MKCHECK, REPORT, ReportTest

MARKUP = "x<script>alert(1)</script>&\"'.h"
TURNED = "a\u202eb\u2028.h"
LONG = "n" * 4096
STAND_IN = """\
#!/bin/sh
case "$1" in
--version) echo mkcheck 0.9.9 ;;
check) {check} ;;
*) {then} ;;
esac
"""
YES = """\
{"answer":"yes","certificate":{"format":1,"goals":[],"ways":[]},"format":1,"reads":0,"recipes":0}"""


class NamesTest(ReportTest):
    """Names that footprints may hold."""

    def setUp(self) -> None:
        super().setUp()
        names = [MARKUP, TURNED, LONG]
        self.build(
            "a.o: a.c\n\tcc -c a.c\n",
            [("a.o", ["cc -c a.c"], ["a.c", *names], ["a.o"])],
            ["a.c", *names],
        )

    def test_page(self) -> None:
        """No name is markup, none turns the text, and all show."""
        page = self.page(1)
        self.assertNotIn("<script>alert", self.raw)
        self.assertEqual(page.tags.count("script"), 1)
        for mark in ("\u202e", "\u2028"):
            self.assertNotIn(mark, self.raw)
        self.assertIn("a<U+202E>b<U+2028>.h", page.text)
        self.assertIn(MARKUP, page.text)
        self.assertLess(len(self.raw), 200_000)

    def test_sarif(self) -> None:
        """In messages all characters show; the log is ASCII."""
        outcome = self.report("--sarif")
        self.assertEqual(outcome.status, 1)
        self.assertTrue(outcome.output.isascii())
        log = json.loads(outcome.output)
        texts = " ".join(one["message"]["text"] for one in log["runs"][0]["results"])
        self.assertNotIn("\u202e", texts)
        self.assertLess(max(map(len, texts.split("\n"))), 15_000)

    def test_dot(self) -> None:
        """Names are quoted, with entities and without marks that turn the text."""
        outcome = self.report("--dot")
        self.assertEqual(outcome.status, 0)
        quoted = "x&lt;script&gt;alert(1)&lt;/script&gt;&amp;\\\"'.h"
        self.assertIn(f'label="{quoted}"', outcome.output)
        self.assertIn('label="a&lt;U+202E&gt;b&lt;U+2028&gt;.h"', outcome.output)
        self.assertIn(f'label="{LONG}"', outcome.output)

    def test_makefile_that_is_no_utf8(self) -> None:
        """Bytes that aren't UTF-8 show by their numbers."""
        (self.folder / "makefile").write_bytes(b"a.o: a.c # \xff\n\tcc -c a.c\n")
        self.assertIn("# <FF>", self.page(1).text)

    def test_goal(self) -> None:
        """A goal that is markup is refused, and shown."""
        page = self.page(2, "<b>&x")
        self.assertIn("<b>&x", page.text)
        self.assertNotIn("<b>", self.raw)


class MissingTest(ReportTest):
    """Each fault is one sentence with status 2, and leaves no report."""

    def setUp(self) -> None:
        super().setUp()
        self.race()

    def stand_in(self, check: str, then: str = "exit 2") -> str:
        """A program that answers `check` by a script, and by another one what else is asked."""
        text = STAND_IN.replace("{check}", check).replace("{then}", then)
        path = self.write("stand-in", text)
        path.chmod(0o755)
        return str(path)

    def test_no_program(self) -> None:
        """There is no such program."""
        said = self.fault(program="/nonexistent/mkcheck")
        self.assertEqual(
            said, "mkcheck isn't there as /nonexistent/mkcheck: set MKCHECK to its path"
        )

    def test_old_program(self) -> None:
        """A program without `check --json`."""
        program = self.stand_in("echo \"error: unexpected argument '--json' found\" >&2; exit 2")
        said = self.fault(program=program)
        self.assertEqual(
            said,
            f"{program} has no `check --json`; install the mkcheck of the release that these tools"
            " come from",
        )

    def test_other_program(self) -> None:
        """A program that can't be run."""
        path = self.write("text", "\0\0")
        path.chmod(0o755)
        self.assertIn("can't be run", self.fault(program=str(path)))

    def test_program_dies(self) -> None:
        """A program that a signal stops, that has no memory, or that is another one."""
        for check, said in (
            ("kill -9 $$", "was stopped by SIGKILL"),
            ("echo want of memory >&2; exit 3", "ran out of memory"),
            ("exit 9", "isn't mkcheck: its status is 9"),
            ("echo frob >&2; exit 2", "check: frob"),
        ):
            self.assertIn(said, self.fault(program=self.stand_in(check)), check)

    def test_other_answers(self) -> None:
        """A program that prints no answer, or one of another form."""
        for text, said in (
            ("", "printed nothing"),
            ("nonsense", "printed no JSON, but 'nonsense'"),
            ("[]", "printed no JSON object"),
            ('{"format":2,"answer":"yes"}', "answers in form 2, and these tools read form 1"),
            ('{"answer":"yes"}', "in which format is no number"),
            ('{"format":1,"answer":"no"}', "answers 'no' with status 0"),
            (YES.replace('"reads":0', '"reads":"0"'), "in which reads is no number"),
            (YES.replace('"ways":[]', '"ways":[0]'), "in which ways is no list of objects"),
        ):
            said_all = self.fault(program=self.stand_in(f"printf '%s' '{text}'; exit 0"))
            self.assertIn(said, said_all)
            self.assertTrue(said_all.endswith("; install the mkcheck of the release that these"
                                              " tools come from"), said_all)

    def test_other_graphs(self) -> None:
        """A program that answers, and then has no graph."""
        for then, said in (
            ("echo nonsense; exit 1", "refuses the graph of a build that it checks; install the"),
            ("echo goals; exit 0", "mkcheck graph printed no goals"),
        ):
            program = self.stand_in(f"echo '{YES}'; exit 0", then)
            self.assertIn(said, self.fault(program=program), then)

    def test_unwritable(self) -> None:
        """There is no such folder, or the name is a folder's."""
        said = self.fault("-o", "none/report.html")
        self.assertEqual(said, "none/report.html can't be written: No such file or directory")
        (self.folder / "made").mkdir()
        self.assertEqual(self.fault("-o", "made"), "made can't be written: Is a directory")
        self.assertEqual(sorted(os.listdir(self.folder)), ["B", "made", "makefile"])

    def test_judged_file(self) -> None:
        """The makefile and the footprints aren't written over."""
        for name in ("makefile", "B", "./B"):
            self.assertIn("is a file that is judged", self.fault("-o", name))

    def test_full(self) -> None:
        """Standard output can't be written."""
        if not os.path.exists("/dev/full"):
            self.skipTest("no /dev/full")
        script = f"exec {sys.executable} -B {REPORT} -b B --dot > /dev/full"
        done = subprocess.run(
            ["/bin/sh", "-c", script],
            cwd=self.folder,
            env={**os.environ, "MKCHECK": MKCHECK},
            capture_output=True,
            text=True,
            check=False,
        )
        self.assertEqual(done.returncode, 2)
        self.assertEqual(
            done.stderr,
            "mkcheck-report: standard output can't be written: No space left on device\n",
        )

    def test_pipe(self) -> None:
        """Footprints that can be read only once."""
        os.mkfifo(self.folder / "pipe")
        self.assertIn("pipe is no file that can be read several times", self.fault(book="pipe"))

    def test_words(self) -> None:
        """Words that are no words of the command line."""
        outcome = self.report("--sarif", "--dot")
        self.assertEqual((outcome.status, outcome.output), (2, ""))
        self.assertIn("not allowed with", outcome.errors)

    def test_report_stays(self) -> None:
        """A report that is there already stays when a new one can't be made."""
        self.write("report.html", "old")
        outcome = self.report(program="/nonexistent/mkcheck")
        self.assertEqual(outcome.status, 2)
        self.assertEqual((self.folder / "report.html").read_text(), "old")

    def test_no_footprints(self) -> None:
        """Footprints that aren't there, or are no JSON, are refused by mkcheck: that has a page."""
        self.assertIn("refused 38 none", self.page(2, book="none", program=MKCHECK).text)
        self.write("B", "{")
        self.assertIn("refused 51", self.page(2).text)
