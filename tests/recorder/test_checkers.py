"""How mkcheck is run: what is no reply of it is a fault that says what happened."""

from __future__ import annotations

import os
import tempfile
import unittest
from pathlib import Path

from mkcheck_tools.answers.checkers import Checker
from mkcheck_tools.faults import Fault
from mkcheck_tools.run.paths import resolved
from mkcheck_tools.run.places import Place


class CheckerTest(unittest.TestCase):
    """Programs that stand in for mkcheck."""

    def setUp(self) -> None:
        made = tempfile.TemporaryDirectory()
        self.addCleanup(made.cleanup)
        self.folder = os.path.realpath(made.name)

    def checker(self, script: str, seconds: float | None = None) -> Checker:
        """One that runs a script of the shell in place of mkcheck."""
        path = Path(self.folder, "stand-in")
        path.write_text(f"#!/bin/sh\n{script}\n")
        path.chmod(0o755)
        place = Place.of(resolved(self.folder))
        return Checker(str(path), place, ("-f", "m"), ("A=b", "all"), "B", seconds=seconds)

    def fault(self, script: str, seconds: float | None = None) -> str:
        """What is said where such a program is asked for a graph."""
        with self.assertRaises(Fault) as raised:
            self.checker(script, seconds).ask("graph")
        return str(raised.exception)

    def test_words(self) -> None:
        """The options come first, then the footprints, then what is asked for, and then the words
        of the build."""
        reply = self.checker('pwd; echo "$@"').ask("check", "-w")
        self.assertEqual(reply.lines, [self.folder, "check -f m -b B -w -- A=b all"])

    def test_json(self) -> None:
        """An answer as JSON is asked for in front of the words of the build; a program that doesn't
        know it is one of another release."""
        reply = self.checker('echo "$@"').check()
        self.assertEqual(reply.lines, ["check -f m -b B --json -- A=b all"])
        for said, wanted in (
            ("error: unexpected argument '--json' found", "has no `check --json`; install the "),
            ("error: frob", "stand-in check: error: frob"),
        ):
            with self.assertRaisesRegex(Fault, wanted):
                self.checker(f'echo "{said}" >&2; exit 2').check()

    def test_status(self) -> None:
        """A no and a refusal are replies."""
        for status in (0, 1, 2):
            self.assertEqual(self.checker(f"echo; exit {status}").ask("graph").status, status)

    def test_bytes(self) -> None:
        """Bytes that aren't UTF-8 are kept, and replaced for people."""
        reply = self.checker("printf 'a\\377\\n'").ask("graph")
        self.assertEqual(reply.output, b"a\xff\n")
        self.assertEqual((reply.lines, reply.shown), (["a\udcff"], "a\ufffd\n"))

    def test_makefile(self) -> None:
        """The makefile is the one that is named; else makefile where there is one, else
        Makefile."""
        checker = self.checker("")
        self.assertEqual(checker.makefile, "m")
        plain = Checker(checker.program, checker.place)
        self.assertEqual(plain.makefile, "Makefile")
        Path(self.folder, "makefile").touch()
        self.assertEqual(plain.makefile, "makefile")

    def test_faults(self) -> None:
        """A program that is killed, has no memory, takes other words, or is another one."""
        program = f"{self.folder}/stand-in"
        for script, said in (
            ("kill -9 $$", f"{program} graph was stopped by SIGKILL; try it by itself"),
            ("exit 3", f"{program} graph ran out of memory; give it more"),
            ("echo 'no -b'; echo more >&2; exit 2", None),
            ("echo 'no -b' >&2; echo more >&2; exit 2", f"{program} graph: no -b"),
            ("exit 2", f"{program} graph: no answer"),
            ("exit 9", f"{program} isn't mkcheck: its status is 9"),
        ):
            if said is None:
                self.assertEqual(self.checker(script).ask("graph").status, 2)
            else:
                self.assertEqual(self.fault(script), said)

    def test_explanations(self) -> None:
        """What mkcheck doesn't explain has an empty text: it says so on standard error alone."""
        known = self.checker("echo 'stale: it stays old'; echo; echo more")
        self.assertEqual(known.explain("stale"), "stale: it stays old\n\nmore")
        self.assertEqual(known.explained("stale")[0], "it stays old")
        for script in ("echo 'error: no word' >&2; exit 2", "echo 'no word'; exit 2", "exit 2"):
            unknown = self.checker(script)
            self.assertEqual(unknown.explain("frob"), "")
            self.assertEqual(unknown.explained("frob"), ("frob", ""))
        with self.assertRaisesRegex(Fault, "explain ran out of memory"):
            self.checker("exit 3").explain("stale")

    def test_time(self) -> None:
        """A program that goes on for longer than it may is stopped."""
        said = self.fault("exec sleep 60", 0.2)
        self.assertEqual(
            said, f"{self.folder}/stand-in graph gave no answer in 0.2 seconds; try it by itself"
        )

    def test_no_program(self) -> None:
        """A program that isn't there, or is none."""
        checker = self.checker("")
        Path(checker.program).write_text("\0\0")
        for program in (checker.program, f"{self.folder}/none"):
            with self.assertRaisesRegex(Fault, f"^{program} can't be run: "):
                Checker(program, checker.place).run("--version")
