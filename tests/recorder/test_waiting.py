"""Processes that a recipe starts, and for which nobody waits."""

from __future__ import annotations

import shutil
import unittest

from recorder.project import ProjectTest, compiled, traced

TOLD = "the recipe of x doesn't wait for the process that writes "
MAIN = "int main(void) { return 0; }\n"
SCRIPT = """#!/bin/sh
echo a > x &
echo b > y
"""


@traced
class WaitingTest(ProjectTest):
    """The doubt that a process may go on when its recipe has ended."""

    def warned(self, command: str, **files: str) -> list[str]:
        """The warnings on a recipe of one command for `x`."""
        self.write({"makefile": f"x:\n\t{command}\n", **files})
        return self.recorded().warnings()

    def doubted(self, command: str, name: str = "x", **files: str) -> None:
        """Nobody waits for who writes this file."""
        self.assertRegex("\n".join(self.warned(command, **files)), f"^{TOLD}{name}: ")

    def passes(self, *commands: str, **files: str) -> None:
        """There is nothing to say of these commands."""
        for command in commands:
            with self.subTest(command):
                self.assertEqual(self.warned(command, **files), [])

    def test_it_ended_while_the_shell_waited_for_another_one(self) -> None:
        self.doubted("echo a > x & sleep 0.5")

    def test_who_started_it_ended_before(self) -> None:
        self.doubted("((sleep 0.1; echo a > x) &); sleep 0.6")

    def test_it_writes_to_what_the_shell_opened(self) -> None:
        self.doubted("exec 3> x; (sleep 0.1; echo a >&3) & sleep 0.6")

    def test_it_makes_a_link(self) -> None:
        self.doubted("ln -s b x & sleep 0.5")

    def test_the_shell_waited_only_before(self) -> None:
        self.doubted("sleep 0 & wait; echo a > x & sleep 0.5")

    def test_a_script_starts_it(self) -> None:
        self.doubted("./s; sleep 0.3", s=SCRIPT)

    def test_it_ended_while_the_shell_of_a_script_waited_for_another_one(self) -> None:
        for shell in ("sh", "bash"):
            if shutil.which(shell):
                with self.subTest(shell):
                    self.doubted("./s", s=f"#!/bin/{shell}\necho a > x &\nsleep 0.5\n")

    def test_another_program_starts_it(self) -> None:
        start = "import subprocess, time; subprocess.Popen([\"touch\", \"x\"]); time.sleep(0.5)"
        self.doubted(f"python3 -c '{start}'")

    @unittest.skipUnless(shutil.which("bash"), "no bash")
    def test_a_substitution_of_a_process_writes_a_file(self) -> None:
        self.doubted("bash -c 'echo a | tee >(cat > x) > y'; sleep 0.5")

    def test_the_shell_waits(self) -> None:
        self.passes(
            "echo a > x & wait",
            "echo a > x & echo b > y & wait",
            "echo a > x & sleep 0.3; wait",
            "echo a > x & pid=$$!; sleep 0.3; wait $$pid",
        )

    def test_a_script_waits(self) -> None:
        self.passes("./s", s=SCRIPT + "wait\n")

    def test_pipelines_and_substitutions(self) -> None:
        self.passes(
            "echo a | tee x | cat > y",
            "(echo b > y; echo a) | (sleep 0.1; cat > x)",
            "yes | head -n 1 > x",
            "echo $$(echo b > y; echo a) > x",
        )

    @unittest.skipUnless(shutil.which("bash"), "no bash")
    def test_substitutions_of_processes_that_write_no_file(self) -> None:
        self.passes(
            "bash -c 'cat <(echo a) > x'",
            "bash -c 'echo a | tee >(cat >&2) > x'; sleep 0.3",
        )

    def test_programs_that_wait_for_all_that_they_start(self) -> None:
        self.passes(
            "printf '1 2 3' | xargs -n 1 -P 2 touch; touch x",
            "python3 -c 'import subprocess; subprocess.run([\"touch\", \"x\"])'",
            "timeout 60 touch x",
            "echo a | awk '{ print | \"cat > x\" }'",
        )

    def test_a_pipeline_whose_first_part_reads_nothing(self) -> None:
        self.passes("sort -o x makefile < /dev/null 2>&1 | cat > y")

    @compiled
    def test_compilers(self) -> None:
        self.passes("cc -pipe -o x a.c", **{"a.c": MAIN})

    def test_a_process_that_is_ended_or_asked_for(self) -> None:
        self.passes(
            "(echo a > y; exec sleep 60) & sleep 0.3; kill $$!; echo b > x",
            "(sleep 0.2; touch x) & while kill -0 $$! 2> /dev/null; do sleep 0.1; done",
        )

    def test_a_process_that_has_ended_when_the_shell_asks_for_it_first(self) -> None:
        self.passes("touch x & p=$$!; sleep 0.5; while kill -0 $$p 2> /dev/null; do :; done")

    def test_it_writes_nothing_that_stays(self) -> None:
        self.passes("sleep 0.1 & echo a > x; sleep 0.5", "(touch t; rm t) & sleep 0.5; echo a > x")
