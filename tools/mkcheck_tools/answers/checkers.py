"""The program mkcheck: where it is, what it is asked about, and its replies."""

from __future__ import annotations

import os
import shutil
import signal
import subprocess
from collections.abc import Mapping
from dataclasses import dataclass
from pathlib import Path

from mkcheck_tools.faults import Fault
from mkcheck_tools.run.places import Place, refuse_unentered

NO, REFUSED, NO_MEMORY = 1, 2, 3
NO_PLAN = ["no plan"]
JSON = "--json"
# The release of the tools is that of mkcheck.
INSTALL = "install the mkcheck of the release that these tools come from"


@dataclass(frozen=True)
class Reply:
    """What mkcheck printed, and its status: 0, `NO` or `REFUSED`."""

    status: int
    output: bytes

    @property
    def text(self) -> str:
        """What it printed, with surrogates for bytes that aren't UTF-8."""
        return self.output.decode("utf-8", "surrogateescape")

    @property
    def shown(self) -> str:
        """What it printed, for people: what isn't UTF-8 is replaced."""
        return self.output.decode("utf-8", "replace")

    @property
    def lines(self) -> list[str]:
        """The lines. Names may hold characters at which `splitlines` splits."""
        return self.text.split("\n")[:-1]


@dataclass(frozen=True)
class Checker:
    """The program mkcheck, how it is run, and the build that it is asked about."""

    program: str
    place: Place
    """Where it runs: from the folder of the makefile."""

    options: tuple[str, ...] = ()
    """The makefile (`-f`), and whether the default text is left out (`-r`)."""

    words: tuple[str, ...] = ()
    """Macro operands and goals."""

    book: str = ""
    """The footprint file, if there is one."""

    environment: Mapping[str, str] | None = None
    """Its environment, if it isn't that of this program."""

    seconds: float | None = None
    """How long a reply may take."""

    def run(self, *words: str) -> Reply:
        """Runs mkcheck by these words. What is no reply to them is a fault."""
        reply, said = self.reply_and_errors(*words)
        if reply.status == REFUSED and not reply.output:
            raise Fault(f"{self.program} {words[0]}: {said.split(chr(10))[0] or 'no answer'}")
        return reply

    def reply_and_errors(self, *words: str) -> tuple[Reply, str]:
        """Runs mkcheck by these words: its reply, which is empty where it refuses them, and what it
        said on standard error."""
        command = self.place.words([self.program, *words])
        try:
            done = subprocess.run(
                command,
                cwd=self.place.seen,
                env=self.environment,
                stdin=subprocess.DEVNULL,
                capture_output=True,
                check=False,
                timeout=self.seconds,
            )
        except (OSError, ValueError) as error:
            raise Fault(f"{self.program} can't be run: {error}") from None
        except subprocess.TimeoutExpired:
            raise Fault(
                f"{self.program} {words[0]} gave no answer in {self.seconds:g} seconds; try it by"
                " itself"
            ) from None
        said = done.stderr.decode("utf-8", "replace").strip()
        refuse_unentered(self.place, done.returncode, said)
        if done.returncode < 0:
            name = signal.Signals(-done.returncode).name
            raise Fault(f"{self.program} {words[0]} was stopped by {name}; try it by itself")
        if done.returncode == NO_MEMORY:
            raise Fault(f"{self.program} {words[0]} ran out of memory; give it more")
        if done.returncode not in (0, NO, REFUSED):
            raise Fault(f"{self.program} isn't mkcheck: its status is {done.returncode}")
        return Reply(done.returncode, done.stdout), said

    def ask(self, command: str, *more: str) -> Reply:
        """Asks a command about the build."""
        book = ("-b", self.book) if self.book else ()
        return self.run(command, *self.options, *book, *more, "--", *self.words)

    def check(self) -> Reply:
        """Asks `check --json` about the build."""
        words = [*self.options, *(("-b", self.book) if self.book else ()), JSON, "--", *self.words]
        reply, said = self.reply_and_errors("check", *words)
        if reply.output or reply.status != REFUSED:
            return reply
        if JSON in said:
            raise Fault(f"{self.program} has no `check {JSON}`; {INSTALL}")
        raise Fault(f"{self.program} check: {said.split(chr(10))[0] or 'no answer'}")

    def version(self) -> str:
        """What the program says of itself."""
        return self.run("--version").text.strip()

    def explain(self, what: str) -> str:
        """What a finding or a fault means; nothing where mkcheck doesn't know it."""
        reply, _ = self.reply_and_errors("explain", what)
        return reply.text.rstrip("\n") if reply.status == 0 else ""

    def explained(self, kind: str) -> tuple[str, str]:
        """What a kind of findings means: in a sentence, which the explanation begins with, and in
        full."""
        explanation = self.explain(kind)
        return explanation.partition("\n")[0].partition(": ")[2] or kind, explanation

    def plan(self, number: int) -> list[str]:
        """The plan that shows a finding; nothing where there is none."""
        lines = self.ask("check", "-e", str(number)).lines
        return [] if lines[:1] == NO_PLAN else lines

    @property
    def makefile(self) -> str:
        """The name of the makefile."""
        if "-f" in self.options:
            return self.options[self.options.index("-f") + 1]
        there = os.path.exists(os.path.join(self.place.folder, "makefile"))
        return "makefile" if there else "Makefile"

    @property
    def operands(self) -> tuple[str, ...]:
        """The macro operands."""
        return tuple(word for word in self.words if "=" in word)


def find_checker(beside: Path) -> str:
    """Where mkcheck is: as MKCHECK says, beside this program, or on the search path."""
    named = os.environ.get("MKCHECK")
    places = [Path(named)] if named else [beside / "mkcheck", beside.parent / "bin" / "mkcheck"]
    own = (
        str(place.absolute()) for place in places if os.access(place, os.X_OK) and place.is_file()
    )
    found = next(own, None) or (None if named else shutil.which("mkcheck"))
    if found is None:
        raise Fault(
            f"mkcheck isn't there{f' as {named}' if named else ''}: set MKCHECK to its path"
        )
    return found
