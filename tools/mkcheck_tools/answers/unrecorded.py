"""What mkcheck says of a makefile before there are footprints: its graph, or why it refuses it."""

from __future__ import annotations

import json
import os
from collections.abc import Callable
from dataclasses import dataclass, field, replace
from pathlib import Path

from mkcheck_tools.answers.checkers import Checker, Reply
from mkcheck_tools.answers.findings import Answer, answer_of, refusal_by
from mkcheck_tools.answers.graphs import Graph, names_in, read_graph, target_that_is_not_utf8
from mkcheck_tools.answers.meanings import IMPORT
from mkcheck_tools.answers.refusals import NO_MAKEFILE, Refused
from mkcheck_tools.faults import Fault
from mkcheck_tools.run.folders import is_plain_path

# What is said where the folder has such a file and no makefile.
NOT_READ = {
    "GNUmakefile": f"there is only GNUmakefile, GNU make's own: give -f GNUmakefile; {IMPORT}",
    "configure": "there is no makefile yet; run ./configure first",
}


@dataclass(frozen=True)
class Unrecorded:
    """A build without footprints, over fixed prefixes and files that may be sources."""

    checker: Checker
    fixed: list[str]
    files: list[str]
    scratch: str
    """The folder for a footprint file without a record."""

    prefixes: list[str] = field(default_factory=list)
    """Those of the fixed prefixes that were asked for."""

    def over_nothing(self) -> Checker:
        """The build with footprints that have no record."""
        book = Path(self.scratch, "book.json")
        presumed = {"format": 1, "fixed": self.fixed, "sources": self.files, "records": []}
        book.write_text(json.dumps(presumed))
        return replace(self.checker, book=str(book))

    def ask(self, command: str, *more: str) -> Reply:
        """What mkcheck replies, over footprints without a record."""
        return self.over_nothing().ask(command, *more)

    def checked(self) -> Answer:
        """What `check` answers, over footprints without a record."""
        return answer_of(self.over_nothing().check())

    def said(self, command: str, *more: str) -> bytes:
        """What mkcheck prints, unless it refuses."""
        reply = self.ask(command, *more)
        if reply.status != 0:
            raise Refused(refusal_by(self.over_nothing()))
        return reply.output

    def varying(self) -> list[str]:
        """The targets whose commands use `$?`, which mkcheck names also where no recipe has a
        record."""
        return [one.names[0] for one in self.checked().findings if one.kind == "varying"]

    def graph(self) -> Graph:
        """The graph."""
        said = self.said("graph", "-c")
        try:
            return read_graph(said.decode("utf-8"))
        except UnicodeDecodeError:
            target = target_that_is_not_utf8(said)
            raise Fault(
                f"a command of {target} holds bytes that aren't UTF-8, and footprints, which are"
                " JSON, can't hold these: write it in UTF-8, or put these bytes into a file that it"
                " reads"
            ) from None

    def explained(self, refused: Refused) -> Refused:
        """A refusal with the line of the makefile, or what the folder has in place of one."""
        folder, refusal = self.checker.place.folder, refused.refusal
        if refusal.name == NO_MAKEFILE:
            there = (name for name in NOT_READ if os.path.isfile(os.path.join(folder, name)))
            return Refused(refusal, sentence=next((NOT_READ[name] for name in there), None))
        return Refused(refusal, line=refusal.shown(self.checker.makefile, folder).strip())

    def refuse_open_end(self, graph: Graph) -> None:
        """Refuses a command that ends in a backslash behind which no line comes: `graph -c` prints
        the next name there, as if it went on.
        """
        for name, found in zip(names_in(self.said("graph").decode("utf-8")), [*graph.names, None]):
            if name != found:
                before = graph.names[: graph.names.index(found)] if found else graph.names
                target = next(one for one in reversed(before) if one in graph.targets)
                raise Fault(
                    f"the last command of {target} ends in a backslash, and no line comes behind"
                    " it: end that file with a newline, without the backslash"
                )


Why = Callable[[Unrecorded, str, str], str]


def asked_graph(build: Unrecorded, why: Why) -> tuple[Unrecorded, Graph]:
    """The build with all files that may be sources, and its graph.

    A file that is reached over more links than one isn't listed yet: where mkcheck asks for it, its
    folder is. `why` says of a name of the build why nothing is there, by its path.
    """
    folder = build.checker.place.folder
    while True:
        try:
            graph = build.graph()
            build.refuse_open_end(graph)
            return build, graph
        except Refused as refused:
            name = refused.missing
            if name is None:
                raise build.explained(refused) from None
            path = os.path.join(folder, name)
            if not os.path.isfile(path) or name in build.files:
                raise Fault(f"{refused}: {why(build, name, path)}") from None
            front = os.path.dirname(name)
            beside = (os.path.join(front, other) for other in os.listdir(os.path.dirname(path)))
            more = {other for other in beside if os.path.isfile(os.path.join(folder, other))}
            files = sorted({*build.files, name, *filter(is_plain_path, more)})
            build = replace(build, files=files)


def why_missing(name: str, path: str) -> str:
    """What is said of a name that no rule makes and that is no source."""
    if os.path.isdir(path):
        return (
            f"{name} is a folder, and footprints have files alone; name a file in it, or let each"
            f" recipe that needs the folder make it (mkdir -p {name})"
        )
    if os.path.lexists(path):
        return f"{name} is no file, or one that a fixed prefix holds; nothing makes it"
    return f"no rule makes {name}, and the folder has no such file"
