"""An audit with what follows from it: what is accepted, what mends the rest, and the status."""

from __future__ import annotations

from dataclasses import dataclass

from mkcheck_tools.audit.accepting import Accepted
from mkcheck_tools.audit.makefile_lines import Sources
from mkcheck_tools.audit.mending import Mending
from mkcheck_tools.audit.readers import POSIX, Reader
from mkcheck_tools.audit.verdicts import NONE, Audited, number_of
from mkcheck_tools.run import places


@dataclass(frozen=True)
class Judgement:
    """An audit, the reader, the entries on accepted findings that fit none, the makefiles, and what
    mends what nobody accepted."""

    reader: Reader
    audited: Audited
    unused: tuple[Accepted, ...]
    sources: Sources
    mending: Mending
    allow_unjudged: bool = False

    @property
    def status(self) -> int:
        """The status: 0 yes, 1 a finding that isn't accepted, or something that isn't judged, 2 no
        answer."""
        audited = self.audited
        if audited.answer == NONE:
            return 2
        return int(bool(audited.open) or (bool(audited.unjudged) and not self.allow_unjudged))

    @property
    def next_step(self) -> str:
        """What to do next, in a sentence."""
        audited = self.audited
        if audited.refused:
            return ""
        if self.mending.additions:
            left = number_of(one.finding for one in self.mending.left)
            are = "finding is" if left == 1 else "findings are"
            rest = f" {left:,} {are} left to you, as said above." if left else ""
            # Without mount namespaces each import is a new build.
            is_kept = self.reader.kind == POSIX or places.namespace() is not None
            front = "mkcheck-audit --diff" if is_kept else "mkcheck-audit --no-record --diff"
            return f"{front} shows the lines at their place, --fix writes them.{rest}"
        if audited.open:
            return (
                "Mend these as the lines above say, or accept them in mkcheck.toml with a reason;"
                " then run mkcheck-audit again."
            )
        if audited.unjudged and not self.allow_unjudged:
            return "Mend what wasn't judged, or take the answer as it is by --allow-unjudged."
        return "Run mkcheck-audit again after edits: it records only what they change."
