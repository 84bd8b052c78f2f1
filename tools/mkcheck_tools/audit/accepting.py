"""Findings that a team has accepted, each with its reason."""

from __future__ import annotations

from collections.abc import Iterable, Sequence
from dataclasses import dataclass, replace
from fnmatch import fnmatchcase

from mkcheck_tools.audit.verdicts import Audited, Finding, Item


@dataclass(frozen=True)
class Accepted:
    """An entry: the kind of findings, the target and the file, in which `*` stands for any text,
    and why these are accepted. `origin` is the file that has the entry."""

    kind: str
    target: str
    file: str
    reason: str
    origin: str

    def fits(self, item: Item) -> bool:
        """Whether the entry is about a finding."""
        return (
            self.kind == item.kind
            and any(fnmatchcase(target, self.target) for target in item.targets)
            and fnmatchcase(item.file, self.file)
        )

    @property
    def text(self) -> str:
        """The entry, for people."""
        return " ".join(word for word in (self.kind, self.target, self.file) if word)


@dataclass(frozen=True)
class Fitted:
    """Findings with the reasons for which they are accepted, and the entries that fit none."""

    findings: tuple[Finding, ...]
    unused: tuple[Accepted, ...]


def fitted(
    findings: Iterable[Finding], entries: Sequence[Accepted], later: Iterable[Finding] = ()
) -> Fitted:
    """Accepts findings by these entries. One that stands for several is accepted where all are. An
    entry that fits one of `later`, which others hide, is used too."""
    hidden = [item for finding in later for item in finding.items]
    used = {entry for entry in entries if any(map(entry.fits, hidden))}
    found = []
    for finding in findings:
        reasons: dict[str, None] = {}
        accepted = []
        for item in finding.items:
            fitting = [entry for entry in entries if entry.fits(item)]
            used.update(fitting)
            accepted += [item] if fitting else []
            reasons.update((entry.reason, None) for entry in fitting)
        found.append(finding.with_accepted(accepted, reasons) if accepted else finding)
    return Fitted(tuple(found), tuple(entry for entry in entries if entry not in used))


def accepting(
    audited: Audited, entries: Sequence[Accepted]
) -> tuple[Audited, tuple[Accepted, ...]]:
    """An audit with what these entries accept, and the entries that fit nothing. Nobody mends what
    is accepted, so what that hides, or a recipe that isn't judged, is a finding too."""
    found = fitted(audited.findings, entries, audited.later)
    taken = audited.with_findings(found.findings)
    if not taken.later or not taken.is_settled:
        return taken, found.unused
    found = fitted((*audited.findings, *audited.later), entries)
    return replace(audited, findings=found.findings, later=()), found.unused
