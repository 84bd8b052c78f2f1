"""Groups as they are shown: a race and a stale read of the same names and files are one panel."""

from __future__ import annotations

from collections.abc import Sequence
from dataclasses import dataclass

from mkcheck_tools.answers.findings import Finding, Group

RACE, STALE = "race", "stale"


@dataclass(frozen=True)
class Shared:
    """One group, or a race and the stale read that the same lines mend; `anchor` names the place
    on a page where it is shown."""

    groups: tuple[Group, ...]
    anchor: str

    @property
    def first(self) -> Group:
        """The group by which it is placed: the race."""
        return self.groups[0]

    @property
    def kind(self) -> str:
        """The kind of that group."""
        return self.first.kind

    @property
    def findings(self) -> list[Finding]:
        """The findings of all its groups."""
        return [finding for group in self.groups for finding in group.findings]


def shared(groups: Sequence[Group], front: str) -> list[Shared]:
    """The groups in their order, each stale read with the race of the same names and files. Anchors
    are this word and the number of the group."""
    key = [(group.targets, group.files, group.adds) for group in groups]
    stale = {key[at]: at for at, group in enumerate(groups) if group.kind == STALE}
    partners = {}
    for at, group in enumerate(groups):
        if group.kind == RACE and key[at] in stale:
            partners[at] = stale.pop(key[at])
    joined = set(partners.values())
    return [
        Shared(
            (group, groups[partners[at]]) if at in partners else (group,), f"{front}-{at + 1}"
        )
        for at, group in enumerate(groups)
        if at not in joined
    ]
