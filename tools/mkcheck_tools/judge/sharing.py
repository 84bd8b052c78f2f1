"""Files and folders that are gone when a recipe has ended, and that other recipes use too.

With several jobs such recipes destroy each other's. No footprint would show it, since nothing is
left. So the name is put into the writes of each, and `mkcheck check` finds two writers. A recipe
that would have taken a file away, had it been there, counts as one that does: with several jobs, or
another time, it is there. Where a pattern such as `*.o` matches nothing, the shell leaves it as it
is, and the program gets it for a name.

A folder that a recipe takes away and hadn't made is used by the recipes that made it, too. It
counts as written by who takes it away, and as read by the others. Recipes that only make it share
nothing, and neither do recipes that never run side by side, where no file stays at the name.

A file that a recipe looked for in vain and that another recipe makes counts as read: another time
it is there, and the recipe may do something else. A folder only counts where the replay shows that
it does.

A folder to which a recipe gave a mode is put into its writes, and into the reads of the recipes
that use it or what is in it.
"""

from __future__ import annotations

import fnmatch
import re
from dataclasses import dataclass, field, replace

from mkcheck_tools.answers.graphs import Ancestors, Graph
from mkcheck_tools.faults import RecipeFault
from mkcheck_tools.judge.footprints import Footprint, shown, warn_of_lost
from mkcheck_tools.judge.late import Late, folders_of
from mkcheck_tools.judge.locks import warn_of_locks
from mkcheck_tools.judge.new_folders import warn_of_folders
from mkcheck_tools.judge.notes import Kind, Note, Warn, ignore
from mkcheck_tools.judge.refusals import listed
from mkcheck_tools.run.folders import is_plain_path
from mkcheck_tools.run.paths import Name

PATTERN = re.compile(r"[*?\[]")


@dataclass
class Makers:
    """Targets by the names that their recipes make, be it for a moment."""

    graph: Graph
    makers: dict[Name, set[str]] = field(default_factory=dict)
    momentary: set[Name] = field(default_factory=set)
    folders: dict[Name, set[str]] = field(default_factory=dict)

    def __post_init__(self) -> None:
        self.ancestors = self.graph.ancestors()

    def take(self, footprint: Footprint) -> None:
        """Takes what a recipe makes."""
        self.momentary |= footprint.scratch - footprint.lost - footprint.dropped
        for name in (*footprint.writes, *(footprint.scratch & self.momentary)):
            self.makers.setdefault(name, set()).add(footprint.recipe.target)
        for name in footprint.made:
            self.folders.setdefault(name, set()).add(footprint.recipe.target)

    def others(self, footprint: Footprint, name: Name) -> list[str]:
        """The other recipes that make a name; a folder only where the recipe uses it."""
        makers = self.makers.get(name, set())
        if name in footprint.met:
            makers = makers | self.folders.get(name, set())
        return sorted(makers - {footprint.recipe.target})

    def cure(self, footprint: Footprint, names: list[Name]) -> str:
        """What helps a recipe that looks for what others make."""
        target = footprint.recipe.target
        makers = [self.others(footprint, name) for name in names]
        later = sorted(
            one for others in makers for one in others if self.ancestors.any_before((target,), one)
        )
        if later:
            return f"{later[0]} needs {target}, so let the recipe of {target} do without that"
        needs = dict.fromkeys(
            name if name in others else min(others) for name, others in zip(names, makers)
        )
        return f"let {target} need {listed(needs)}, and record again"


@dataclass
class Uses:
    """Targets by names: whose recipes use a file, or one in a folder; which write in a folder;
    which take a name away; which give a folder a mode; and which do something else where a late
    file is there. `lasting` are the files that a recipe leaves, or takes away and hadn't made, and
    the folders in which one leaves some.
    """

    ancestors: Ancestors
    users: dict[Name, set[str]] = field(default_factory=dict)
    fillers: dict[Name, set[str]] = field(default_factory=dict)
    takers: dict[Name, set[str]] = field(default_factory=dict)
    owners: dict[Name, set[str]] = field(default_factory=dict)
    meeters: dict[Name, set[str]] = field(default_factory=dict)
    lasting: set[Name] = field(default_factory=set)
    folders: set[Name] = field(default_factory=set)

    def take(self, footprint: Footprint, makers: Makers) -> None:
        """Takes what a recipe uses."""
        target = footprint.recipe.target
        for name in (*footprint.writes, *footprint.lost):
            self.lasting.update((name, *folders_of(name)))
        used = {*footprint.scratch, *footprint.writes, *footprint.reads, *footprint.made}
        for name in used | ((footprint.sought | footprint.met) & makers.momentary):
            for place in (name, *folders_of(name)):
                self.users.setdefault(place, set()).add(target)
        self.folders.update(footprint.made)
        for name in {*footprint.scratch, *footprint.writes}:
            for place in folders_of(name):
                self.folders.add(place)
                self.fillers.setdefault(place, set()).add(target)
        for name in {*footprint.scratch, *footprint.missed}:
            self.takers.setdefault(name, set()).add(target)
        for name in footprint.owned:
            self.owners.setdefault(name, set()).add(target)
        for name in footprint.met:
            self.meeters.setdefault(name, set()).add(target)

    def others(self, footprint: Footprint, name: Name) -> set[str]:
        """The other recipes that one would disturb by taking a name away.

        Where it makes a folder of that name later, those that only read in it do so afterwards.
        """
        own = {footprint.recipe.target}
        if name in footprint.missed and own <= self.fillers.get(name, set()):
            return self.beside(footprint, name, self.fillers[name])
        return self.beside(footprint, name, self.users.get(name, set()))

    def is_folder(self, footprint: Footprint, name: Name) -> bool:
        """Whether a name is that of a folder that a recipe takes away, as far as recipes tell, and
        that no other one takes away."""
        others = self.takers.get(name, set()) - {footprint.recipe.target}
        return not others and (name in footprint.dropped or name in self.folders)

    def others_taking(self, footprint: Footprint, name: Name) -> set[str]:
        """The other recipes that would disturb this one by taking a name away."""
        return self.beside(footprint, name, self.takers.get(name, set()))

    def beside(self, footprint: Footprint, name: Name, targets: set[str]) -> set[str]:
        """Those of some recipes that are others than this one, and that may run side by side with
        it where no file stays there. In each make one then finds nothing that another one left.
        """
        target = footprint.recipe.target
        if name in self.lasting:
            return targets - {target}
        return {
            one for one in targets if one != target and not self.ancestors.in_order(one, target)
        }


def with_shared(
    footprints: list[Footprint], graph: Graph, warn: Warn, late: Late | None = None
) -> list[Footprint]:
    """The footprints, with shared names in the writes of each recipe that made or removed them, and
    in the reads of each that looked for them.

    `late` has late files of recipes, where a warning is to tell which recipes weren't run beside
    theirs.
    """
    footprints = with_matches(footprints)
    makers = Makers(graph)
    uses = Uses(makers.ancestors)
    for footprint in footprints:
        makers.take(footprint)
    for footprint in footprints:
        uses.take(footprint, makers)
    if late is not None:
        warn_of_untested(footprints, late, warn)
    warn_of_ports(footprints, makers.ancestors, warn)
    warn_of_processes(footprints, makers.ancestors, warn)
    warn_of_locks(footprints, makers.ancestors, warn)
    warn_of_folders(footprints, makers.ancestors, warn)
    found = [with_sought(footprint, makers, warn) for footprint in footprints]
    return [with_modes(with_own(footprint, uses, warn), uses, warn) for footprint in found]


def with_sought(footprint: Footprint, makers: Makers, warn: Warn) -> Footprint:
    """A footprint that reads too what another recipe makes and what it looked at, looked for in
    vain, or uses when it is there.
    """
    own = {*footprint.reads, *footprint.writes, *footprint.scratch, *footprint.missed}
    wanted = sorted((footprint.sought | footprint.met) - own)
    wanted = [name for name in wanted if makers.others(footprint, name)]
    sought = [name for name in wanted if name in footprint.sought]
    met = [name for name in wanted if name not in footprint.sought]
    if sought:
        warn_of_late(footprint, sought, f"looks for {listed(sought)}", makers, warn)
    passing = [name for name in met if name in makers.momentary]
    met = [name for name in met if name not in makers.momentary]
    for names in filter(None, (met, passing)):
        they = f"{listed(names)} {'is' if len(names) == 1 else 'are'}"
        warn_of_late(footprint, names, f"does something else where {they} there", makers, warn)
    seen = sorted(footprint.seen - own)
    return replace(footprint, reads=[*footprint.reads, *sought, *met, *passing, *seen])


def warn_of_late(
    footprint: Footprint, names: list[Name], verb: str, makers: Makers, warn: Warn
) -> None:
    """Warns of files that a recipe looks for and that others make, later or for a moment."""
    target = footprint.recipe.target
    others = sorted({other for name in names for other in makers.others(footprint, name)})
    who = f"the recipe of {others[0]} makes" if len(others) == 1 else "other recipes make"
    they = "it is there, so it counts" if len(names) == 1 else "they are there, so they count"
    when = "later: with several jobs, or in another make,"
    if names[0] in footprint.met and names[0] in makers.momentary:
        when = f"and take{'s' if len(others) == 1 else ''} away: with several jobs"
    text = (
        f"the recipe of {target} {verb}, which {who} {when}"
        f" {they} as read; {makers.cure(footprint, names)}"
    )
    warn(Note(target, Kind.LATE, text))


def warn_of_untested(footprints: list[Footprint], late: Late, warn: Warn) -> None:
    """Tells which recipes weren't run beside their late files."""
    tested = {footprint.recipe.target for footprint in footprints if footprint.late}
    found = {target: names for target, names in late.items() if target not in tested}
    if found:
        one = len(found) == 1
        example = next(iter(found.values()))[0]
        text = (
            f"the recipe{'' if one else 's'} of {listed(found)} listed folders, or looked for some,"
            f" in which other recipes make files later, such as {example}: nothing tests whether"
            f" {'it uses' if one else 'they use'} these"
        )
        warn(Note(next(iter(found)), Kind.UNTESTED, text))


def warn_of_ports(footprints: list[Footprint], ancestors: Ancestors, warn: Warn) -> None:
    """Warns of addresses at which two recipes serve that may run side by side."""
    users: dict[str, list[str]] = {}
    for footprint in footprints:
        target = footprint.recipe.target
        for port in sorted(footprint.ports):
            others = users.setdefault(port, [])
            other = next((one for one in others if not ancestors.in_order(one, target)), None)
            if other is not None:
                verb = "serve at" if port.startswith(("the port", "the socket")) else "use"
                text = (
                    f"the recipes of {other} and {target} both {verb} {port}: with several jobs"
                    " one of them fails, or is asked what the other is; let one need the other, or"
                    " take other addresses"
                )
                warn(Note(target, Kind.PORT, text))
            others.append(target)


def warn_of_processes(footprints: list[Footprint], ancestors: Ancestors, warn: Warn) -> None:
    """Warns of recipes that look through all processes while another recipe may run."""
    targets = [footprint.recipe.target for footprint in footprints]
    found = [
        footprint.recipe.target
        for footprint in footprints
        if footprint.processes
        and not all(
            one == footprint.recipe.target or ancestors.in_order(one, footprint.recipe.target)
            for one in targets
        )
    ]
    if found:
        who = f"the recipe of {found[0]} looks" if len(found) == 1 else ""
        text = (
            f"{who or f'the recipes of {listed(found)} look'} through all processes, as ps and"
            f" pkill do: with several jobs {'it finds' if who else 'they find'} those of other"
            " recipes too; go by the numbers of the recipe's own processes, or let no other recipe"
            " run beside it"
        )
        warn(Note(found[0], Kind.PROCESSES, text))


def with_matches(footprints: list[Footprint]) -> list[Footprint]:
    """The footprints, which miss too what others write and their own patterns match."""
    written = {name for footprint in footprints for name in (*footprint.writes, *footprint.scratch)}
    found = []
    for footprint in footprints:
        patterns = [name for name in footprint.missed if PATTERN.search(name)]
        missed = {name for name in written if any(matches(one, name) for one in patterns)}
        missed |= footprint.taken
        missed.difference_update(footprint.writes, footprint.scratch)
        found.append(replace(footprint, missed=footprint.missed | missed))
    return found


def matches(pattern: str, name: str) -> bool:
    """Whether a shell's pattern matches a name, or a folder in which that lies."""
    parts, words = name.split("/"), pattern.split("/")
    return len(parts) >= len(words) and all(
        fnmatch.fnmatchcase(part, word) and (part[:1] != "." or word[:1] == ".")
        for part, word in zip(parts, words)
    )


def with_own(footprint: Footprint, uses: Uses, warn: Warn) -> Footprint:
    """A footprint with its scratch names that others use, and those of others that it uses.

    One that writes nothing and takes away files of others, such as `clean`, has one warning.
    """
    target = footprint.recipe.target
    names = sorted({*footprint.scratch, *footprint.missed})
    used = {name: others for name in names if (others := uses.others(footprint, name))}
    removed: set[Name] = set()
    if not footprint.writes:
        removed = used.keys() & (footprint.lost | footprint.missed - footprint.scratch)
    if removed:
        warn(
            Note(
                target,
                Kind.SHARED,
                f"{target} removes files of other recipes: record and check it by itself",
            )
        )
    for name in sorted(footprint.lost - used.keys()) if not footprint.writes else ():
        warn_of_lost(footprint.recipe, name, warn)
    shared = list(used)
    for name, users in used.items():
        way = ignore if name in removed else warn
        if uses.is_folder(footprint, name) and is_plain_path(name):
            tell_of_folder(footprint, name, sorted(users), way)
        else:
            tell(footprint, name, told(sorted(users)), way)
    own = {*footprint.scratch, *footprint.writes, *footprint.made}
    around = {*own, *(place for name in own for place in folders_of(name))}
    taken = sorted(name for name in around if uses.others_taking(footprint, name))
    shared += [name for name in taken if name in own and name not in footprint.made]
    shared += sorted(name for name in footprint.made if uses.meeters.get(name, set()) - {target})
    writes = list(dict.fromkeys([*footprint.writes, *shared]))
    reads = [*footprint.reads, *(name for name in taken if name not in set(writes))]
    return replace(footprint, reads=list(dict.fromkeys(reads)), writes=writes)


def with_modes(footprint: Footprint, uses: Uses, warn: Warn) -> Footprint:
    """A footprint with the folders to which it gave a mode, and those of others that it uses."""
    target = footprint.recipe.target
    given = [name for name in sorted(footprint.owned) if uses.users.get(name, set()) - {target}]
    for name in given:
        others = told(sorted(uses.users[name] - {target}))
        text = (
            f"the recipe of {target} gives the folder {name} another mode, owner or attribute,"
            f" which {others} too: it counts as written by the one and read by the others"
        )
        warn(Note(target, Kind.SHARED, text))
    writes = list(dict.fromkeys([*footprint.writes, *given]))
    used = {*footprint.scratch, *footprint.reads, *footprint.writes}
    around = {*used, *(place for name in used for place in folders_of(name))}
    found = {name for name in around if uses.owners.get(name, set()) - {target}}
    reads = [*footprint.reads, *sorted(found.difference(writes))]
    return replace(footprint, reads=list(dict.fromkeys(reads)), writes=writes)


def tell(footprint: Footprint, name: Name, others: str, warn: Warn) -> None:
    """Warns of a shared name, or refuses it where no footprint can hold it."""
    verb = "makes and takes away"
    if name in footprint.lost:
        verb = "takes away"
    elif name in footprint.dropped:
        verb = "takes away the folder"
    elif name in footprint.taken:
        verb = "would write or take away"
    elif name not in footprint.scratch:
        verb = "would take away"
    front = f"the recipe of {footprint.recipe.target} {verb} {shown(name)}, which {others} too"
    if not is_plain_path(name):
        raise RecipeFault(
            f"{front}: with several jobs they destroy each other's, and footprints can't hold that"
            " name, for a blank, a control character or a byte that isn't UTF-8: give each its own",
            [footprint.recipe.target],
        )
    text = f"{front}: with several jobs they destroy each other's, so it counts as written by each"
    warn(Note(footprint.recipe.target, Kind.SHARED, text))


def tell_of_folder(footprint: Footprint, name: Name, others: list[str], warn: Warn) -> None:
    """Warns of a folder that a recipe takes away while others use it."""
    target = footprint.recipe.target
    verb = "would take away"
    if name in footprint.scratch:
        verb = "takes away" if name in footprint.dropped else "makes and takes away"
    text = (
        f"the recipe of {target} {verb} the folder {shown(name)}, which {told(others)} too: with"
        " several jobs it disturbs them, so the folder counts as written by the one and read by"
        f" the others; let {target} need {listed(others)}, or leave the folder there"
    )
    warn(Note(target, Kind.SHARED, text))


def told(targets: list[str]) -> str:
    """Other recipes in a sentence."""
    if len(targets) == 1:
        return f"that of {targets[0]} uses"
    return f"those of {', '.join(targets[:3])}{' and others' if len(targets) > 3 else ''} use"
