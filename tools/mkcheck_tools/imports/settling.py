"""What only the recording tells of a build: which targets are files, and who writes them."""

from __future__ import annotations

import os

from mkcheck_tools.book.footprint_files import Footprints, Record
from mkcheck_tools.imports.alike import split_alike
from mkcheck_tools.imports.builds import Build, Command, Kind, Node
from mkcheck_tools.imports.ordering import Order
from mkcheck_tools.imports.readings import all_need, followed

# The command of a recipe of which nothing is known.
NOT_JUDGED = ": not judged"


class Settling:
    """Changes the nodes of a build, and its footprints, to what the recording shows.

    `before` has the files and folders that are there before the build. `renamed` are nodes that
    have another name then.
    """

    def __init__(self, build: Build, footprints: Footprints, before: set[str]) -> None:
        self.build, self.footprints, self.before = build, footprints, before
        self.renamed: dict[str, str] = {}
        self.writers = footprints.writers

    def exists(self, name: str) -> bool:
        """Whether there is such a file before the build."""
        if name.startswith("/"):
            return os.path.lexists(name)
        return name in self.before

    def settle(self) -> None:
        """Settles all nodes."""
        for name in list(self.build.nodes):
            node = self.build.nodes[name]
            record = self.footprints.records.get(name)
            if node.kind is Kind.FILE and node.has_rule:
                if record is not None and name not in record.writes:
                    self.settle_unwritten(node, record)
                if not node.commands:
                    self.settle_bare(node)
            if record is not None:
                self.drop_own(node, record)
                self.test_limits(node, record)
        self.name_unseen()
        self.name_remade()
        self.settle_order()
        self.settle_between_makes()
        self.settle_seen_early()
        self.settle_without_rule()
        self.drop_relinked()
        split_alike(self.build, self.footprints)
        self.rename_phony()
        self.drop_configured()
        self.add_sources()

    def name_unseen(self) -> None:
        """Names files that change beside the recipes that are judged: makefiles that a recipe
        writes, files that make makes when it reads, and files that are gone after a build."""
        for name in sorted(self.build.makefiles & set(self.writers)):
            self.build.question(
                f"{name}: the recipe of {self.writers[name][0]} writes it, and a make reads it as"
                " its makefile: it is judged as this build left it, and what changes with it isn't;"
                " let the make that reads it have the rule for it too",
                name,
            )
        used = {name for record in self.footprints.records.values() for name in record.reads}
        used.update(self.build.reached(later=True))
        # A makefile that is made anew is new before any recipe runs, so it is as a source.
        known = {*self.writers, *self.build.configured, *self.build.remade}
        for name in sorted((self.build.read_made & used) - known):
            self.build.question(
                f"{name}: it is made when make reads its makefiles (by $(shell ..), $(file ..)"
                " or a rule for a makefile), and when it is made anew isn't judged; let the"
                " commands of a recipe make it",
                name,
            )
        for name in sorted((self.build.read_again & used) - set(self.writers)):
            self.build.note(
                f"{name} is made anew each time make reads its makefiles (by $(shell ..) or"
                " $(file ..)): it is taken as a source that is always new"
            )
        old = sorted(self.build.old_dependencies & set(self.writers))
        if old:
            self.build.note(
                f"{old[0]}{f' and {len(old) - 1} more' * (len(old) > 1)}: dependency files of an"
                " earlier build are there, so the first build is judged with what they say; remove"
                " them to have one judged without them"
            )
        for record in self.footprints.records.values() if self.build.made else ():
            for name in record.reads:
                if self.is_gone(name) and name not in self.needed(record.target):
                    self.build.problem(
                        f"{self.place_of(record.target)}: the recipe of {record.target} reads"
                        f" {name}, which the recipe of {self.writers[name][0]} makes, and which is"
                        " gone after a build (make removes files between two pattern rules), so a"
                        f" later run doesn't find it; let it need {name}, or list {name} in"
                        " .SECONDARY",
                        record.target,
                    )

    def name_remade(self) -> None:
        """Names makefiles that make makes anew, but those of a configure step, where recipes don't
        run again then: their commands may be others."""
        for name, needs in self.build.remade.items():
            if name in self.build.configured or all_need(self.build, name):
                continue
            if not all(all_need(self.build, one) for one in needs):
                self.build.question(
                    f"{name}: make makes this makefile anew {self.when_remade(needs)}, commands may"
                    " be others then, and make doesn't run those again; let all that is made need"
                    f" {name}",
                    name,
                )

    def when_remade(self, needs: list[str]) -> str:
        """When make makes a makefile anew that is made from these. What is never there, as FORCE,
        never changes."""
        known = {*self.writers, *self.build.made}
        is_forced = any(name not in known and not self.exists(name) for name in needs)
        return "in each run" if is_forced else f"when {needs[0]} changes"

    def is_gone(self, name: str) -> bool:
        """Whether a recipe makes a file that isn't there after a build by the tool itself."""
        return name in self.writers and name not in self.build.made and not self.exists(name)

    def needed(self, name: str) -> set[str]:
        """What the rule of a recipe names, and the recipe itself with what it writes."""
        record = self.footprints.records.get(name)
        found = set(record.writes if record is not None else ())
        node = self.build.nodes.get(name)
        while node is not None:
            found.update(node.prerequisites(later=True))
            node = self.build.nodes.get(node.piece_of)
        return found

    def place_of(self, name: str) -> str:
        """Where a recipe stands."""
        node = self.build.nodes.get(name)
        return str(node.origin) if node is not None and node.origin else name

    def settle_unwritten(self, node: Node, record: Record) -> None:
        """A recipe that doesn't write its target."""
        own = [name for name in record.reads if not self.footprints.is_fixed(name)]
        if node.name in self.writers:
            if not own and not record.writes:
                node.commands, node.rereads = [], True
                del self.footprints.records[node.name]
        elif node.name in self.build.made and f"{node.name}/" not in self.build.made:
            self.build.problem(
                f"{node.name}: a build makes it, and in the recording its recipe doesn't, so what"
                " was recorded isn't what a build does; see import.log for what the recorder said",
                node.name,
            )
            record.writes.append(node.name)
        elif self.exists(node.name):
            self.build.problem(
                f"{node.name}: it is there before the build, and its recipe leaves it as it is;"
                " whether it is up to date isn't judged; remove it, and import again",
                node.name,
            )
            record.writes.append(node.name)
        else:
            node.kind = Kind.PHONY
            is_folder = f"{node.name}/" in self.build.made
            if not is_folder and node.name not in self.build.unwritten:
                self.build.unwritten.append(node.name)

    def settle_bare(self, node: Node) -> None:
        """A target without a recipe."""
        if node.name in self.writers:
            if node.rereads:
                below = self.below(node)
                direct = set(node.prerequisites(later=True))
                for writer in self.writers[node.name]:
                    if writer in below and writer not in direct:
                        node.groups = [*node.groups[:-1], [*node.groups[-1], writer]]
        elif not self.exists(node.name) and node.name in self.build.unjudged:
            # Were it phony, what needs it would always run.
            node.commands = [Command(NOT_JUDGED)]
            record = Record(node.name, [NOT_JUDGED], [], [node.name])
            self.footprints.records[node.name] = record
        elif not self.exists(node.name):
            node.kind = Kind.PHONY
        elif not node.prerequisites(later=True):
            node.has_rule = False

    def below(self, node: Node) -> set[str]:
        """All nodes that a node reaches in the first build."""
        return set(
            Build(self.build.root, goals=[node.name], nodes=self.build.nodes).reached(later=False)
        )

    def settle_order(self) -> None:
        """Makes targets order-only that the tool doesn't look at again when another recipe has
        written them: what needs them waits for that recipe, and isn't out of date by them."""
        blind = {
            name
            for name, node in self.build.nodes.items()
            if node.kind is Kind.FILE
            and node.has_rule
            and not node.commands
            and not node.rereads
            and name in self.writers
            and node.prerequisites(later=True)
        }
        self.build.blind |= blind
        for node in self.build.nodes.values() if blind else ():
            met = [name for name in node.prerequisites(later=True) if name in blind]
            if met:
                groups = node.groups
                node.groups = [[name for name in group if name not in blind] for group in groups]
                node.late = [name for name in node.late if name not in blind]
                node.order_only += [name for name in met if name not in node.order_only]

    def settle_between_makes(self) -> None:
        """Lets a file without a rule need the recipes that write it, if these are of other makes
        and always done before the file is needed: each make looks at such a file when it begins.
        """
        needed: dict[str, list[Node]] = {}
        for node in self.build.nodes.values():
            for name in node.prerequisites(later=True) if node.has_rule else []:
                other = self.build.nodes.get(name)
                if name in self.writers and (other is None or not other.has_rule):
                    needed.setdefault(name, []).append(node)
        order = Order(self.build) if needed else None
        for name, users in needed.items():
            writers = [self.build.nodes[writer] for writer in self.writers[name]]
            if order is not None and all(
                user.make != writer.make and order.is_before(writer.name, user.name)
                for user in users
                for writer in writers
            ):
                node = self.build.node(name)
                node.has_rule, node.rereads = True, True
                node.groups = [[writer.name for writer in writers]]

    def settle_seen_early(self) -> None:
        """Takes away prerequisites that another make writes and for which the make that was started
        first has no rule, as those of dependency files: with several jobs it looks at such a file
        before the other make has ended."""
        for node in list(self.build.nodes.values()):
            if node.make in self.build.starters or not node.late:
                continue
            own = [word for word in node.prerequisites(later=True) if "@make" in word]
            known = {word.partition("@make")[0] for word in own}
            found = {name for name in node.late if self.is_of_another(name, node)} - known
            if found:
                node.late = [name for name in node.late if name not in found]
                self.build.blind |= found

    def is_of_another(self, name: str, user: Node) -> bool:
        """Whether the recipe of a file belongs to another make than that of its user."""
        node = self.build.nodes.get(name)
        is_made = node is not None and bool(node.commands) and name in self.writers
        return node is not None and is_made and node.make != user.make

    def settle_without_rule(self) -> None:
        """Takes away prerequisites that recipes write and for which the tool has no rule, as those
        of dependency files: it looks at such a file when it comes to it, perhaps too early."""
        for node in list(self.build.nodes.values()):
            found = {name for name in node.prerequisites(later=True) if self.is_without_rule(name)}
            if found and node.has_rule:
                groups = node.groups
                node.groups = [[name for name in group if name not in found] for group in groups]
                node.order_only = [name for name in node.order_only if name not in found]
                node.late = [name for name in node.late if name not in found]
                self.build.blind |= found

    def is_without_rule(self, name: str) -> bool:
        """Whether recipes write a file for which there is no rule."""
        node = self.build.nodes.get(name)
        has_rule = node is not None and node.has_rule
        return name in self.writers and not has_rule and not self.exists(name)

    def drop_own(self, node: Node, record: Record) -> None:
        """Takes away prerequisites that the recipe itself writes, such as its dependency file."""
        own = {
            name
            for name in record.writes
            if name != node.name and self.writers[name] == [node.name] and self.is_bare(name)
        }
        if own:
            node.groups = [[name for name in group if name not in own] for group in node.groups]
            node.order_only = [name for name in node.order_only if name not in own]
            node.late = [name for name in node.late if name not in own]

    def is_bare(self, name: str) -> bool:
        """Whether a name has neither commands nor prerequisites."""
        node = self.build.nodes.get(name)
        return node is None or not (node.commands or node.prerequisites(later=True))

    def test_limits(self, node: Node, record: Record) -> None:
        """Whether commands that are to use no files of the project do."""
        for sentence, files in (
            (node.uses_no_files, [*record.reads, *record.writes]),
            (node.writes_no_files, record.writes),
        ):
            used = [name for name in files if not self.footprints.is_fixed(name)]
            if sentence and used:
                text = sentence.replace("{file}", used[0])
                self.build.question(text, node.piece_of or node.name)

    def rename_phony(self) -> None:
        """Gives nodes that are no files, and have the name of a file that recipes use, another
        name."""
        used = {name for record in self.footprints.records.values() for name in record.reads}
        used.update(self.writers)
        for name in [name for name in self.build.nodes if name in used]:
            if self.build.nodes[name].kind is not Kind.FILE:
                self.rename(name, unused(f"{name}@phony", self.build))

    def rename(self, old: str, new: str) -> None:
        """Gives a node another name."""
        node = self.build.nodes.pop(old)
        self.build.nodes[new] = node
        node.known_as = node.known_as or old
        node.name = new
        self.build.goals = [new if name == old else name for name in self.build.goals]
        for other in self.build.nodes.values():
            other.groups = [[new if n == old else n for n in group] for group in other.groups]
            other.order_only = [new if n == old else n for n in other.order_only]
            other.late = [new if n == old else n for n in other.late]
            other.first_only = [new if n == old else n for n in other.first_only]
        self.renamed[old] = new
        record = self.footprints.records.pop(old, None)
        if record is not None:
            record.target = new
            self.footprints.records[new] = record

    def drop_relinked(self) -> None:
        """What needs the symbols of a library of Meson reads the library without a way, on
        purpose."""
        for record in self.footprints.records.values() if self.build.relinked else ():
            met = [name for name in record.reads if name in self.build.relinked]
            needed = followed(self.build, record.target) if met else set()
            gone = {name for name in met if self.build.relinked[name] in needed}
            if gone and record.target not in self.build.relinked.values():
                record.reads = [name for name in record.reads if name not in gone]

    def drop_configured(self) -> None:
        """Files of the configure step that no recipe writes never change: they need no way."""
        fixed = self.build.configured - set(self.writers)
        for record in self.footprints.records.values() if fixed else ():
            record.reads = [name for name in record.reads if name not in fixed]

    def add_sources(self) -> None:
        """Names that the makefiles need and nothing makes are sources, also those that no recipe
        reads."""
        known = set(self.footprints.sources)
        for later in (False, True):
            for name in self.build.reached(later):
                node = self.build.nodes.get(name)
                is_source = node is None or not node.has_rule
                if is_source and name not in known and name not in self.writers:
                    if not self.footprints.is_fixed(name):
                        known.add(name)
                        self.footprints.sources.append(name)


def unused(front: str, build: Build) -> str:
    """A name of no node."""
    name, number = front, 1
    while name in build.nodes:
        number += 1
        name = f"{front}.{number}"
    return name
