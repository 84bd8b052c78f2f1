"""Turns what GNU make said of a build into the form of `builds`."""

from __future__ import annotations

import shlex
from dataclasses import replace

from mkcheck_tools.imports.builds import Build, Command, Kind, Node, in_folder
from mkcheck_tools.imports.cmake import is_beside
from mkcheck_tools.imports.commands import Commands
from mkcheck_tools.imports.database import Rule, Shown
from mkcheck_tools.imports.expanded import Expanded
from mkcheck_tools.imports.failing import below_last, failure_of_make
from mkcheck_tools.imports.gnumake import Make
from mkcheck_tools.imports.plain import printf_format
from mkcheck_tools.imports.recursion import is_only_makes, runs_at_once, without_makes
from mkcheck_tools.imports.views import Edge, View


def writing(one: Expanded) -> Command:
    """A command that writes a file as make does when it expands a recipe."""
    return Command(f"printf {printf_format(one.text)} > {shlex.quote(one.name)}")


class Translation(Commands):
    """The translation of one build."""

    def translate(self) -> Build:
        """The build, without what the build tool knows only after a build."""
        self.index()
        self.name_failed(self.makes)
        if not self.makes or not self.makes[0].transcript.is_whole:
            return self.build
        top = self.makes[0]
        view = self.views[top.key]
        goals = [name for goal in top.goals for name in self.edge(view, goal).normal]
        if view.is_serial and len(goals) > 1:
            name = self.unused("goals@serial")
            self.build.nodes[name] = Node(name, Kind.PHONY, groups=[[goal] for goal in goals])
            goals = [name]
        self.build.goals = list(dict.fromkeys(goals))
        self.fill_all()
        self.prune_given()
        return self.build

    def name_failed(self, makes: list[Make]) -> None:
        """Names makes that failed, though the one that started them may have gone on; not those
        that only failed since one below them did."""
        for make in makes:
            if make.status != 0:
                if below_last(make, makes) is None:
                    folder = self.short(make.folder)
                    self.build.question(
                        f"make failed {in_folder(folder)} with status {make.status}:"
                        f" {failure_of_make(self.root, make, makes).brief}",
                        folder,
                    )
                self.build.failed = (
                    "a make that a recipe starts fails, and the build goes on (by a `-` before the"
                    " command, `-k` or `||`): what is left then can't be judged; mend that make, or"
                    " leave it out"
                )

    def fill_all(self) -> None:
        """Fills in all nodes that were met."""
        while self.waiting:
            self.fill(*self.waiting.popleft())
        for view, node, rules in self.repeated:
            if not self.is_same_recipe(view, node, rules):
                self.build.problem(
                    f"several makes have a recipe for {node.name}, with other commands or another"
                    " environment, and which of these it gets isn't judged; let one makefile have"
                    " the rule",
                    node.name,
                )

    def is_same_recipe(self, view: View, node: Node, rules: list[Rule]) -> bool:
        """Whether the recipe that a make has for a file is that of its node: then only one of them
        runs, unless the makes run beside each other."""
        shown = [command for rule in rules for command in rule.commands]
        if any(self.makes_of(command) for command in shown):
            return False
        return self.commands(view, node, shown) == (node.commands, node.setting)

    def prune_given(self) -> None:
        """Files that are taken as they are keep only prerequisites for which something runs.

        Make would make such a file anew when a prerequisite of it changes, and then what needs it:
        so these are late prerequisites of what needs it.
        """
        given = self.build.given
        runs: dict[str, bool] = {}
        handed: dict[str, list[str]] = {}
        for name in self.reached_from(list(given)):
            node = self.build.nodes.get(name)
            needs = self.build.needs(name, later=False)
            is_run = any(runs.get(word, False) for word in needs)
            runs[name] = is_run or bool(node and node.commands)
            if node is not None and name in given:
                normal = [word for group in node.groups for word in group]
                inner = [word for one in normal for word in handed.get(one, [])]
                handed[name] = list(dict.fromkeys([*normal, *inner]))
        for node in self.build.nodes.values():
            if node.name not in given:
                met = [word for group in node.groups for word in group if word in handed]
                words = [word for name in met for word in handed[name]]
                node.late += [word for word in words if word not in node.late]
        for name in given:
            node = self.build.nodes[name]
            order = [word for word in node.prerequisites(later=False) if runs.get(word, False)]
            node.order_only = order
            node.groups, node.late = [[]], []
            node.has_rule = bool(order)

    def reached_from(self, names: list[str]) -> list[str]:
        """All names that these reach, each after what it needs."""
        return Build(self.root, goals=names, nodes=self.build.nodes).reached(later=False)

    def edge(self, view: View, text: str) -> Edge:
        """How a prerequisite of a view counts."""
        path = self.path(view, text)
        rules = view.rules.get(text, [])
        if not any(rule.is_target for rule in rules):
            if self.is_other_spelling(view, text):
                self.build.blind.add(path)
                return Edge()
            if any(other is not view for other in self.recipes.get(path, [])):
                return Edge(late=(path,))
            if self.is_folder(path):
                return Edge()
            if self.is_made(path):
                return Edge(late=(path,))
            self.build.node(path)
            return Edge(normal=(path,))
        name = self.visit(view, text)
        if self.is_folder(path) and not any(rule.is_phony for rule in rules):
            return Edge(order=(name,))
        if name != path and not self.is_never_there(view, text):
            if all(rule.recipe is None for rule in rules) and any(
                rule.needs or rule.order_only for rule in rules
            ):
                # Make doesn't look at it again in the make in which another recipe writes it.
                self.build.blind.add(path)
                return Edge(order=(name,))
            return Edge(order=(name,), late=(path,))
        return Edge(normal=(name,))

    def visit(self, view: View, text: str) -> str:
        """The node of a target; its prerequisites and commands are filled in later."""
        known = self.visited.get((view.number, text))
        if known is not None:
            return known
        name = self.visited[view.number, text] = self.name_of(view, text)
        path = self.path(view, text)
        rules = view.rules[text]
        leader = self.leader(view, text)
        if leader is not None:
            self.visit(view, leader)
            node = self.build.node(name)
            if not node.has_rule or not node.commands:
                node.has_rule = True
                node.groups = [[self.visit(view, leader)]]
                node.rereads = True
                self.place(node, view, rules[0])
            return name
        old = self.build.nodes.get(name)
        if old is not None and old.has_rule:
            self.again(view, old, rules)
            return name
        node = self.build.node(name)
        node.has_rule = True
        if self.is_never_there(view, text):
            node.kind = Kind.PHONY
            if any(rule.ran for rule in rules) and not any(rule.is_phony for rule in rules):
                self.build.unwritten.append(name)
        elif name != path:
            node.kind = Kind.ORDER
        self.place(node, view, rules[0])
        if len(rules) == 1:
            self.waiting.append((view, node, rules[0], text))
        else:
            self.double(view, node, rules, text)
        return name

    def again(self, view: View, node: Node, rules: list[Rule]) -> None:
        """A file that is a node already, by another view or another spelling of its name."""
        pieces = [shown for rule in rules for shown in rule.commands]
        if pieces and node.make == view.number:
            self.build.problem(
                f"{node.name}: make has a recipe for it by {node.known_as} and by {rules[0].name},"
                " and takes these for two files, so whether both recipes run at one time isn't"
                " judged; let one rule make it",
                node.name,
            )
        elif pieces:
            self.repeated.append((view, node, rules))
        for rule in rules:
            for text in [*rule.needs, *rule.order_only]:
                edge = self.edge(view, text)
                more = [name for name in [*edge.normal, *edge.late] if name not in node.late]
                node.late += [name for name in more if name != node.name]

    def leader(self, view: View, text: str) -> str | None:
        """Of several targets that one run of a recipe makes, the one whose recipe ran, where it is
        another one."""
        own = view.rules[text]
        if any(rule.ran for rule in own):
            return None
        for other in view.also.get(text, []):
            if any(rule.ran for rule in view.rules.get(other, [])):
                return other
        return None

    def double(self, view: View, node: Node, rules: list[Rule], text: str) -> None:
        """Several `::` rules: they run one after another. Where only one has a recipe they are one
        rule."""
        made = [rule for rule in rules if rule.has_recipe]
        if len(made) <= 1:
            one = made[0] if made else rules[0]
            others = [rule for rule in rules if rule is not one]
            needs = [word for rule in [one, *others] for word in rule.needs]
            order = [word for rule in [one, *others] for word in rule.order_only]
            self.waiting.append((view, node, replace(one, needs=needs, order_only=order), text))
            return
        if node.kind is not Kind.PHONY:
            self.build.problem(
                f"{node.name}: it is a file with several :: rules, each of which makes it by"
                " itself; that isn't translated; write one rule",
                node.name,
            )
        node.groups = []
        for number, rule in enumerate(rules, 1):
            piece = self.piece(node, f"rule{number}", Kind.PHONY)
            self.place(piece, view, rule)
            node.groups.append([piece.name])
            self.waiting.append((view, piece, rule, text))

    def piece(self, node: Node, word: str, kind: Kind) -> Node:
        """A new node for a part of another one."""
        name = self.unused(f"{node.name}@{word}")
        found = self.build.nodes[name] = Node(
            name,
            kind,
            origin=node.origin,
            known_as=node.known_as,
            folder=node.folder,
            make=node.make,
            piece_of=node.name,
        )
        return found

    def fill(self, view: View, node: Node, rule: Rule, text: str) -> None:
        """Fills in the prerequisites and the commands of a node."""
        self.needs(view, node, rule, view.is_serial_target(text))
        if self.is_given(view, rule, text) and not node.piece_of:
            if node.kind is Kind.FILE and self.is_folder(node.name):
                node.kind = Kind.ORDER
            elif node.kind is Kind.FILE:
                self.build.given[node.name] = "it is there, and make has nothing to do for it"
            return
        if "(" in rule.name and rule.has_recipe:
            self.build.problem(
                f"{node.name}: a member of an archive as target isn't translated; let the archive"
                " be the target",
                node.name,
            )
        written = self.expanded.get((view.folder, rule.name), [])
        is_run = rule.ran or bool(written)
        if rule.has_recipe and not is_run and not (rule.is_done and not self.is_made(node.name)):
            self.build.problem(
                f"{self.place_of(node)}: make didn't run the recipe of {node.name}, which another"
                " recipe made first, or which make didn't come to: what it does isn't judged; let"
                " one recipe make it, and the others need it",
                node.name,
            )
        node.rereads = rule.recipe is not None
        if rule.double_colon and not rule.needs and node.kind is Kind.FILE and rule.has_recipe:
            force = self.piece(node, "always", Kind.PHONY)
            node.groups[0].append(force.name)
        if any(self.makes_of(command) for command in rule.commands):
            self.recursive(view, node, rule, text)
            return
        if node.kind is Kind.ORDER and rule.does_nothing:
            return
        node.commands, node.setting = self.commands(view, node, rule.commands)
        if written:
            node.setting = replace(node.setting, folder=self.short(view.folder))
            node.commands = [*map(writing, written), *node.commands]
            names = ", ".join(one.name for one in written)
            self.build.note(
                f"{self.place_of(node)}: make writes {names} by $(file ..) when it expands the"
                f" recipe of {node.name}: that counts as a command of it",
                node.name,
            )
        node.also_makes = [self.path(view, other) for other in rule.also_makes]
        node.varies = rule.varies and rule.ran

    def is_given(self, view: View, rule: Rule, text: str) -> bool:
        """Whether a file with a recipe is taken as it is: make found nothing to do for it."""
        path = self.path(view, text)
        is_left = rule.has_recipe and not rule.ran and rule.is_done
        return is_left and not rule.is_phony and self.exists(path)

    def needs(self, view: View, node: Node, rule: Rule, serial: bool) -> None:
        """The prerequisites of a rule."""
        groups: list[list[str]] = [[]]
        for word in rule.needs:
            if word == ".WAIT" and view.has_wait:
                groups.append([])
                continue
            edge = self.edge(view, word)
            if serial and groups[-1]:
                groups.append([])
            groups[-1] += [name for name in edge.normal if name != node.name]
            node.late += [name for name in edge.late if name != node.name]
            self.add_order(node, groups, edge.order, serial)
        for word in rule.order_only:
            edge = self.edge(view, word)
            made = [name for name in edge.normal if self.build.node(name).has_rule]
            self.add_order(node, groups, (*made, *edge.order), serial)
        if node.groups:
            groups[0] = [*node.groups.pop(), *groups[0]]
        node.groups += groups

    def add_order(
        self, node: Node, groups: list[list[str]], names: tuple[str, ...], serial: bool
    ) -> None:
        """Adds prerequisites that only order."""
        for name in names:
            if not serial:
                if name not in node.order_only:
                    node.order_only.append(name)
                continue
            piece = self.piece(node, "order", Kind.ORDER)
            piece.groups = [[name]]
            groups.append([piece.name])

    def recursive(self, view: View, node: Node, rule: Rule, text: str) -> None:
        """A recipe that starts makes: their goals come after its prerequisites, one make after
        another."""
        if not self.is_never_there(view, text):
            node = self.made_below(view, node, rule)
        plain: list[Shown] = []
        for command in rule.commands:
            makes = self.makes_of(command)
            if not makes:
                plain.append(command)
                continue
            self.run_piece(view, node, plain)
            plain = []
            for make in makes:
                self.start(node, make)
            if command.ignored:
                folder = self.short(makes[0].folder)
                self.build.note(
                    f"{self.place_of(node)}: the recipe of {node.name} goes on when the make"
                    f" {in_folder(folder)} fails (by `-`): then a make that ends well may leave old"
                    " files, which isn't judged",
                    folder,
                )
            if runs_at_once(command.text):
                self.build.question(
                    f"{self.place_of(node)}: the recipe of {node.name} starts makes that run beside"
                    " each other, which isn't judged; give each of them a target of its own",
                    node.name,
                )
            if not is_only_makes(command.text, self.wrapper):
                rest = without_makes(command.text, self.wrapper)
                piece = self.run_piece(view, node, [replace(command, text=rest)])
                piece.uses_no_files = (
                    f"{self.place_of(node)}: the recipe of {node.name} starts make, and a command"
                    " of it does more: it uses the file {file}, and when it does so isn't judged;"
                    " give that part a target of its own"
                )
        self.run_piece(view, node, plain)

    def made_below(self, view: View, node: Node, rule: Rule) -> Node:
        """A file whose recipe starts makes: the makes are started by a node that only orders. Gives
        that node."""
        if not any(self.is_never_there(view, word) for word in rule.needs if view.rules.get(word)):
            self.build.question(
                f"{self.place_of(node)}: the recipe of {rule.name} starts make only where"
                f" {rule.name} isn't there or is older than its prerequisites, and what that make"
                " does then isn't judged; let it start make always, by a phony prerequisite",
                rule.name,
            )
        if node.kind is Kind.ORDER:
            return node
        order = self.piece(node, "makes", Kind.ORDER)
        order.groups, order.order_only, order.late = node.groups, node.order_only, node.late
        node.groups, node.order_only, node.late = [[order.name]], [], []
        node.rereads = True
        return order

    def holder(self, node: Node) -> Node:
        """The node that holds the prerequisites of a node: itself, or the part that starts its
        makes."""
        part = self.build.nodes.get(f"{node.name}@makes")
        return node if part is None or part.piece_of != node.name else part

    def run_piece(self, view: View, node: Node, shown: list[Shown]) -> Node:
        """Lets commands run as a part of a node, after all that it needs so far."""
        if all(is_beside(command.text) for command in shown):
            return Node("")
        piece = self.piece(node, "commands", Kind.PHONY)
        piece.commands, piece.setting = self.commands(view, piece, shown)
        node.groups.append([piece.name])
        return piece

    def start(self, node: Node, make: Make) -> None:
        """Lets the goals of a make be made after all that a node needs so far."""
        if not make.transcript.is_whole:
            return
        view = self.views[make.key]
        self.starts.append((make, node.name, len(node.groups)))
        self.build.starters.setdefault(view.number, node.name)
        groups: list[list[str]] = [[]]
        for goal in make.goals:
            if any(rule.is_target for rule in view.rules.get(goal, [])):
                edge = self.edge(view, goal)
                if (view.is_serial or make.has_one_job) and groups[-1]:
                    groups.append([])
                groups[-1] += [*edge.normal, *edge.order]
        node.groups += groups
