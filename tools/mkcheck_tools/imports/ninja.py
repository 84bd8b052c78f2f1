"""The front end for ninja: translates what `build.ninja` says."""

from __future__ import annotations

import os
import shlex
from collections.abc import Iterable, Mapping, Sequence

from mkcheck_tools.faults import Fault
from mkcheck_tools.imports.builds import Build, Command, Kind, Node, Origin, Setting, path_name
from mkcheck_tools.imports.ninja_files import Edge, Manifest, canonical, read_manifest
from mkcheck_tools.imports.ninja_inputs import Inputs, Resolver
from mkcheck_tools.imports.ninja_text import NinjaFault
from mkcheck_tools.imports.plain import LINE_AT_MOST, printf_format
from mkcheck_tools.run.paths import SeenPath
from mkcheck_tools.run.places import Place, run

MANIFEST = "build.ninja"
ALWAYS = "always@ninja"


class NinjaBuild:
    """A build of ninja in one folder of a project.

    `place` holds the project before the build; `folder` is that of `build.ninja`, from the root.
    """

    def __init__(self, place: Place, folder: str, manifest: Manifest, version: str = ""):
        self.place, self.folder, self.manifest = place, folder, manifest
        self.seen = SeenPath(os.path.normpath(os.path.join(place.seen, folder)))
        self.build = Build(place.seen, f"ninja {version}".rstrip(), runs_failed_again=True)
        self.resolver = Resolver(manifest, self.is_there, self.tell_of_file)
        self.names: dict[str, str] = {}
        self.makers: dict[str, Edge] = {}
        """The build line of each file, by the name of its node."""
        for path, edge in manifest.maker.items():
            if not edge.is_phony:
                self.makers.setdefault(self.name(path), edge)
        self.leaders: dict[int, str] = {}
        """The node that has the recipe of a build line."""
        self.nodes: dict[str, str | None] = {}
        """The nodes of files, as they are spelled, that were asked for."""
        self.waiting: list[Edge] = []
        self.reached: list[Edge] = []
        self.validations: list[str] = []
        self.through: dict[int, list[str]] = {}
        """The phony names by which the outputs of a build line are out of date."""

    def name(self, path: str) -> str:
        """The name of the node of a file.

        A path that reaches the project over a link above it is one of the project.
        """
        if path not in self.names:
            name = path_name(self.place.seen, self.seen, path)
            if name.startswith("/"):
                folder, base = os.path.split(name)
                other = path_name(self.place.seen, self.seen, f"{os.path.realpath(folder)}/{base}")
                name = name if other.startswith("/") else other
            self.names[path] = name
        return self.names[path]

    def real(self, path: str, place: Place | None = None) -> str:
        """Where this program finds a file, before the build or in another place."""
        return (place or self.place).real(SeenPath(os.path.normpath(os.path.join(self.seen, path))))

    def is_there(self, path: str) -> bool:
        """Whether a file or a folder is there before the build."""
        return os.path.exists(self.real(path))

    def leader(self, edge: Edge) -> Node:
        """The node with the recipe of a build line that the goals reach."""
        return self.build.nodes[self.leaders[id(edge)]]

    # Nodes

    def translate(self, words: Sequence[str]) -> Build:
        """The build of some goals; without one, of those that ninja builds without one."""
        goals = [self.goal(word) for word in words or self.manifest.roots()]
        done: set[str] = set()
        while self.waiting or self.validations:
            while self.waiting:
                edge = self.waiting.pop()
                self.reached.append(edge)
                self.fill(edge)
            # Ninja builds the validations of each line that the goals reach, in any order.
            found = [one for one in dict.fromkeys(self.validations) if one not in done]
            done.update(found)
            self.validations.clear()
            goals += [self.goal(one) for one in found if one in self.manifest.maker]
        self.build.goals = list(dict.fromkeys(goals))
        return self.build

    def goal(self, word: str) -> str:
        """The node of a goal."""
        path = self.first_use(word[:-1]) if word.endswith("^") else canonical(word)
        edge = self.manifest.maker.get(path)
        if edge is None or not edge.is_phony:
            return self.node_of(path) or self.name(path)
        is_file = self.is_there(path) and not os.path.isdir(self.real(path))
        name = f"{self.name(path)}@phony" if is_file else self.name(path)
        node = self.build.nodes[name] = Node(name, Kind.PHONY)
        node.origin, node.known_as, node.folder = self.origin(edge), path, self.folder
        inputs = self.resolver.resolve(path)
        self.validations += inputs.validations
        node.groups = [self.nodes_of(inputs.normal + inputs.order_only)]
        return name

    def first_use(self, word: str) -> str:
        """The first output of the first line that takes an input; ninja writes it `input^`."""
        path = canonical(word)
        for edge in self.manifest.edges:
            if path in edge.inputs or path in edge.order_only:
                return edge.outputs[0]
        raise Fault(f"{word}^: no build line has {word} as an input")

    def nodes_of(self, paths: Iterable[str]) -> list[str]:
        """The nodes of files, each once, without those that give neither order nor a way."""
        found = []
        for path in dict.fromkeys(paths):
            if path not in self.nodes:
                self.nodes[path] = self.node_of(path)
            found.append(self.nodes[path])
        return [name for name in dict.fromkeys(found) if name is not None]

    def node_of(self, path: str) -> str | None:
        """The node of a file, made where there isn't one."""
        edge = self.manifest.maker.get(path)
        name = self.name(path)
        if edge is None or edge.is_phony:
            return self.source(path, name)
        if edge.value("generator") and self.is_there(path):
            self.build.node(name)
            reason = f"{edge.file}:{edge.line} has `generator`, and the file is there"
            self.build.given.setdefault(name, reason)
            return name
        if id(edge) not in self.leaders:
            self.begin(edge)
        return name if self.makers.get(name) is edge else self.leaders[id(edge)]

    def source(self, path: str, name: str) -> str | None:
        """The node of a file that no build line makes under this spelling."""
        if name in self.makers:
            edge = self.makers[name]
            self.build.note(
                f"{path} is another spelling of an output of {edge.file}:{edge.line}. For ninja"
                " these are two files, so what needs it neither waits for that line nor is built"
                " again after it: spell both alike"
            )
            return None
        place = self.real(path)
        if os.path.isdir(place):
            self.build.note(f"{name} is a folder, so its time isn't compared: name files instead")
            return None
        if not name.startswith("/") and os.path.realpath(place) != place:
            return self.linked(path, name, os.path.realpath(place))
        return self.build.node(name).name

    def linked(self, path: str, name: str, place: str) -> str | None:
        """The node of a source that is reached over links: the file that ninja compares."""
        front = os.path.realpath(self.place.folder) + "/"
        target = place[len(front) :] if place.startswith(front) else name
        if target in self.makers:
            return self.source(path, target)
        return self.build.node(target).name

    def begin(self, edge: Edge) -> None:
        """Makes the nodes of the outputs of a build line; its recipe is filled in later."""
        names = list(dict.fromkeys(map(self.name, edge.outputs)))
        taken = [name for name in names if self.makers.get(name) is not edge]
        for name in taken:
            other = self.makers[name]
            self.build.question(
                f"{name} is an output of {other.file}:{other.line} and, by another spelling, of"
                f" {edge.file}:{edge.line}: let one of them make it",
                name,
            )
        names = [name for name in names if name not in taken]
        leader = names[0] if names else f"{taken[0]}@{edge.file}:{edge.line}"
        self.leaders[id(edge)] = leader
        self.waiting.append(edge)
        spellings = {self.name(path): path for path in reversed(edge.outputs)}
        for name in [leader, *names[1:]]:
            node = self.build.nodes[name] = Node(name)
            node.origin, node.folder = self.origin(edge), self.folder
            node.known_as = spellings.get(name, edge.outputs[0])
            if name != leader:
                node.groups, node.rereads = [[leader]], True

    def origin(self, edge: Edge) -> Origin:
        """Where a build line stands."""
        return Origin(self.name(edge.file), edge.line)

    def fill(self, edge: Edge) -> None:
        """The prerequisites and the recipe of a build line."""
        node = self.leader(edge)
        inputs = Inputs()
        for path in edge.inputs:
            inputs.add(self.resolver.resolve(path))
        for path in edge.order_only:
            inputs.add(self.resolver.resolve(path), order_only=True)
        self.through[id(edge)] = inputs.through
        self.validations += [*edge.validations, *inputs.validations]
        node.groups = [self.nodes_of(inputs.normal)]
        # What no build line makes is there, so it orders nothing.
        made = [path for path in inputs.order_only if path in self.manifest.maker]
        node.order_only = self.nodes_of(made)
        if inputs.always:
            self.run_always(node)
        node.setting = Setting(folder=self.folder)
        node.commands = self.commands(edge)
        self.tell(edge, node)

    def run_always(self, node: Node) -> None:
        """Lets a recipe run in each build."""
        self.build.nodes.setdefault(ALWAYS, Node(ALWAYS, Kind.PHONY))
        if ALWAYS not in node.groups[0]:
            node.groups[0].append(ALWAYS)

    def commands(self, edge: Edge) -> list[Command]:
        """What ninja does for a line: makes folders, writes a response file, runs the command."""
        found = []
        response = edge.value("rspfile", escape=str)
        if response:
            text = edge.value("rspfile_content")
            found.append(Command(f"printf {printf_format(text)} > {shlex.quote(response)}"))
        above = [os.path.dirname(path) for path in edge.outputs]
        folders = list(dict.fromkeys(filter(None, above)))
        made = [f"test -d {word} || mkdir -p {word}; " for word in map(shlex.quote, folders)]
        return [*found, Command("".join(made) + edge.value("command"))]

    # What is said in the log and in the answer

    def tell_of_file(self, path: str, edge: Edge) -> None:
        """Says that a phony name is a file too."""
        self.build.note(
            f"{self.name(path)} is a phony name of {edge.file}:{edge.line}, and it is there: ninja"
            " compares its own time, so its inputs are taken as order-only"
        )

    def tell(self, edge: Edge, node: Node) -> None:
        """Says what of a build line can't be translated."""
        where = f"{edge.file}:{edge.line}"
        dyndep = edge.value("dyndep", escape=str)
        if dyndep and not edge.dyndep_is_known:
            self.build.question(
                f"{where} has `dyndep`, and {dyndep} isn't there, which tells what {node.known_as}"
                " needs: it is known after a build",
                node.known_as,
            )
        for path in edge.told_too_late:
            self.build.question(
                f"{path} is an output of {where} by {dyndep} alone, and another build line takes"
                " it: ninja may begin that line before it knows; name the output in the manifest",
                path,
            )
        if edge.value("deps") not in ("", "gcc"):
            self.build.question(
                f"{where} has `deps = {edge.value('deps')}`, which isn't translated: the"
                " compiler's output tells what it needs. Use deps = gcc",
                node.known_as,
            )
        if edge.value("generator"):
            self.build.note(f"{where} has `generator`: it is taken as any other build line")
        for command in node.commands:
            if len(command.text.encode("utf-8", "surrogateescape")) > LINE_AT_MOST:
                self.build.problem(
                    f"the command of {where} has over {LINE_AT_MOST} bytes, more than mkcheck"
                    " takes in a line: let it read a response file"
                )


def read_ninja(
    place: Place, folder: str, words: Sequence[str], environment: Mapping[str, str]
) -> tuple[Manifest, str]:
    """Reads the manifest in a folder of a project, given by its path from the root.

    Also gives the version of ninja, which is asked in the place, a copy of the project, whether it
    could build the goals. Raises `Fault` where ninja, or its files, allow no build.
    """
    version = run(["ninja", "--version"], place, environment)
    if version.status:
        raise Fault("ninja isn't there: install it (Debian: apt-get install ninja-build)")
    seen = SeenPath(os.path.normpath(os.path.join(place.seen, folder)))
    try:
        manifest = read_manifest(place.real(seen), MANIFEST)
        has_dyndep = any(edge.value("dyndep") for edge in manifest.edges)
    except NinjaFault as fault:
        raise Fault(str(fault)) from None
    asked = ["ninja", "-C", seen]
    if any(canonical(name) in manifest.maker for name in manifest.files):
        check_manifest(seen, place, environment)
    tried = run([*asked, "-n", *words], place, environment)
    # Without a build ninja can't load dyndep files, and fails.
    if tried.status and not has_dyndep:
        said = [line for line in tried.output.splitlines() if line.startswith("ninja: ")]
        reason = said[-1].removeprefix("ninja: ") if said else f"status {tried.status}"
        raise Fault(f"ninja can't build this: {reason}")
    return manifest, version.output.strip()


def check_manifest(seen: SeenPath, place: Place, environment: Mapping[str, str]) -> None:
    """Raises `Fault` where ninja would write its own files anew before it builds."""
    tried = run(["ninja", "-C", seen, "-n", MANIFEST], place, environment)
    if "ninja: no work to do." not in tried.output:
        lines = tried.output.splitlines()
        said = [line for line in lines if not line.startswith("ninja: Entering")]
        folder = os.path.relpath(seen)
        wanted = shlex.join(["ninja", *([] if folder == os.curdir else ["-C", folder]), MANIFEST])
        raise Fault(
            f"{MANIFEST} is older than what it is made from, so ninja would make it anew first"
            f" ({'; '.join(said[:2])}): run `{wanted}`, and then this again"
        )
