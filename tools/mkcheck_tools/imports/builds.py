"""What a front end says of a build: the form between the build tools and the plain makefile.

A front end (`gnumake`, `ninja`) fills a `Build`; `plain` writes it as a makefile; `judging` records
and checks it.

Names. A node that stands for a file has the file's path as its name: relative to the root of the
project where the file lies below it, else absolute; normalized, so that a file has one name.
`path_name` gives it. Other nodes have any other name; `plain` finds a name that a makefile can
hold, for files too.
"""

from __future__ import annotations

import enum
import functools
import os
from collections.abc import Callable, Iterable
from dataclasses import dataclass, field

# Folders of version control, and this program's own: what lies in them is no file of the project.
FOREIGN = (".git", ".hg", ".svn", ".mkcheck")


class Kind(enum.Enum):
    """What a node stands for."""

    FILE = "file"
    """A file, whether there is a rule for it or not."""

    PHONY = "phony"
    """Never a file. What needs it runs in every make, as with a target of .PHONY."""

    ORDER = "order"
    """Never a file. What needs it waits for its prerequisites, and isn't out of date by them."""


@dataclass(frozen=True)
class Origin:
    """Where a rule stands: the makefile's path from the root, and the line, where the build tool
    tells it."""

    makefile: str
    line: int | None = None

    def __str__(self) -> str:
        return self.makefile if self.line is None else f"{self.makefile}:{self.line}"


@dataclass(frozen=True)
class Command:
    """One command as the shell gets it: macros are expanded, and prefixes such as `@` are gone.

    A newline may stand in it. Where `ignored`, the build goes on when it fails.
    """

    text: str
    ignored: bool = False


@dataclass(frozen=True)
class Setting:
    """How the commands of a recipe are run."""

    folder: str = "."
    """The folder in which they run, a path from the root."""

    shell: tuple[str, ...] = ("/bin/sh", "-c")
    """The words in front of the text of a command."""

    exports: tuple[tuple[str, str], ...] = ()
    """Variables of the environment that the build tool sets for them, with their values."""

    unset: tuple[str, ...] = ()
    """Variables of the environment that the build tool keeps from them."""


@dataclass
class Node:
    """A target, or a file without a rule."""

    name: str

    kind: Kind = Kind.FILE

    has_rule: bool = True
    """False for a file that nothing makes: a source, or a file of the system."""

    groups: list[list[str]] = field(default_factory=lambda: [[]])
    """Normal prerequisites, names of nodes. All of a group are done before one of the next group
    begins. They order the recipe, and it is out of date where one of them is newer."""

    order_only: list[str] = field(default_factory=list)
    """Prerequisites that order the recipe, and by which it is never out of date."""

    late: list[str] = field(default_factory=list)
    """Prerequisites by which the recipe is out of date in later builds, and which don't order it in
    the first build: those that a dependency file names (`-MMD` with `-include`, `deps = gcc`), and
    files that only another make makes."""

    told: list[str] = field(default_factory=list)
    """Those of `late` that a dependency file names."""

    first_only: list[str] = field(default_factory=list)
    """Those of `groups` that the build tool knows in the first build, and no longer after it."""

    commands: list[Command] = field(default_factory=list)
    """The recipe; without commands the node has none."""

    setting: Setting = Setting()

    varies: bool = False
    """Whether the commands depend on which prerequisites are newer, as by `$?`."""

    takes_all: str = ""
    """The macro by which its commands take all prerequisites, such as `$^`; empty without one."""

    origin: Origin | None = None
    """Where its recipe stands, else one of its rules."""

    known_as: str = ""
    """Its name in the makefile of its origin; empty where that is the node's own name."""

    folder: str = "."
    """The folder from which `known_as` begins, a path from the root."""

    rereads: bool = False
    """Of a file with prerequisites and without commands: whether the tool looks at the file again
    when these are done. GNU make does so for an empty recipe, and for a recipe whose makes became
    prerequisites. Where it doesn't, a file that another recipe writes meanwhile counts as it was
    before."""

    make: int = 0
    """Which of the build's makes has the recipe. One make looks at a file that another one writes
    only when it begins."""

    also_makes: list[str] = field(default_factory=list)
    """Further files that the tool knows its recipe to make, whether the goals reach them or not."""

    piece_of: str = ""
    """The node of which this one is a part: its commands are some of that node's recipe."""

    left_alike: bool = False
    """Whether the recipe may leave its outputs as they are, and the tool then doesn't go on to what
    needs them, as ninja by `restat`, and GNU make where the time of a file stays."""

    uses_no_files: str = ""
    """Where this isn't empty, the commands are to read and write no file of the project. If the
    recording shows that they use one, this sentence, with the file in place of `{file}`, is a
    problem of the translation."""

    writes_no_files: str = ""
    """The same for files that the commands write, in place of both."""

    def prerequisites(self, later: bool) -> list[str]:
        """The names that the node needs, without repeats: in the first build, or in later ones."""
        gone = set(self.first_only) if later else set()
        named = [name for group in self.groups for name in group if name not in gone]
        return list(dict.fromkeys([*named, *self.order_only, *(self.late if later else [])]))


@dataclass
class Build:
    """A build, as its tool reads it in one configuration."""

    root: str
    """The real path of the project's folder."""

    tool: str = ""
    """The tool and its version, for people."""

    runs_failed_again: bool = False
    """Whether the tool runs a recipe that failed again, whatever that left."""

    goals: list[str] = field(default_factory=list)
    """Names of nodes, in order."""

    nodes: dict[str, Node] = field(default_factory=dict)
    """All nodes by their names. A name that stands among prerequisites without being here is a
    source."""

    given: dict[str, str] = field(default_factory=dict)
    """Files that have a rule in the build, and are taken as they are: the reason why, as `is there
    already`. Each has a node without a rule. They are named in the answer."""

    made: set[str] = field(default_factory=set)
    """Files and folders that are there after a build by the tool itself, and not before; of
    folders also the names with a slash. Empty where no build was made."""

    configured: set[str] = field(default_factory=set)
    """Files of the project that were written when it was configured: they never change, and aren't
    sources."""

    generators: dict[str, str] = field(default_factory=dict)
    """The tools that wrote makefiles when the project was configured."""

    makefiles: set[str] = field(default_factory=set)
    """Makefiles with commands or macros that no rule of their make makes: where a recipe writes
    one, the build isn't the same after it."""

    remade: dict[str, list[str]] = field(default_factory=dict)
    """Makefiles with commands or macros that make makes anew, each with what it is made from."""

    starters: dict[int, str] = field(default_factory=dict)
    """For each make that another one starts, the node whose recipe does so."""

    read_made: set[str] = field(default_factory=set)
    """Files that the build tool made or changed when it read its makefiles, and may not make anew
    when what they are made from changes."""

    read_again: set[str] = field(default_factory=set)
    """Files that it makes anew each time it reads its makefiles: sources that are always new."""

    old_dependencies: set[str] = field(default_factory=set)
    """Dependency files that are there before the build."""

    unsure_dependencies: set[str] = field(default_factory=set)
    """Those of them that a fresh copy of the project may lack, and without which make does."""

    tried: set[str] = field(default_factory=set)
    """Recipes and folders, as `RECIPE FOLDER`: the recipe does the same without the folder."""

    blind: set[str] = field(default_factory=set)
    """Targets without a recipe that another recipe writes, and that the tool doesn't look at again
    then; what needs them only waits for them. Known when the recording is there."""

    relinked: dict[str, str] = field(default_factory=dict)
    """Shared libraries of Meson, each with the file of its symbols: what needs the latter is made
    again only when the symbols change, on purpose."""

    unmended: dict[str, str] = field(default_factory=dict)
    """Files with `left_alike` that their recipes keep whatever they hold: for each the problem, if
    its recipe reads anything that can change."""

    unread: dict[str, list[str]] = field(default_factory=dict)
    """Dependency files that the build writes and no make reads, each with what it names."""

    unaware: dict[str, list[str]] = field(default_factory=dict)
    """Targets that the tool doesn't make again when a file changes on which their commands depend,
    as the tool itself showed: for each the target, the file, and what differs."""

    waited: dict[str, list[str]] = field(default_factory=dict)
    """Recipes at which a build from nothing fails, since they don't wait for what others make: for
    each the sentence, and the names of these targets."""

    failed: str = ""
    """Where this isn't empty, a part of the build fails, so it can't be recorded: the sentence."""

    problems: list[str] = field(default_factory=list)
    """What couldn't be read, translated or recorded, each as a sentence that says what to do. With
    one the answer is no whole yes."""

    unjudged: set[str] = field(default_factory=set)
    """The recipes of which the problems tell, where they tell of some."""

    notes: list[str] = field(default_factory=list)
    """What was left out or changed on purpose, each as a sentence. They stand in the log and are
    counted in the answer."""

    subjects: dict[str, str] = field(default_factory=dict)
    """The target of each problem, and the target or folder of each note, that is about one."""

    unwritten: list[str] = field(default_factory=list)
    """Targets that aren't declared phony, and that their recipes don't write: the tool runs these
    in each build. They are named in the answer, since a recipe that fails unseen looks so too."""

    def problem(self, text: str, *recipes: str) -> None:
        """Adds a problem, once, and the recipes that it keeps from being judged."""
        if text not in self.problems:
            self.problems.append(text)
        if len(recipes) == 1:
            self.subjects[text] = recipes[0]
        self.unjudged.update(recipes)

    def question(self, text: str, subject: str) -> None:
        """Adds a problem that is about one target, file or folder, and keeps no recipe from being
        judged. The project's own folder is no subject."""
        self.problem(text)
        if subject not in ("", "."):
            self.subjects[text] = subject

    def note(self, text: str, subject: str = "") -> None:
        """Adds a note, once; `subject` is the only target that it is about, or the only folder, if
        there is one."""
        if text not in self.notes:
            self.notes.append(text)
        if subject:
            self.subjects[text] = subject

    def node(self, name: str) -> Node:
        """The node of a name; a new one is a file without a rule."""
        return self.nodes.setdefault(name, Node(name, has_rule=False))

    def reached(self, later: bool) -> list[str]:
        """The names that the goals reach, in serial order.

        `later` tells whether the prerequisites are those of the first build or of later ones.
        """
        return serial_order(self.goals, lambda name: self.needs(name, later))

    def needs(self, name: str, later: bool) -> list[str]:
        """The prerequisites of a name in the first build or in later ones; none without a rule."""
        node = self.nodes.get(name)
        return node.prerequisites(later) if node is not None and node.has_rule else []


def serial_order(
    goals: Iterable[str], needs: Callable[[str], list[str]], without: Iterable[str] = ()
) -> list[str]:
    """The names that goals reach, each after what it needs; a cycle is cut.

    The names of `without` are left out, and so is what only they need.
    """
    seen = set(without)
    found: list[str] = []
    stack = [(name, False) for name in reversed(list(goals))]
    while stack:
        name, is_done = stack.pop()
        if is_done:
            found.append(name)
        elif name not in seen:
            seen.add(name)
            stack.append((name, True))
            stack += [(word, False) for word in reversed(needs(name))]
    return found


@functools.lru_cache(1 << 16)
def path_name(root: str, folder: str, text: str) -> str:
    """The name of the node for the file that `text` names in a folder, given by its real path."""
    full = os.path.normpath(os.path.join(folder, text))
    if full.startswith("//"):
        full = full[1:]
    if full == root:
        return "."
    return full[len(root) + 1 :] if full.startswith(root + "/") else full


def in_folder(folder: str) -> str:
    """The words for what is or happens in a folder, a path from the root."""
    return "in the project's folder" if folder in (".", "") else f"in {folder}"


def is_foreign(name: str) -> bool:
    """Whether a file lies in a folder whose files aren't the project's."""
    return any(part in FOREIGN for part in name.split("/")[:-1])
