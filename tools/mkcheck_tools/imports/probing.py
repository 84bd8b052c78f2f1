"""Recipes that write something else if another recipe's folder is missing or has other names in it.

Footprints name files and no folders. So `check` doesn't see it when the recipe that makes the
folder runs again, and the one that looks at the folder doesn't and keeps its old outputs.
"""

from __future__ import annotations

import contextlib
import os
import re
import shutil
import stat
from collections.abc import Iterable, Iterator, Mapping
from dataclasses import dataclass, field

from mkcheck_tools.book.footprint_files import Footprints, Record
from mkcheck_tools.book.states import Entry as Recording
from mkcheck_tools.imports.builds import Build, Node, path_name
from mkcheck_tools.imports.copies import run_here
from mkcheck_tools.imports.gnumake import content
from mkcheck_tools.imports.kept import Entry, Tried, basis_of, digest_of_value
from mkcheck_tools.imports.plain import shell_text
from mkcheck_tools.imports.readings import followed
from mkcheck_tools.imports.telling import Far
from mkcheck_tools.run.places import Place

BETWEEN_WORDS = re.compile(r"[\s;&|()<>\"'`=:{}\[\]]+")
SCRIPT_AT_MOST = 1 << 20
# How many recipes are tried at most, each by two runs.
TRIED_AT_MOST = 40
ASIDE = "mkcheck-aside"
# A word that may be the name of a file, or a pattern of the shell.
NAME = re.compile(r"(?<![-\w])[\w.+*?][\w.+*?-]*")
WORDS_AT_MOST = 2000


# What comes of trying a recipe: it writes the same, it writes a file otherwise, it fails when it
# runs again; too many others were tried, or there is no copy in which it could be.
SAME, OTHER, FAILS, UNTRIED, UNKNOWN = "same", "other", "fails", "untried", "unknown"


@dataclass(frozen=True)
class Before:
    """What is known of recipes before any is tried."""

    looked: Mapping[str, list[str]]
    """At which folders each looked."""

    recordings: Mapping[str, Recording] = field(default_factory=dict)
    files: Mapping[str, Entry] = field(default_factory=dict)
    """What stands in the project."""

    tried: Mapping[str, Tried] = field(default_factory=dict)
    """What came of trying recipes in the import before."""


class Probing:
    """Finds such recipes, and tries them in a copy of the project that was built, where there is
    one. What came of that before holds where all on which it depends is the same."""

    def __init__(
        self,
        build: Build,
        footprints: Footprints,
        before: Before,
        built: Place | None,
        environment: dict[str, str],
    ) -> None:
        self.build, self.footprints, self.before = build, footprints, before
        self.looked = before.looked
        self.built, self.environment = built, environment
        made = [name for name in build.made if name.endswith("/")]
        self.folders = sorted(name.rstrip("/") for name in made)
        self.words: dict[str, set[str]] = {}

    def waiting(self) -> Iterator[tuple[Node, Record, list[str]]]:
        """The recipes to which such folders may matter, each with these folders, but for those that
        were tried."""
        for record in list(self.footprints.records.values()) if self.folders else ():
            node = self.build.nodes.get(record.target)
            found = self.met(node, record) if node is not None else []
            # Scripts that the build makes aren't there without one, so what they spell isn't met.
            known = self.before.tried.get(record.target)
            found = [name for name in self.folders if name in (*found, *known_folders(known))]
            found = [name for name in found if f"{record.target} {name}" not in self.build.tried]
            if node is not None and found:
                yield node, record, found

    def needs_build(self) -> bool:
        """Whether there are recipes that have to be tried in a copy of the project that is
        built."""
        return any(self.known(*waiting) is None for waiting in self.waiting())

    def probe(self, far: Far) -> dict[str, Tried]:
        """Adds a problem for each recipe to which such a folder matters; gives what came of trying
        recipes, now or before. `far` tells how far that is."""
        results: dict[str, Tried] = {}
        left = TRIED_AT_MOST
        for node, record, found in far.each("tried", [*self.waiting()], lambda one: one[0].name):
            one = self.known(node, record, found)
            if one is None:
                what, file = UNKNOWN, ""
                if self.built is not None:
                    what, file = self.tried(node, record, found) if left else (UNTRIED, "")
                    left = max(left - 1, 0)
                one = Tried(tuple(found), what, file, self.basis(node, record))
            self.tell(node, record, one)
            if one.what != UNKNOWN:
                results[record.target] = one
        return results

    def known(self, node: Node, record: Record, folders: list[str]) -> Tried | None:
        """What came of trying a recipe with these folders before, where that holds."""
        one = self.before.tried.get(record.target)
        if one is None or not one.basis or list(one.folders) != folders:
            return None
        return one if one.basis == self.basis(node, record) else None

    def basis(self, node: Node, record: Record) -> str:
        """A digest of all on which it depends what a recipe does, without some folders too: what it
        was recorded to look at, and the files that its commands and scripts spell. Empty where that
        isn't known."""
        recordings = self.before.recordings
        own = basis_of(recordings.get(record.target) or recordings.get(node.piece_of or ""))
        spelled = self.words_in(self.build.root, node, record)
        files = sorted((name, self.before.files.get(name)) for name in spelled)
        return digest_of_value([own, [one for one in files if one[1] is not None]]) if own else ""

    def sentence(self, node: Node, folder: str) -> str:
        """The beginning of what is said of a recipe."""
        return (
            f"{self.where(node)}: whether what the recipe of {node.name} writes depends on the"
            f" folder {folder}"
        )

    def where(self, node: Node) -> str:
        """Where a recipe stands."""
        return str(node.origin) if node.origin else self.build.tool

    def tell(self, node: Node, record: Record, tried: Tried) -> None:
        """Says what came of trying a recipe with and without folders."""
        text = self.sentence(node, tried.folders[0])
        if tried.what == UNKNOWN:
            self.build.problem(
                f"{text} isn't known without a build: import without --only", node.name
            )
        elif tried.what == UNTRIED:
            self.build.problem(
                f"{text} wasn't tried, since {TRIED_AT_MOST} other recipes were; let it make the"
                " folder itself (mkdir -p), or need a file in it",
                node.name,
            )
        elif tried.what == SAME:
            self.build.tried.update(f"{record.target} {name}" for name in tried.folders)
            looked = self.looked.get(record.target, [])
            for name in (name for name in tried.folders if f"{name}/" in looked):
                self.build.note(
                    f"{self.where(node)}: the recipe of {node.name} reads the names in the folder"
                    f" {name}, which another recipe makes, and isn't run again when they change: it"
                    " wrote the same with all other names that were tried",
                    node.name,
                )
        elif tried.what == FAILS:
            self.build.problem(
                f"{text} couldn't be tried, since that recipe fails when it runs again; let it"
                " succeed then, or need a file in the folder",
                node.name,
            )
        else:
            self.build.problem(
                f"{self.where(node)}: the recipe of {node.name} writes {tried.file} otherwise where"
                f" the folder {tried.folders[0]}, which another recipe makes, isn't there or holds"
                f" other names; {node.name} isn't made again when that changes; let it look at a"
                " file that it needs",
                node.name,
            )

    def met(self, node: Node, record: Record) -> list[str]:
        """The folders that may matter to a recipe: it names them or looks at them, uses no file in
        them, and doesn't always run when the recipes do that make them."""
        used = [*record.reads, *record.writes]
        words, looked = self.words_of(node, record), self.looked.get(record.target, [])
        found = []
        for name in self.folders:
            if name == node.name:
                continue
            is_met = name in looked or is_named(name, words)
            if is_met and not any(file.startswith(name + "/") for file in used):
                makers = self.makers(name) - {record.target}
                if not makers or not makers <= followed(self.build, node.name):
                    found.append(name)
        return found

    def words_of(self, node: Node, record: Record) -> set[str]:
        """The words of a recipe, and of the scripts of the project that it reads, as paths."""
        if record.target not in self.words:
            place = self.built.folder if self.built is not None else self.build.root
            self.words[record.target] = self.words_in(place, node, record)
        return self.words[record.target]

    def words_in(self, place: str, node: Node, record: Record) -> set[str]:
        """The same, with the scripts that are in a place."""
        texts = [(node.setting.folder, command.text) for command in node.commands]
        for name in record.reads:
            path = os.path.join(place, name)
            if not name.startswith("/") and os.access(path, os.X_OK) and is_short(path):
                text = content(path).decode("utf-8", "replace")
                texts += [(node.setting.folder, text)] if text.startswith("#!") else []
        return {
            path_name(self.build.root, os.path.join(self.build.root, folder), word)
            for folder, text in texts
            for word in BETWEEN_WORDS.split(text)
            if word
        }

    def makers(self, folder: str) -> set[str]:
        """The recipes that may make a folder: they name it, or write files in it."""
        found = set()
        for record in self.footprints.records.values():
            node = self.build.nodes.get(record.target)
            inside = any(name.startswith(folder + "/") for name in record.writes)
            if node is not None and (inside or self.is_maker(node, record, folder)):
                found.add(record.target)
        return found

    def is_maker(self, node: Node, record: Record, folder: str) -> bool:
        """Whether a recipe names a folder, and a command by which one is made."""
        texts = " ".join(command.text for command in node.commands)
        return node.name == folder or (
            re.search(r"\b(mkdir|install|mv|cp|ln|tar|unzip)\b|\./", texts) is not None
            and is_named(folder, self.words_of(node, record))
        )

    def tried(self, node: Node, record: Record, folders: list[str]) -> tuple[str, str]:
        """Runs a recipe without these folders, and with more files in each: one for each ending,
        and those that the recipe spells. Gives what came of it, and the first file that it then
        writes with other contents, if it does. One that fails then alone is the same, since nobody
        overlooks that.

        A recipe that can't run over its own outputs, as `ln -s`, is run without them.
        """
        assert self.built is not None
        writes = [os.path.join(self.built.folder, name) for name in record.writes]
        paths = [os.path.join(self.built.folder, name) for name in folders]
        paths = [path for path in paths if os.path.isdir(path)]
        gone: list[str] = []
        if self.run(node):
            gone = [path for path in writes if not os.path.isdir(path)]
            if self.run_without(node, gone):
                return FAILS, ""
        before = [content(path) for path in writes]
        found = []
        for change in (without_folder, with_file):
            with contextlib.ExitStack() as stack:
                for path in paths:
                    stack.enter_context(change(path))
                if self.run_without(node, gone) == 0:
                    found += self.changed(record, before)
        words = self.spelled(node, record)
        for path in paths:
            with with_empty([os.path.join(path, word) for word in words]):
                if self.run_without(node, gone) == 0:
                    found += self.changed(record, before)
        self.run_without(node, gone)
        return (OTHER, found[0]) if found else (SAME, "")

    def changed(self, record: Record, before: list[bytes]) -> list[str]:
        """The files that a recipe writes and that hold something else than before."""
        assert self.built is not None
        pairs = zip(record.writes, before)
        folder = self.built.folder
        return [name for name, old in pairs if content(os.path.join(folder, name)) != old]

    def spelled(self, node: Node, record: Record) -> list[str]:
        """The words of a recipe, and of the scripts of the project that it reads, as names of
        files. A pattern of the shell becomes a name that it matches."""
        assert self.built is not None
        texts = [command.text for command in node.commands]
        for name in record.reads:
            path = os.path.join(self.built.folder, name)
            if not name.startswith("/") and is_short(path):
                text = content(path).decode("utf-8", "replace")
                texts += [text] if text.startswith("#!") else []
        words = dict.fromkeys(word for text in texts for word in NAME.findall(text))
        names = [word.replace("*", ASIDE).replace("?", "m") for word in words]
        return [name for name in names if name.strip(".") and len(name) < 256][:WORDS_AT_MOST]

    def run_without(self, node: Node, paths: list[str]) -> int:
        """Runs a recipe when these files are gone."""
        for path in paths:
            with contextlib.suppress(OSError):
                os.unlink(path)
        return self.run(node)

    def run(self, node: Node) -> int:
        """Runs a recipe in the copy that was built, and gives its status."""
        assert self.built is not None
        for command in node.commands:
            words = ["/bin/sh", "-e", "-c", shell_text(command, node.setting)]
            status, _, _ = run_here(self.built, words, self.environment)
            if status != 0 and not command.ignored:
                return status
        return 0


def known_folders(tried: Tried | None) -> tuple[str, ...]:
    """The folders with which a recipe was tried before, if it was."""
    return () if tried is None else tried.folders


@contextlib.contextmanager
def without_folder(path: str) -> Iterator[None]:
    """Takes a folder away for a while. One that stands there then is taken away for good."""
    aside = f"{path}.{ASIDE}"
    if not os.path.isdir(path):  # The recipe itself takes it away.
        yield
        return
    os.rename(path, aside)
    yield
    shutil.rmtree(path, ignore_errors=True)
    os.rename(aside, path)


@contextlib.contextmanager
def with_file(path: str) -> Iterator[None]:
    """Puts files into a folder for a while, one for each ending of the names in it."""
    names = os.listdir(path) if os.path.isdir(path) else []
    endings = {"", *(os.path.splitext(name)[1] for name in names)}
    with with_empty([os.path.join(path, ASIDE + ending) for ending in endings]):
        yield


@contextlib.contextmanager
def with_empty(paths: Iterable[str]) -> Iterator[None]:
    """Makes empty files for a while, where nothing stands yet."""
    added = [path for path in paths if not os.path.lexists(path)]
    for path in added:
        with contextlib.suppress(OSError):
            os.mknod(path, stat.S_IFREG | 0o666)
    yield
    for path in added:
        with contextlib.suppress(OSError):
            os.unlink(path)


def is_named(folder: str, words: set[str]) -> bool:
    """Whether words name a folder: by its path, or by an end of it from another folder."""
    parts = folder.split("/")
    return any("/".join(parts[at:]) in words for at in range(len(parts)))


def is_short(path: str) -> bool:
    """Whether a file isn't too long to be a script that is read."""
    return os.path.isfile(path) and os.path.getsize(path) <= SCRIPT_AT_MOST
