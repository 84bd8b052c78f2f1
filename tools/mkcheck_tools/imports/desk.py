"""Where an import tells what it does, and where what it makes lies until it ends."""

from __future__ import annotations

import contextlib
import os
import shutil
import time
from collections.abc import Callable, Iterable
from pathlib import Path
from typing import TypeVar

from mkcheck_tools.book.paths import path_of_notes, path_of_state, path_of_store
from mkcheck_tools.book.states import DIGEST
from mkcheck_tools.imports.judging import BOOK, FIRST, write
from mkcheck_tools.imports.kept import Kept, read_kept, text_of
from mkcheck_tools.imports.request import Request
from mkcheck_tools.imports.telling import Telling
from mkcheck_tools.replay.versions import digest_of
from mkcheck_tools.run.paths import RealPath

# The translation, for steps that are done one at a time.
SAVED = "translation.json"
LOG = "import.log"
ANSWER = "answer.json"
RESULTS = ("makefile", FIRST, BOOK, path_of_notes(BOOK), "map.json", SAVED, ANSWER)
OUTPUT = (*RESULTS, LOG)
# The folder for what the next import takes, with the recorder's own footprints and their state.
KEPT = "kept"
IMPORT = "import.json"
RECORDING = "recording.json"

Given = TypeVar("Given")


class Desk:
    """Tells the steps of an import, and holds their log and what they made.

    What is made lies in a folder for drafts. `write_output` takes it to the folder of the output,
    whole, however the import ends.
    """

    def __init__(self, request: Request, scratch: str) -> None:
        self.request = request
        self.drafts = os.path.join(scratch, "output")
        self.kept = os.path.join(self.drafts, KEPT)
        os.makedirs(self.kept)
        self.log: list[str] = []
        self.notes: tuple[str, ...] = ()
        self.telling = Telling()

    def say(self, text: str) -> None:
        """Tells something on standard error, and in the log."""
        self.log.append(text)
        self.telling.line(text)

    def step(
        self,
        word: str,
        action: Callable[[], Given],
        told: Callable[[Given], str] = lambda _: "",
        look: Callable[[], str] = lambda: "",
    ) -> Given:
        """Does a step, and gives what it gives. Its time is told, and what `told` says of it;
        `look` gives meanwhile a text with counts."""
        begun = time.monotonic()
        given = self.telling.during(word, look, action)
        self.say(f"{word:<10}{time.monotonic() - begun:6.1f} s  {told(given)}".rstrip())
        return given

    def path(self, name: str) -> str:
        """Where a file lies until the import ends."""
        return os.path.join(self.drafts, name)

    @property
    def recording(self) -> str:
        """The recorder's own footprints, beside which its state lies."""
        return os.path.join(self.kept, RECORDING)

    def take_output(self) -> None:
        """Takes what an import before has made."""
        for name in OUTPUT:
            if os.path.exists(os.path.join(self.request.output, name)):
                shutil.copyfile(os.path.join(self.request.output, name), self.path(name))

    def clear(self) -> None:
        """Takes away the results that were made so far."""
        for name in RESULTS:
            with contextlib.suppress(FileNotFoundError):
                os.unlink(self.path(name))

    def take_kept(self) -> Kept | None:
        """Takes what the import before kept."""
        return read_kept(os.path.join(self.request.output, KEPT, IMPORT))

    def take_state(self) -> None:
        """Takes the state of the recording before, for the recorder."""
        book = os.path.join(self.request.output, KEPT, RECORDING)
        state, store = path_of_state(book), path_of_store(book)
        if os.path.exists(path_of_state(self.recording)):
            return
        if os.path.isfile(state) and os.path.isdir(store):
            copy_store(store, path_of_store(self.recording))
            shutil.copyfile(state, path_of_state(self.recording))

    def keep(self, kept: Kept) -> None:
        """Keeps a translation for the next import."""
        write(os.path.join(self.kept, IMPORT), text_of(kept))
        self.write_kept()

    def log_notes(self, notes: Iterable[str]) -> None:
        """Has these notes stand at the end of the log, in place of others."""
        self.notes = tuple(notes)

    def write_output(self) -> None:
        """Writes what was made so far, and the log, into the folder for it."""
        notes = [f"note: {text}" for text in self.notes]
        write(self.path(LOG), "\n".join([*self.log, *notes]) + "\n")
        os.makedirs(self.request.output, exist_ok=True)
        for name in OUTPUT:
            draft, goal = self.path(name), os.path.join(self.request.output, name)
            if os.path.exists(draft):
                replace(draft, goal)
            elif os.path.exists(goal):
                os.unlink(goal)
        self.write_kept()

    def write_kept(self) -> None:
        """Writes what the next import takes: first the files that recipes left, then the state."""
        goal = os.path.join(self.request.output, KEPT)
        state, book = path_of_state(self.recording), os.path.join(goal, RECORDING)
        os.makedirs(goal, exist_ok=True)
        if os.path.exists(state):
            store, there = path_of_store(self.recording), path_of_store(book)
            copy_store(store, there)
            replace(state, path_of_state(book))
            for name in set(os.listdir(there)) - set(os.listdir(store)):
                if DIGEST.fullmatch(name):
                    os.unlink(os.path.join(there, name))
        draft = os.path.join(self.kept, IMPORT)
        if os.path.exists(draft):
            replace(draft, os.path.join(goal, IMPORT))

    def digests(self, folder: str) -> dict[str, str]:
        """Digests of the results that lie in a folder."""
        paths = {name: os.path.join(folder, name) for name in RESULTS}
        return {
            name: digest_of(RealPath(path)) for name, path in paths.items() if os.path.isfile(path)
        }

    def text(self, name: str) -> str:
        """What a file holds that was made."""
        return Path(self.path(name)).read_text(encoding="utf-8", errors="surrogateescape")


def replace(draft: str, goal: str) -> None:
    """Copies a file with its time, whole or not at all."""
    shutil.copy2(draft, f"{goal}.new")
    os.replace(f"{goal}.new", goal)


def copy_store(store: str, goal: str) -> None:
    """Copies the files that recipes left, by links where the disk allows it, but for those that are
    there already."""
    os.makedirs(goal, exist_ok=True)
    for name in os.listdir(store):
        path, copied = os.path.join(store, name), os.path.join(goal, name)
        if stamp_of(path) == stamp_of(copied):
            continue
        with contextlib.suppress(FileNotFoundError):
            os.unlink(copied)
        try:
            os.link(path, copied)
        except OSError:
            replace(path, copied)


def stamp_of(path: str) -> tuple[int, int] | None:
    """The size and the time of a file; None where it isn't there."""
    try:
        status = os.stat(path)
    except OSError:
        return None
    return status.st_size, status.st_mtime_ns
