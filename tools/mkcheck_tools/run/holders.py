"""Processes that hold a mount namespace, of which commands get copies.

Its mounts are made once, since making them before each command takes longer than most commands. It
is gone with the process, and that ends with this program.
"""

from __future__ import annotations

import contextlib
import os
import shutil
import subprocess
from collections.abc import Iterator, Sequence
from dataclasses import dataclass, replace

from mkcheck_tools.run import places, stopping
from mkcheck_tools.run.places import Namespace, Place, mounter, namespace

READY = b"ready\n"
HOLD = " && echo ready && exec cat > /dev/null"
# Binds a folder over another one, and stands in it.
BIND = ' --bind "$1" "$2" && cd "$2"'
HERE = "."


@dataclass(frozen=True)
class Holder:
    """Such a process."""

    number: int

    def way(self, folder: str = HERE) -> Namespace:
        """How commands get a copy of the namespace. They begin in this folder of it, or where they
        are started: shells take PWD only if it leads there."""
        own = namespace()
        assert own is not None
        enter = shutil.which("nsenter") or "nsenter"
        user = ("--user", "--preserve-credentials") if "--user" in own.enter else ()
        words = (enter, f"--wd={folder}", "--target", str(self.number), "--mount", *user, "--")
        return Namespace((*words, own.enter[0], "--mount", "--ipc", "--"), own.user)

    @property
    def standing(self) -> str:
        """The folder in which the process stands, as it is in its namespace."""
        return f"/proc/{self.number}/cwd"


@contextlib.contextmanager
def held(commands: str, words: Sequence[str]) -> Iterator[Holder | None]:
    """What holds a namespace in which a shell has run these commands with these words; None where
    the system allows none, or they failed."""
    own = namespace()
    if own is None or shutil.which("nsenter") is None:
        yield None
        return
    enter = [word for word in own.enter if word != "--ipc"]
    with stopping.held():
        process = subprocess.Popen(
            [*enter, "/bin/sh", "-c", commands + HOLD, "sh", *words],
            stdin=subprocess.PIPE,
            stdout=subprocess.PIPE,
            stderr=subprocess.DEVNULL,
            start_new_session=True,
        )
    try:
        assert process.stdout is not None
        yield Holder(process.pid) if process.stdout.readline() == READY else None
    finally:
        process.kill()
        with process:
            pass


@contextlib.contextmanager
def ready(place: Place) -> Iterator[Place]:
    """A bound place, whose mounts are made now and last as long as this, where the system allows
    that; else the place as it is."""
    if not place.is_bound or place.way is not None:
        yield place
        return
    front = (places.shut() if place.shut else None) or ""
    with held(front + mounter() + BIND, (place.folder, place.seen)) as holder:
        if holder is None:
            yield place
            return
        found = replace(place, way=holder.way(holder.standing), is_ready=True)
        yield found if is_there(found, holder) else place


def is_there(place: Place, holder: Holder) -> bool:
    """Whether commands of a place that is ready begin in its folder."""
    with contextlib.suppress(OSError):
        done = subprocess.run(
            place.words(["/bin/sh", "-c", "pwd -P"]),
            cwd=place.seen,
            stdin=subprocess.DEVNULL,
            capture_output=True,
            check=False,
        )
        is_seen = os.fsdecode(done.stdout) == f"{place.seen}\n"
        return is_seen and os.path.samefile(holder.standing, place.folder)
    return False
