"""Runs recipes that the user didn't ask for, as those of `make clean`, so that they harm nothing.

All but the copy of the project is read-only for them, `/tmp` and the home are empty folders of
their own, and there is no network and no process but theirs. The system has to allow this by a
namespace for users, which it may do for root and others alike.
"""

from __future__ import annotations

import json
import os
import shutil
import sys
from collections.abc import Sequence
from dataclasses import dataclass
from importlib.resources import files
from pathlib import Path

from mkcheck_tools.faults import Fault
from mkcheck_tools.run.places import Place

HOME = "/tmp/home"
# Variables of the environment for what runs so.
OWN = {"HOME": HOME, "TMPDIR": "/tmp"}
READ_ONLY = files("mkcheck_tools.imports").joinpath("readonly.py")


@dataclass(frozen=True)
class Confined(Place):
    """A place where commands can change nothing but its folder, and the folders `own`."""

    own: tuple[str, ...] = ()

    def words(self, command: Sequence[str]) -> list[str]:
        """The words that run a command here."""
        unshare = shutil.which("unshare")
        if unshare is None or not sys.executable:
            raise Fault("unshare isn't there (Debian: apt-get install util-linux)")
        places = {
            "folder": self.folder,
            "seen": self.seen,
            "own": self.own,
            "home": HOME,
            "sockets": sockets(),
            "user": os.getuid(),
            "group": os.getgid(),
        }
        return [
            *(unshare, "--user", "--map-root-user", "--mount", "--pid", "--fork", "--kill-child"),
            *("--net", "--ipc", "--uts", "--", sys.executable, "-I", "-S"),
            *("-c", READ_ONLY.read_text(encoding="utf-8"), json.dumps(places), *command),
        ]


def sockets() -> list[str]:
    """The paths of sockets by which servers of this machine are asked."""
    try:
        lines = Path("/proc/net/unix").read_text(encoding="utf-8", errors="surrogateescape")
    except OSError:
        return []
    found = (line.split(None, 7) for line in lines.splitlines())
    return sorted({words[7] for words in found if len(words) == 8 and words[7].startswith("/")})
