"""Runs a command where it can change nothing but some folders, and reaches no other process.

A program of its own, which `confining` starts as root of new namespaces for users, mounts,
processes, the network and System V's memory:

    readonly.py PLACES COMMAND [WORD]...

PLACES is JSON: `folder` appears at the path `seen`, and it and the folders `own` can be changed;
`home` is made, and `sockets` are hidden; `user` and `group` are the numbers of the user, who has
them again in the end. Where a step fails the status is 125, and the command doesn't run.
"""

from __future__ import annotations

import contextlib
import ctypes
import json
import os
import stat
import sys
from typing import Any

NOT_CONFINED = 125
# Folders in which there is nothing but what the command makes there, and the project.
COVERED = ("/tmp", "/var/tmp", "/run", "/var/run", "/dev")
DEVICES = ("null", "zero", "full", "random", "urandom")
LINKS = {"fd": "fd", "stdin": "fd/0", "stdout": "fd/1", "stderr": "fd/2"}
BIND = 4096
DETACH = 2
NEW_MOUNTS = 0x20000
NEW_USER = 0x10000000
# mount_setattr, which has one number on all machines but one; its flag for all that is mounted
# below, and its attributes.
MOUNT_SETATTR = 442
HERE = -100
RECURSIVE = 0x8000
READ_ONLY = 1
NO_DEVICES = 4


class Attributes(ctypes.Structure):
    """What mount_setattr is to set and to clear."""

    _fields_ = [(name, ctypes.c_uint64) for name in ("set", "clear", "propagation", "users")]


library = ctypes.CDLL(None, use_errno=True)


def tried(result: int, what: str) -> None:
    """Raises `OSError` where a call of the system failed."""
    if result != 0:
        number = ctypes.get_errno()
        raise OSError(number, f"{what}: {os.strerror(number)}")


def mount(source: str, goal: str, kind: str, flags: int = 0, options: str = "") -> None:
    """Mounts."""
    words = [text.encode("utf-8", "surrogateescape") for text in (source, goal, kind, options)]
    result = library.mount(*words[:3], ctypes.c_ulong(flags), words[3])
    tried(result, f"{goal} can't be mounted")


def set_attributes(path: str, added: int = 0, cleared: int = 0, flags: int = 0) -> None:
    """Changes the attributes of a mount, or with `RECURSIVE` of all below it too, or of none."""
    wanted = Attributes(added, cleared, 0, 0)
    result = library.syscall(
        ctypes.c_long(MOUNT_SETATTR),
        ctypes.c_int(HERE),
        ctypes.c_char_p(path.encode("utf-8", "surrogateescape")),
        ctypes.c_uint(flags),
        ctypes.byref(wanted),
        ctypes.c_size_t(ctypes.sizeof(wanted)),
    )
    tried(result, f"{path} can't be made read-only")


def opened(path: str) -> int:
    """A file or folder as it is now, whatever is mounted over it later."""
    return os.open(path, os.O_PATH | os.O_CLOEXEC)


def bind(file: int, goal: str, cleared: int = 0) -> None:
    """Binds what was opened over a path, without these attributes."""
    mount(f"/proc/self/fd/{file}", goal, "none", BIND)
    if cleared:
        set_attributes(goal, cleared=cleared)


def cover(folder: str, seen: str) -> None:
    """Mounts an empty folder over one; that part of it in which the project lies is bound back."""
    part = None
    if seen.startswith(folder + "/"):
        part = os.path.join(folder, seen[len(folder) + 1 :].split("/")[0])
    file = opened(part) if part is not None and part != seen else None
    # Were it one for all users, nobody could open devices of root in it by `> /dev/null`.
    mount("none", folder, "tmpfs", options="mode=755")
    if file is not None and part is not None:
        os.makedirs(part)
        bind(file, part)


def processes() -> int:
    """The folder `/proc`, which can be changed by this descriptor alone."""
    mount("/proc", "/tmp", "none", BIND)
    found = os.open("/tmp", os.O_RDONLY | os.O_CLOEXEC)
    tried(library.umount2(b"/tmp", DETACH), "/tmp can't be taken away")
    return found


def lock(user: int, group: int, found: int) -> None:
    """Enters a last namespace, in which nobody can take back what was mounted, and in which the
    user is himself again. `found` is what `processes` gave."""
    tried(library.unshare(NEW_USER | NEW_MOUNTS), "there can be no namespace in a namespace")
    for name, text in {
        "setgroups": "deny",
        "uid_map": f"{user} 0 1",
        "gid_map": f"{group} 0 1",
    }.items():
        file = os.open(f"self/{name}", os.O_WRONLY, dir_fd=found)
        os.write(file, text.encode())
        os.close(file)


def confine(places: dict[str, Any]) -> set[str]:
    """Mounts all; gives the paths at which something can be changed."""
    seen = places["seen"]
    folder = opened(places["folder"])
    own = {path: opened(path) for path in places["own"]}
    devices = {name: opened(f"/dev/{name}") for name in DEVICES if os.path.exists(f"/dev/{name}")}
    set_attributes("/", added=READ_ONLY | NO_DEVICES, flags=RECURSIVE)
    covered = {os.path.realpath(path) for path in COVERED if os.path.isdir(path)} - {seen}
    for path in sorted(covered):
        cover(path, seen)
    for name, file in devices.items():
        os.close(os.open(f"/dev/{name}", os.O_CREAT | os.O_WRONLY, 0o666))
        bind(file, f"/dev/{name}", cleared=NO_DEVICES)
    for name, text in LINKS.items():
        os.symlink(f"/proc/self/{text}", f"/dev/{name}")
    for path in places["sockets"]:
        if os.path.exists(path) and stat.S_ISSOCK(os.stat(path).st_mode):
            bind(devices["null"], path)
    for path, file in {seen: folder, **own}.items():
        os.makedirs(path, exist_ok=True)
        bind(file, path, cleared=READ_ONLY)
    os.makedirs(places["home"], exist_ok=True)
    return {*covered, seen, *own}


def test(changeable: set[str]) -> None:
    """Raises `OSError` where anything else than these paths could be changed."""
    with open("/proc/self/mountinfo", "rb") as file:
        lines = file.read().splitlines()
    for line in lines:
        words = line.split(b" ")
        path = os.fsdecode(words[4].decode("unicode_escape").encode("latin-1"))
        if b"ro" not in words[5].split(b",") and path not in changeable:
            raise OSError(f"{path} can still be changed")


def main(arguments: list[str]) -> int:
    """Confines this process, and becomes the command."""
    places = json.loads(arguments[0])
    try:
        with contextlib.suppress(OSError):  # Containers may forbid it.
            mount("proc", "/proc", "proc")
        found = processes()
        test(confine(places))
        lock(places["user"], places["group"], found)
        os.chdir(places["seen"])
        os.execvp(arguments[1], arguments[1:])
    except OSError as error:
        print(f"mkcheck-import: {error}", file=sys.stderr)
    return NOT_CONFINED


if __name__ == "__main__":
    sys.exit(main(sys.argv[1:]))
