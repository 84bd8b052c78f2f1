"""Another machine, as far as commands can be shown one: it has another name, an older kernel, fewer
processors, and allows one open file less; and another user."""

from __future__ import annotations

import functools
import os
import resource
import shutil
import subprocess
from dataclasses import replace

from mkcheck_tools.run.folders import temporary_folder
from mkcheck_tools.run.paths import RealPath, SeenPath, real_in
from mkcheck_tools.run.places import Place, mounter

NAME = "mkcheck-record"
# The space in which a machine has a name.
NAMES = ("--uts",)
# Where the C library finds how many processors there are, and the number of fewer ones in the form
# of that file.
ONLINE = "/sys/devices/system/cpu/online"
FEWER = "/sys/devices/system/cpu/cpu0/topology/thread_siblings_list"
RENAMING = (
    f"{{ echo {NAME} > /proc/sys/kernel/hostname || hostname {NAME}; }} 2> /dev/null; "
)


def elsewhere(place: Place) -> Place:
    """A bound place, on another machine."""
    first = limits() + fewer_online()
    if has_names():
        place, first = replace(place, spaces=NAMES), RENAMING + first
    return replace(place, enter=(*older_kernel(), *processors_but_one()), first=first)


@functools.cache
def has_names() -> bool:
    """Whether commands may find another name here."""
    with temporary_folder() as scratch:
        seen = SeenPath(os.path.realpath(scratch))
        folder = real_in(RealPath(seen), "folder")
        os.mkdir(folder)
        place = Place(folder, seen, spaces=NAMES, first=RENAMING)
        done = subprocess.run(
            place.words(["uname", "-n"]),
            cwd=seen,
            env={**os.environ, "PWD": str(seen)},
            stdin=subprocess.DEVNULL,
            capture_output=True,
            text=True,
            check=False,
        )
        return done.stdout.strip() == NAME


@functools.cache
def processors_but_one() -> tuple[str, ...]:
    """The words that start a command on all processors but one; none where there is only one."""
    program = shutil.which("taskset")
    numbers = sorted(os.sched_getaffinity(0)) if hasattr(os, "sched_getaffinity") else []
    if program is None or len(numbers) < 2:
        return ()
    return (program, "-c", ",".join(str(number) for number in numbers[1:]))


@functools.cache
def older_kernel() -> tuple[str, ...]:
    """The words that start a command which the kernel tells that it is one of version 2.6; none
    where programs don't run then."""
    words = (shutil.which("setarch") or "", "--uname-2.6")
    own, other = said([*words, "uname", "-r"]), os.uname().release
    return words if own and own != other else ()


@functools.cache
def other_user() -> tuple[str, ...]:
    """The words that start a command as another user, who has the same files; none where the system
    allows no user namespace."""
    user, group = (2 if one == 1 else 1 for one in (os.geteuid(), os.getegid()))
    words = (shutil.which("unshare") or "", "--user", f"--map-user={user}", f"--map-group={group}")
    return (*words, "--") if said([*words, "--", "id", "-u"]) == str(user) else ()


def said(words: list[str]) -> str:
    """What a command prints that succeeds; nothing of another one."""
    try:
        done = subprocess.run(
            words, stdin=subprocess.DEVNULL, capture_output=True, text=True, check=False
        )
    except OSError:
        return ""
    return done.stdout.strip() if done.returncode == 0 else ""


@functools.cache
def fewer_online() -> str:
    """The command of a shell by which the system names fewer processors; empty where none can."""
    texts = []
    for path in (ONLINE, FEWER):
        try:
            with open(path, encoding="ascii") as file:
                texts.append(file.read())
        except (OSError, ValueError):
            return ""
    return f"{mounter()} --bind {FEWER} {ONLINE} 2> /dev/null; " if len(set(texts)) > 1 else ""


def limits() -> str:
    """The command of a shell that allows one open file less than here."""
    most, _ = resource.getrlimit(resource.RLIMIT_NOFILE)
    return f"ulimit -S -n {most - 1}; " if most > 1 else ""
