"""Finds the files of a configure step: they stay as they are until somebody configures again.

Only what the configuring tool writes for itself and for the build tool is found without being asked
for. A configured header is none of these: when it changes, what includes it has to be built again.
"""

from __future__ import annotations

import fnmatch
import os
import re
from collections.abc import Iterable
from dataclasses import dataclass, field

from mkcheck_tools.faults import Fault
from mkcheck_tools.imports.builds import FOREIGN, Build, in_folder

CMAKE = "CMake"
# What CMake writes beside the folders `CMakeFiles`.
OF_CMAKE = (
    "CMakeCache.txt",
    "cmake_install.cmake",
    "CTestTestfile.cmake",
    "CPackConfig.cmake",
    "CPackSourceConfig.cmake",
    "DartConfiguration.tcl",
    "compile_commands.json",
)
# What Meson writes beside `build.ninja`, for itself.
OF_MESON = ("meson-private", "meson-info", "meson-logs")
CMAKE_HEADING = b"# CMAKE generated file: DO NOT EDIT!"
# What a compiler could read is a source, wherever it lies.
SOURCES = ("*.h", "*.hh", "*.hpp", "*.hxx", "*.inc", "*.c", "*.cc", "*.cpp", "*.cxx", "*.m", "*.s")
# What config.status and Automake write beside the makefiles.
OF_AUTOCONF = ("config.status", "config.log", "config.cache", "libtool", "stamp-h*")
RUNS_CONFIG_STATUS = re.compile(r"(?:^|[\s/;&|])config\.status(?:\s|$)")
# What CMake's makefile was made from, and what was written with it, in CMake's own list.
LIST_OF_CMAKE = re.compile(r"^set\(CMAKE_MAKEFILE_(DEPENDS|OUTPUTS)\n([^)]*)\)", re.MULTILINE)
QUOTED = re.compile(r'^ *"(.*)"$', re.MULTILINE)
LIST_OF_FILES = re.compile(r'^config_(?:files|links)="([^"]*)"', re.MULTILINE)


@dataclass
class Configured:
    """The files of a project that a configure step wrote, as names from the root."""

    files: set[str] = field(default_factory=set)
    notes: list[str] = field(default_factory=list)
    tools: dict[str, str] = field(default_factory=dict)
    """The tool that wrote each."""

    def add(self, names: Iterable[str], tool: str, folder: str) -> None:
        """Adds what a tool wrote in a folder, and says so."""
        found = set(names) - self.files
        self.files |= found
        self.tools.update((name, tool) for name in found)
        if found:
            self.notes.append(
                f"{count(found, 'file')} {in_folder(folder)} that {tool} wrote when it configured"
                f" {'is' if len(found) == 1 else 'are'} taken as never changing"
            )


def count(found: set[str], noun: str) -> str:
    """How many there are, in words."""
    return f"{len(found)} {noun}{'' if len(found) == 1 else 's'}"


def configured_files(root: str, asked: Iterable[str] = ()) -> Configured:
    """The files that CMake, Meson or config.status wrote, and all files in the folders that are
    asked for.

    The folders are paths from the root. A file that a rule makes may be among the files.
    """
    found = Configured()
    files = all_files(root)
    for folder in asked:
        front = os.path.normpath(folder)
        if not os.path.isdir(os.path.join(root, front)):
            raise Fault(f"--configured {folder}: there is no such folder in the project")
        found.add((name for name in files if is_below(name, front)), "the configure step", front)
    for name in files:
        folder, base = os.path.split(name)
        if base == "CMakeCache.txt":
            below = [one for one in files if is_below(one, folder)]
            found.add((one for one in below if is_of_cmake(root, one)), CMAKE, folder or ".")
        elif base == "coredata.dat" and os.path.basename(folder) == OF_MESON[0]:
            folder = os.path.dirname(folder)
            below = [one for one in files if is_below(one, folder)]
            own = (one for one in below if is_of_meson(os.path.relpath(one, folder or ".")))
            found.add(own, "Meson", folder or ".")
        elif base == "config.status":
            below = [one for one in files if is_below(one, folder)]
            found.add(of_config_status(root, folder, below), "config.status", folder or ".")
    return found


def changed_since_cmake(root: str, folder: str) -> str:
    """The file for which a make in a folder would first let CMake configure it anew: the latest of
    those that CMake read, where it is later than what CMake wrote; empty where there is none."""
    own = os.path.join(root, folder)
    try:
        with open(os.path.join(own, "CMakeFiles", "Makefile.cmake"), encoding="utf-8") as file:
            found = LIST_OF_CMAKE.findall(file.read())
    except (OSError, UnicodeDecodeError):
        return ""
    stamps: dict[str, list[tuple[int, str]]] = {}
    for word, text in found:
        paths = (os.path.join(own, name) for name in QUOTED.findall(text))
        stamps[word] = [(os.stat(one).st_mtime_ns, one) for one in paths if os.path.isfile(one)]
    latest = max(stamps.get("DEPENDS", []), default=(0, ""))
    is_old = latest[0] > min(stamps.get("OUTPUTS", []), default=latest)[0]
    return os.path.relpath(latest[1], root) if is_old else ""


def configuring(build: Build) -> list[str]:
    """The targets whose recipes run `config.status` again."""
    if not any(os.path.basename(name) == "config.status" for name in build.configured):
        return []
    return [
        name
        for name, node in build.nodes.items()
        if any(RUNS_CONFIG_STATUS.search(command.text) for command in node.commands)
    ]


def all_files(root: str) -> list[str]:
    """The files of a folder, as names from it, in one order on each machine."""
    found = []
    for folder, folders, names in os.walk(root):
        folders[:] = sorted(name for name in folders if name not in FOREIGN)
        front = os.path.relpath(folder, root)
        found += [os.path.normpath(os.path.join(front, name)) for name in sorted(names)]
    return found


def is_below(name: str, folder: str) -> bool:
    """Whether a file lies in a folder, or deeper."""
    return folder in ("", ".") or name.startswith(folder + "/")


def is_of_cmake(root: str, name: str) -> bool:
    """Whether CMake wrote a file for itself or for the build tool."""
    base = os.path.basename(name)
    if any(fnmatch.fnmatchcase(base.lower(), pattern) for pattern in SOURCES):
        return False
    if "CMakeFiles" in name.split("/")[:-1] or base in OF_CMAKE:
        return True
    if base != "Makefile" and not base.endswith(".ninja"):
        return False
    try:
        with open(os.path.join(root, name), "rb") as file:
            return file.read(len(CMAKE_HEADING)) == CMAKE_HEADING
    except OSError:
        return False


def is_of_meson(path: str) -> bool:
    """Whether Meson wrote a file for itself or for ninja, by its path from the build folder."""
    if any(fnmatch.fnmatchcase(path.lower(), pattern) for pattern in SOURCES):
        return False
    return path in ("build.ninja", "compile_commands.json") or path.split("/")[0] in OF_MESON


def of_config_status(root: str, folder: str, below: list[str]) -> set[str]:
    """What `config.status` wrote in its folder for make: makefiles, stamps, dependency files."""
    try:
        with open(os.path.join(root, folder, "config.status"), encoding="latin-1") as file:
            text = file.read()
    except OSError:
        return set()
    made = {word.split(":")[0] for words in LIST_OF_FILES.findall(text) for word in words.split()}
    # `po/Makefile.in` is one more step after its `po/Makefile.in.in`.
    made |= {name.removesuffix(".in") for name in made}
    made |= {os.path.join(os.path.dirname(name), "POTFILES") for name in made if "po/" in name}
    found = set()
    for name in below:
        path = os.path.relpath(name, folder or ".")
        base = os.path.basename(path)
        is_makefile = path in made and (
            base.startswith(("Makefile", "GNUmakefile", "makefile")) or base == "POTFILES"
        )
        is_own = os.path.dirname(path) == "" and any(
            fnmatch.fnmatchcase(base, pattern) for pattern in OF_AUTOCONF
        )
        if is_makefile or is_own or ".deps" in path.split("/")[:-1]:
            found.add(name)
    return found
