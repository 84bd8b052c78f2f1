#!/usr/bin/env python3
"""Lays out what is installed, and packs it.

Usage: package.py [--program PROGRAM] [--unproved] install|deb|dist FOLDER

`install` lays the files below FOLDER, such as /usr/local. `deb` writes a Debian package into
FOLDER, and `dist` an archive that holds its own C library, so that it runs on any Linux of the
processor. Both take a proved PROGRAM alone, bin/mkcheck without the option; `--unproved` takes
another one too.
"""

from __future__ import annotations

import argparse
import gzip
import os
import re
import shutil
import subprocess
import sys
import tarfile
import tempfile
from collections.abc import Iterator
from pathlib import Path

import zipapps

HERE = Path(__file__).resolve().parent
ROOT = HERE.parent
BUILT = ROOT / "bin"
TOOLS = ("mkcheck-audit", "mkcheck-record", "mkcheck-import", "mkcheck-report")
DOCUMENTS = Path("share", "doc", "mkcheck")
# Completions that a shell looks for by the name of the command, beside that of mkcheck itself.
BASH = Path("share", "bash-completion", "completions")
FISH = Path("share", "fish", "vendor_completions.d")
ZSH = Path("share", "zsh", "site-functions")
# Where Debian's zsh looks for what packages bring.
DEBIAN_ZSH = Path("share", "zsh", "vendor-completions")
# Debian's names of processors.
DEBIAN = {"x86_64": "amd64", "aarch64": "arm64"}
CONTROL = """\
Package: mkcheck
Version: {version}
Architecture: {architecture}
Maintainer: Keldurax maintainers <maintainers@users.noreply.keldurax.example>
Installed-Size: {size}
Depends: libc6 (>= {libc}), python3 (>= 3.11), strace, util-linux
Recommends: make | ninja-build
Suggests: graphviz
Section: devel
Priority: optional
Description: checks whether makefiles build right, in parallel and after edits
 mkcheck-audit has a project's build recorded and judged, and says at the lines
 of its makefiles which prerequisites they lack: where a parallel make may fail
 at random, and where an incremental make leaves stale files. It reads makefiles
 as POSIX defines them, and has builds of GNU make and ninja translated.
"""
# Starts the program by the C library of the archive.
STARTER = """\
#!/bin/sh
# Starts mkcheck with the C library that lies beside it.
link=$0
while [ -L "$link" ]; do
    goal=$(readlink "$link")
    case $goal in /*) link=$goal ;; *) link=${link%/*}/$goal ;; esac
done
case $link in */*) here=${link%/*} ;; *) here=. ;; esac
lib=$here/../lib/mkcheck
exec "$lib/{loader}" --argv0 mkcheck --library-path "$lib" "$lib/mkcheck" "$@"
"""
LIBRARY_NOTE = """\
The files {names} are the GNU C Library of the system on which this archive was made ({system}).
They stand under the GNU Lesser General Public License, version 2.1 or later; their sources are
those of that system's package. Another build of the library can be put in their place.
"""


class Fault(Exception):
    """What keeps the files from being packed, in a sentence."""


def version() -> str:
    """The version of the tools."""
    text = (HERE / "mkcheck_tools" / "__init__.py").read_text(encoding="utf-8")
    found = re.search(r'^VERSION = "([0-9.]+)"$', text, re.MULTILINE)
    if found is None:
        raise Fault("tools/mkcheck_tools/__init__.py says no VERSION")
    return found[1]


def proved(program: Path, unproved: bool) -> str:
    """What a program says of its version. Raises Fault where it isn't proved, or is another one."""
    if not program.is_file():
        raise Fault(f"{program} isn't there: make proved proves and builds it")
    done = subprocess.run([program, "--version"], capture_output=True, text=True, check=False)
    said = done.stdout.strip()
    if not said.startswith(f"mkcheck {version()} "):
        raise Fault(f"{program} --version says {said!r}, and the tools are {version()}")
    if "(proved " not in said and not unproved:
        raise Fault(f"{program} isn't proved: make proved proves and builds it")
    return said


def installed(program: Path) -> Iterator[tuple[Path, Path]]:
    """What is installed: each file with its path below the folder."""
    yield program, Path("bin", "mkcheck")
    for name in TOOLS:
        yield BUILT / name, Path("bin", name)
    for page in sorted((ROOT / "man").glob("*.1")):
        yield page, Path("share", "man", "man1", page.name)
    for name in ("README.md", "CHANGELOG.md", "LICENSE-MIT", "LICENSE-APACHE"):
        yield ROOT / name, DOCUMENTS / name
    for page in sorted((ROOT / "docs").iterdir()):
        yield page, DOCUMENTS / "docs" / page.name
    for path in sorted((ROOT / "share").rglob("*")):
        if path.is_file():
            yield path, path.relative_to(ROOT)
    for name in TOOLS:
        yield ROOT / BASH / "mkcheck", BASH / name
        yield ROOT / FISH / "mkcheck.fish", FISH / f"{name}.fish"


def lay(program: Path, goal: Path) -> None:
    """Lays out all files below a folder, with modes that don't hang on the user's."""
    zipapps.main([str(BUILT)])
    for source, path in installed(program):
        file = goal / path
        file.parent.mkdir(parents=True, exist_ok=True)
        copied = file.with_name(f".{file.name}.{os.getpid()}")
        shutil.copy(source, copied)
        is_program = path.parts[0] == "bin" or os.access(source, os.X_OK)
        copied.chmod(0o755 if is_program else 0o644)
        copied.replace(file)


def machine() -> str:
    """The processor, as Linux names it."""
    return os.uname().machine


def libc_needed(program: Path) -> str:
    """The least version of the C library that a program names."""
    named = re.findall(rb"GLIBC_(\d+)\.(\d+)", program.read_bytes())
    if not named:
        raise Fault(f"{program} names no GNU C Library")
    most = max((int(one), int(other)) for one, other in named)
    return f"{most[0]}.{most[1]}"


def deb(program: Path, goal: Path) -> Path:
    """Writes a Debian package, and returns its path."""
    packer = shutil.which("dpkg-deb")
    if packer is None:
        raise Fault("there is no dpkg-deb, which writes the package: install dpkg")
    architecture = DEBIAN.get(machine())
    if architecture is None:
        raise Fault(f"Debian's name of the processor {machine()} isn't known here")
    with tempfile.TemporaryDirectory() as scratch:
        room = Path(scratch, "mkcheck")
        lay(program, room / "usr")
        as_debian_has_it(room / "usr")
        size = sum(path.stat().st_size for path in room.rglob("*") if path.is_file())
        text = CONTROL.format(
            version=version(),
            architecture=architecture,
            size=-(-size // 1024),
            libc=libc_needed(program),
        )
        (room / "DEBIAN").mkdir()
        (room / "DEBIAN" / "control").write_text(text, encoding="utf-8")
        for path in [room, *room.rglob("*")]:
            if path.is_dir():
                path.chmod(0o755)
        file = goal / f"mkcheck_{version()}_{architecture}.deb"
        goal.mkdir(parents=True, exist_ok=True)
        made = subprocess.run(
            [packer, "--root-owner-group", "--build", room, file],
            capture_output=True,
            text=True,
            check=False,
        )
        if made.returncode != 0:
            raise Fault(f"dpkg-deb wrote no package: {made.stderr.strip()}")
    return file


def as_debian_has_it(folder: Path) -> None:
    """Moves files to where Debian has them: packed manual pages, the licenses as `copyright`, and
    what its zsh reads."""
    for page in (folder / "share" / "man" / "man1").glob("*.1"):
        packed = page.with_name(f"{page.name}.gz")
        packed.write_bytes(gzip.compress(page.read_bytes(), mtime=0))
        packed.chmod(0o644)
        page.unlink()
    (folder / ZSH).rename(folder / DEBIAN_ZSH)
    documents = folder / DOCUMENTS
    names = ("LICENSE-MIT", "LICENSE-APACHE")
    licenses = [(documents / name).read_text(encoding="utf-8") for name in names]
    text = "mkcheck is licensed under MIT or Apache-2.0, at your option.\n"
    copyright_file = documents / "copyright"
    copyright_file.write_text("\n".join([text, *licenses]), encoding="utf-8")
    copyright_file.chmod(0o644)


def dist(program: Path, goal: Path) -> Path:
    """Writes an archive with all files and the C library, and returns its path."""
    name = f"mkcheck-{version()}-{machine()}-linux"
    with tempfile.TemporaryDirectory() as scratch:
        room = Path(scratch, name)
        lay(program, room)
        with_libraries(program, room)
        goal.mkdir(parents=True, exist_ok=True)
        file = goal / f"{name}.tar.gz"
        with tarfile.open(file, "w:gz") as archive:
            archive.add(room, name, filter=owned_by_root)
    return file


def owned_by_root(entry: tarfile.TarInfo) -> tarfile.TarInfo:
    """An entry of an archive that belongs to nobody of this system."""
    entry.uid = entry.gid = 0
    entry.uname = entry.gname = "root"
    if entry.isdir():
        entry.mode = 0o755
    return entry


def with_libraries(program: Path, room: Path) -> None:
    """Puts the libraries of a program beside it, and a script in its place that starts it."""
    listed = subprocess.run(["ldd", program], capture_output=True, text=True, check=False)
    libraries = [Path(one) for one in re.findall(r"(/\S+) \(0x", listed.stdout)]
    loader = next((one.name for one in libraries if one.name.startswith("ld-")), "")
    if not loader:
        raise Fault(f"ldd tells no libraries of {program}: {listed.stderr.strip()}")
    lib = room / "lib" / "mkcheck"
    lib.mkdir(parents=True)
    for library in libraries:
        shutil.copy(library, lib / library.name)
        (lib / library.name).chmod(0o755)
    (room / "bin" / "mkcheck").rename(lib / "mkcheck")
    starter = room / "bin" / "mkcheck"
    starter.write_text(STARTER.replace("{loader}", loader), encoding="utf-8")
    starter.chmod(0o755)
    names = " and ".join(one.name for one in libraries)
    note = LIBRARY_NOTE.format(names=names, system=system_name())
    (lib / "README").write_text(note, encoding="utf-8")


def system_name() -> str:
    """The name of the system on which this runs."""
    try:
        text = Path("/etc/os-release").read_text(encoding="utf-8")
    except OSError:
        return "Linux"
    found = re.search(r'^PRETTY_NAME="?([^"\n]+)', text, re.MULTILINE)
    return found[1] if found else "Linux"


def main(arguments: list[str]) -> int:
    """Does what is asked for."""
    parser = argparse.ArgumentParser(prog="package.py", description=__doc__.split("\n")[0])
    parser.add_argument("--program", type=Path, default=BUILT / "mkcheck")
    parser.add_argument("--unproved", action="store_true")
    parser.add_argument("form", choices=("install", "deb", "dist"))
    parser.add_argument("folder", type=Path)
    asked = parser.parse_args(arguments)
    try:
        said = proved(asked.program, asked.unproved or asked.form == "install")
        if asked.form == "install":
            lay(asked.program, asked.folder)
            print(f"{asked.folder / 'bin' / 'mkcheck'}: {said}")
        else:
            write = deb if asked.form == "deb" else dist
            print(f"{write(asked.program, asked.folder)}: {said}")
    except (Fault, OSError) as fault:
        print(f"package.py: {fault}", file=sys.stderr)
        return 2
    return 0


if __name__ == "__main__":
    sys.exit(main(sys.argv[1:]))
