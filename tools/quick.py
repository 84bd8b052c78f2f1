#!/usr/bin/env python3
"""Builds mkcheck in some three minutes, optimized and without proving it.

Usage: quick.py PROGRAM

The kit has no command for this. `rt try` compiles a program unproved, but with checks for misuse of
memory, and deletes it after the run. So `rt` runs from a copy of the kit (made of links) in which a
script stands for the compiler: it compiles what it is given without these checks, and keeps the
object file, which is then linked to PROGRAM.

The sources are compiled from a copy, in which `--version` says that nothing was proved. PROGRAM is
left as it is where it is newer than all sources, whether it was proved or not.
"""

from __future__ import annotations

import os
import re
import shutil
import stat
import subprocess
import sys
import tempfile
import time
from collections.abc import Iterator
from pathlib import Path

ROOT = Path(__file__).resolve().parent.parent
TARGET = "x86_64-unknown-linux-gnu"
VERSION_FILE = Path("crates", "mk_command", "src", "command.rt")
VERSION = re.compile(r'(const VERSION: &str = "[0-9.]+ )\(proved [^)]*\)";')

# Stands for the compiler of the copied kit. It keeps the object file of the program, and then
# fails, so that `rt try` doesn't run anything.
COMPILER = """#!/bin/sh
case "$*" in *-fsanitize=*) ;; *) exec '{clang}' "$@" ;; esac
'{clang}' --target={target} -march=x86-64 --no-default-config -ffunction-sections -fdata-sections \\
    -mllvm -trap-unreachable -c -x ir module.bc -o '{object}' -fPIE -O1 && touch '{done}'
exit 1
"""


def kit() -> Path:
    """The folder of the kit whose `rt` is on the path."""
    found = shutil.which("rt")
    if found is None:
        sys.exit("quick.py: rt isn't on the PATH; put the kit's folder bin there")
    return Path(found).resolve().parent.parent


def sources() -> Iterator[Path]:
    """The files that a built program depends on."""
    yield ROOT / "crates.txt"
    for crate in (ROOT / "crates").iterdir():
        for part in ("src", "specs"):
            yield from (crate / part).rglob("*.*t*")


def is_up_to_date(program: Path) -> bool:
    """Whether the program is there and newer than all sources."""
    if not program.is_file():
        return False
    built = program.stat().st_mtime
    return all(source.stat().st_mtime <= built for source in sources())


def copy_sources(folder: Path) -> Path:
    """Copies the sources, with another text for `--version`, and returns the program's folder."""
    ignored = shutil.ignore_patterns("out", "must-fail")
    shutil.copytree(ROOT / "crates", folder / "crates", ignore=ignored)
    for name in ("crates.txt", "HANDLES"):
        shutil.copy(ROOT / name, folder / name)
    file = folder / VERSION_FILE
    text, count = VERSION.subn(r'\1(not proved: a quick build)";', file.read_text(encoding="utf-8"))
    if count != 1:
        sys.exit(f"quick.py: {VERSION_FILE} has no line for the version")
    file.write_text(text, encoding="utf-8")
    return folder / "crates" / "mkcheck"


def write_script(path: Path, text: str) -> None:
    """Writes a script that can be run."""
    path.write_text(text, encoding="utf-8")
    path.chmod(path.stat().st_mode | stat.S_IXUSR | stat.S_IXGRP | stat.S_IXOTH)


def link_all(origin: Path, copy: Path, own: set[str]) -> None:
    """Makes a folder of links to what stands in another one, but for what the copy has itself."""
    copy.mkdir()
    for entry in origin.iterdir():
        if entry.name not in own:
            (copy / entry.name).symlink_to(entry)


def copy_kit(origin: Path, copy: Path, object_file: Path, done: Path) -> None:
    """Makes a kit with our compiler. `rt` finds its kit by its own file, so that is a real copy."""
    scripts = {"rt", "rtlib.py"}
    link_all(origin, copy, {"bin", "toolchain"})
    link_all(origin / "bin", copy / "bin", scripts)
    for name in scripts:
        shutil.copy(origin / "bin" / name, copy / "bin" / name)
    link_all(origin / "toolchain", copy / "toolchain", {"bin"})
    link_all(origin / "toolchain" / "bin", copy / "toolchain" / "bin", {"clang"})
    clang = origin / "toolchain" / "bin" / "clang"
    script = COMPILER.format(clang=clang, target=TARGET, object=object_file, done=done)
    write_script(copy / "toolchain" / "bin" / "clang", script)


def compile_program(origin: Path, folder: Path) -> Path:
    """Compiles the whole program, and returns its object file."""
    object_file, done = folder / "mkcheck.o", folder / "done"
    copy_kit(origin, folder / "kit", object_file, done)
    words = [sys.executable, folder / "kit" / "bin" / "rt", "try", "--", "--version"]
    with subprocess.Popen(
        words,
        cwd=copy_sources(folder / "sources"),
        env={**os.environ, "TMPDIR": str(folder)},
        stdout=subprocess.PIPE,
        stderr=subprocess.STDOUT,
        text=True,
    ) as compiler:
        said = said_in_the_end(compiler)
    if not done.exists():
        sys.exit(f"quick.py: the program doesn't compile\n{said}")
    return object_file


def said_in_the_end(compiler: subprocess.Popen[str]) -> str:
    """What a process printed when it has ended. Until then a line tells now and then how long it
    has run: on a terminal the same one each second."""
    start, is_terminal = time.monotonic(), sys.stdout.isatty()
    while True:
        try:
            said, _ = compiler.communicate(timeout=1 if is_terminal else 30)
            break
        except subprocess.TimeoutExpired:
            told = f"compiling, {time.monotonic() - start:.0f} s"
            print(f"\r{told}" if is_terminal else told, end="" if is_terminal else "\n", flush=True)
    if is_terminal:
        print("\r", end="\033[K", flush=True)
    return said


def link(origin: Path, object_file: Path, program: Path) -> None:
    """Links the program."""
    libraries = [origin / "c" / name for name in ("libos_c.a", "liblibc_c.a")]
    linker = [
        origin / "bin" / "rattle-link",
        "--target",
        TARGET,
        "--toolchain",
        origin / "toolchain",
    ]
    linked = subprocess.run(
        [*linker, "-o", program, object_file, *libraries],
        capture_output=True,
        text=True,
        check=False,
    )
    if linked.returncode:
        sys.exit(f"quick.py: the program can't be linked\n{linked.stdout}{linked.stderr}")


def main() -> None:
    """Builds the program, unless it is up to date."""
    if len(sys.argv) != 2:
        sys.exit(__doc__)
    program = Path(sys.argv[1])
    if is_up_to_date(program):
        return
    print(f"building {program} without proving it: two to four minutes", flush=True)
    start = time.monotonic()
    program.parent.mkdir(parents=True, exist_ok=True)
    origin = kit()
    with tempfile.TemporaryDirectory(prefix="mkcheck-quick-") as folder:
        built = program.with_name(f".{program.name}.{os.getpid()}")
        link(origin, compile_program(origin, Path(folder)), built)
        built.replace(program)
    print(f"{program} is built, not proved, in {time.monotonic() - start:.0f} seconds", flush=True)


if __name__ == "__main__":
    main()
