"""Recipes of GNU make that run in a make in which nothing changed, and leave their file as it was.

GNU make looks at the time of a file after its recipe. Where the recipe writes the file only if its
contents change, as under `FORCE`, what needs it isn't made again. It is as ninja's `restat`.
"""

from __future__ import annotations

import os
from pathlib import Path

from mkcheck_tools.imports.builds import Build, Kind, Node, path_name
from mkcheck_tools.imports.copies import run_here
from mkcheck_tools.imports.database import Rule
from mkcheck_tools.imports.gnumake import Make, content
from mkcheck_tools.imports.plain import shell_text
from mkcheck_tools.imports.telling import Far
from mkcheck_tools.run.places import Place

# A time that no file has that was written in a build.
OLD = 1
# Each byte with another one in its place, but for the ends of lines.
TURNED = bytes(byte if byte in b"\r\n" else byte ^ 1 for byte in range(256))
OTHER_BYTES = b"These bytes were put here by mkcheck-import, to see whether they stay.\n"


def left_unchanged(
    root: str, makes: list[Make], before: dict[str, int], after: dict[str, int]
) -> list[str]:
    """The files whose recipes ran in a second make, and left them as they were. `before` and
    `after` are the times of all files before and after it."""
    found: dict[str, None] = {}
    starting = {id(make.started_by) for make in makes}
    for make in makes:
        for name, rules in make.base.rules.items():
            path = path_name(root, make.folder, name)
            is_same = path in before and before[path] == after.get(path)
            if is_same and any(is_own(rule, starting) for rule in rules):
                found.setdefault(path)
    return list(found)


def is_own(rule: Rule, starting: set[int]) -> bool:
    """Whether a recipe ran that makes its file itself: it does something, and starts no make.
    `starting` has the commands that start makes."""
    is_made_here = rule.ran and not rule.is_phony and not rule.does_nothing
    return is_made_here and not any(id(command) in starting for command in rule.commands)


def mark_unchanged(
    build: Build, names: list[str], built: Place, environment: dict[str, str], far: Far
) -> None:
    """Marks the nodes of such files, after a try whether their recipes write what changed; `far`
    tells how far that is."""
    for name in far.each("tried", names, str):
        node = build.nodes.get(name)
        if node is None or node.kind is not Kind.FILE or not node.commands:
            continue
        node.left_alike = True
        where = str(node.origin) if node.origin else name
        if not is_mended(node, built, environment):
            build.unmended[name] = (
                f"{where}: the recipe of {name} leaves {name} as it is also where it holds other"
                " contents, so when what it reads changes, it may stay old, which isn't judged; let"
                " it compare what it would write with what is there (cmp -s)"
            )
        build.note(
            f"{where}: the recipe of {name} left it as it was when nothing changed. Then make"
            " doesn't make what needs it again; so a change of what it reads reaches what needs"
            f" {name} only where {name} changes too, and that a replay leaves it is no fault",
            name,
        )


def is_mended(node: Node, built: Place, environment: dict[str, str]) -> bool:
    """Whether a recipe writes its file anew that is old and holds other bytes, as many of them
    too."""
    path = Path(built.folder, node.name)
    if path.is_symlink() or not path.is_file():
        return False
    before, times = path.read_bytes(), os.stat(path)
    is_new = all(
        is_written(node, built, environment, text)
        for text in dict.fromkeys((OTHER_BYTES, before.translate(TURNED)))
        if text != before
    )
    path.write_bytes(before)
    os.utime(path, ns=(times.st_atime_ns, times.st_mtime_ns))
    return is_new


def is_written(node: Node, built: Place, environment: dict[str, str], text: bytes) -> bool:
    """Whether a recipe writes its file as it was, where that is old and holds a text."""
    path = Path(built.folder, node.name)
    before = path.read_bytes()
    path.write_bytes(text)
    os.utime(path, (OLD, OLD))
    for command in node.commands:
        words = ["/bin/sh", "-e", "-c", shell_text(command, node.setting)]
        status, _, _ = run_here(built, words, environment)
        if status != 0 and not command.ignored:
            break
    return content(str(path)) == before
