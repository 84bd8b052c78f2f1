"""Holds the imports of the tools to the order of rooms that tools/README.md says.

The table there has a row for each room, from the bottom up; a room imports only from those of rows
above its own. The row of a room names each of its modules, but for `program`, and none that isn't
there. Modules beside the rooms, such as `faults`, import from no room.
"""

from __future__ import annotations

import ast
import re
from collections.abc import Iterator
from pathlib import Path

ROOT = Path(__file__).resolve().parents[2]
PACKAGE = ROOT / "tools" / "mkcheck_tools"
PAGE = ROOT / "tools" / "README.md"
HEAD = "| room | modules |\n|---|---|\n"
NAME = re.compile(r"`(\w+)`")


def rows() -> list[tuple[list[str], list[str]]]:
    """The rows of the table: rooms, and names of modules."""
    _, _, rest = PAGE.read_text(encoding="utf-8").partition(HEAD)
    table, _, _ = rest.partition("\n\n")
    found = []
    for line in table.splitlines():
        _, rooms, modules, _ = line.split("|")
        found.append((NAME.findall(rooms), NAME.findall(modules)))
    return found


def room_of(module: str) -> str:
    """The room of a module of the package; nothing for one beside the rooms."""
    _, *names = module.split(".")
    return names[0] if names and (PACKAGE / names[0]).is_dir() else ""


def imported(path: Path) -> Iterator[tuple[int, str]]:
    """What a module imports from the package, each with its line."""
    for node in ast.walk(ast.parse(path.read_text(encoding="utf-8"))):
        if isinstance(node, ast.Import):
            yield from ((node.lineno, one.name) for one in node.names)
        elif isinstance(node, ast.ImportFrom) and node.module is not None and not node.level:
            yield from ((node.lineno, f"{node.module}.{one.name}") for one in node.names)
        elif isinstance(node, ast.ImportFrom):
            yield node.lineno, f"{PACKAGE.name}.{'.' * node.level}"


def wrong_imports() -> int:
    """Prints imports against the order, and says how many there are."""
    order = {room: number for number, (rooms, _) in enumerate(rows()) for room in rooms}
    count = 0
    for path in sorted(PACKAGE.rglob("*.py")):
        names = path.relative_to(PACKAGE).parts
        own = names[0] if len(names) > 1 else ""
        for line, module in imported(path):
            if module.split(".")[0] != PACKAGE.name:
                continue
            other = room_of(module)
            if not other or other == own:
                fine = not module.endswith(".")
            else:
                fine = own in order and other in order and order[other] < order[own]
            if not fine:
                print(f"{path.relative_to(ROOT)}:{line}: {own or 'no room'} imports {module}")
                count += 1
    return count


def wrong_names() -> int:
    """Prints rooms and modules of which the table and the package don't have the same, and says how
    many there are."""
    found = [(rooms, modules) for rooms, modules in rows() if modules]
    said = {f"{rooms[0]}/{name}" for rooms, modules in found for name in modules}
    said |= {room for rooms, _ in rows() for room in rooms}
    told = {rooms[0] for rooms, _ in found}
    files = [path.relative_to(PACKAGE) for path in PACKAGE.rglob("*.py")]
    there = {f"{path.parent}/{path.stem}" for path in files if path.parent.name in told}
    there = {name for name in there if not name.endswith(("/__init__", "/program"))}
    there |= {path.parent.name for path in files if path.parent.name}
    wrong = sorted((said - {f"{room}/program" for room in told}) ^ there)
    for name in wrong:
        print(f"{name} is only in {'the table' if name in said else 'the package'}")
    return len(wrong)
