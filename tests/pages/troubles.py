"""Holds what docs/TROUBLE.md quotes to what the tools say.

The first column of its tables has sentences, in which `..` and words in capitals stand for names.
What stands between these has to be a part of a text in the tools' sources, or of the program's.
"""

from __future__ import annotations

import ast
import re
from pathlib import Path

ROOT = Path(__file__).resolve().parents[2]
PAGE = ROOT / "docs" / "TROUBLE.md"
PACKAGE = ROOT / "tools" / "mkcheck_tools"
ROW = re.compile(r"^\| (`.*?) \| .* \|$", re.MULTILINE)
QUOTE = re.compile(r"`([^`]+)`")
# What stands for a name or a number, and what a text may have in its place.
GAP = re.compile(
    r"\.\.|\b[A-Z][A-Z]*\b|\d[\d,]*|[\"{}]|\bMakefile:\S*|\(Makefile\b|\bmkcheck\.toml\b"
)


def texts() -> str:
    """All texts in the sources of the tools, and the sentences of the program's faults."""
    found = []
    for path in PACKAGE.rglob("*.py"):
        for node in ast.walk(ast.parse(path.read_text(encoding="utf-8"))):
            if isinstance(node, ast.Constant) and isinstance(node.value, str):
                found.append(node.value)
    found.append((ROOT / "crates" / "mk_explain" / "src" / "faults.rt").read_text(encoding="utf-8"))
    return "\n".join(found)


def fragments(quote: str) -> list[str]:
    """The parts of a quote that a text has to have: those of two words or more."""
    parts = (part.strip(" :;,.()") for part in GAP.split(quote))
    return [part for part in parts if len(part.split()) > 1]


def wrong_quotes() -> int:
    """Prints each part of a quote that no text has, and tells how many these are."""
    whole, wrong, count = texts(), 0, 0
    for row in ROW.findall(PAGE.read_text(encoding="utf-8")):
        for quote in QUOTE.findall(row):
            for part in fragments(quote):
                count += 1
                if part not in whole:
                    wrong += 1
                    print(f"docs/TROUBLE.md: nothing says `{part}`, of `{quote}`")
    print(f"pages: {count} parts of sentences are quoted as they are said, but for {wrong}")
    return wrong
