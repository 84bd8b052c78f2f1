"""Follows the links from one page of the repository to another: the file has to be there, and so
has the heading."""

from __future__ import annotations

import re
from pathlib import Path

ROOT = Path(__file__).resolve().parents[2]
LINK = re.compile(r"\[[^]\n]*\]\(([^)\s]+)\)")
PAGES = ("*.md", "*/*.md", "docs/*/*.md", "tests/*/*.md")
FENCED = re.compile(r"^```.*?^```$", re.MULTILINE | re.DOTALL)


def anchors_of(text: str) -> set[str]:
    """The names by which the headings of a page are linked to."""
    headings = re.findall(r"^#+ (.*)$", FENCED.sub("", text), re.MULTILINE)
    return {re.sub(r"[^\w\- ]", "", heading.lower()).replace(" ", "-") for heading in headings}


def pages() -> list[Path]:
    """All pages of the repository."""
    return sorted(page for pattern in PAGES for page in ROOT.glob(pattern))


def leads_nowhere(page: Path, link: str) -> bool:
    """Whether a link of a page leads to no file or to no heading."""
    name, _, anchor = link.partition("#")
    goal = (page.parent / name).resolve() if name else page
    if not goal.exists():
        return True
    return bool(anchor) and anchor not in anchors_of(goal.read_text(encoding="utf-8"))


def broken_links() -> int:
    """Prints each link between pages that leads nowhere, and tells how many these are."""
    broken = 0
    for page in pages():
        for link in LINK.findall(FENCED.sub("", page.read_text(encoding="utf-8"))):
            if "://" not in link and leads_nowhere(page, link):
                broken += 1
                print(f"{page.relative_to(ROOT)}: {link} leads nowhere")
    return broken
