"""A commit more in a copy of a project, after which git says something else."""

from __future__ import annotations

import os
import re
import subprocess
from collections.abc import Iterator
from pathlib import Path

from mkcheck_tools.imports.gnumake import content

# The file that stands for all that git keeps.
HEAD = ".git/HEAD"
BRANCH = "refs/heads/mkcheck-trial"
WHO = {
    **dict.fromkeys(("GIT_AUTHOR_NAME", "GIT_COMMITTER_NAME"), "mkcheck"),
    **dict.fromkeys(("GIT_AUTHOR_EMAIL", "GIT_COMMITTER_EMAIL"), "mkcheck@localhost"),
    **dict.fromkeys(("GIT_AUTHOR_DATE", "GIT_COMMITTER_DATE"), "2001-02-03T04:05:06Z"),
}
# Commands of git that say something else after a commit.
SAYS = re.compile(
    r"\bgit\b.*(?<![-\w])"
    r"(?:describe|log|show|rev-list|branch|symbolic-ref|name-rev|status|diff|HEAD)(?![-\w])"
)
CURE = (
    "let a recipe that always runs write what git says to a file where that is another text, and"
    " let what uses it need that file"
)


def commits(folder: str) -> Iterator[None]:
    """Gives a copy in a folder a commit more, on a branch of its own, and takes it back. Where that
    can't be, nothing is given."""
    head = Path(folder, HEAD)
    before, stamp = content(str(head)), os.stat(head)
    words = ["git", "-C", folder, "commit-tree", "-p", "HEAD", "-m", "mkcheck", "HEAD^{tree}"]
    environment = {**os.environ, **WHO}
    try:
        done = subprocess.run(words, env=environment, capture_output=True, text=True, check=False)
    except OSError:
        return
    if done.returncode != 0:
        return
    branch = Path(folder, ".git", BRANCH)
    branch.parent.mkdir(parents=True, exist_ok=True)
    branch.write_text(done.stdout, encoding="utf-8")
    head.write_text(f"ref: {BRANCH}\n", encoding="utf-8")
    try:
        yield
    finally:
        head.write_bytes(before)
        os.utime(head, ns=(stamp.st_atime_ns, stamp.st_mtime_ns))
        branch.unlink()
