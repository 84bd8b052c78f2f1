"""Shows additions as a patch, and writes them into the files."""

from __future__ import annotations

import contextlib
import difflib
import os
from collections.abc import Iterator, Mapping

from mkcheck_tools.audit.texts import BOLD, GREEN, RED, Paint
from mkcheck_tools.faults import Fault
from mkcheck_tools.report.escaping import visible

HUNK = "36"


def patch(texts: Mapping[str, tuple[str, str]], paint: Paint) -> Iterator[str]:
    """The lines of a patch, which `patch -p1` and `git apply` take."""
    for name, (before, after) in texts.items():
        old, new = ([f"{line}\n" for line in text.split("\n")] for text in (before, after))
        for lines in (old, new):
            last = lines.pop().removesuffix("\n")
            lines += [last] if last else []
        for line in difflib.unified_diff(old, new, f"a/{name}", f"b/{name}"):
            text, ended = line.removesuffix("\n"), line.endswith("\n")
            yield coloured(text, paint)
            if not ended:
                yield "\\ No newline at end of file"


def coloured(line: str, paint: Paint) -> str:
    """A line of a patch in colours. For a terminal all of its characters show."""
    if not paint.colours:
        return line
    code = {"+": GREEN, "-": RED, "@": HUNK}.get(line[:1])
    if line.startswith(("+++", "---")):
        code = BOLD
    return paint(visible(line), code) if code else visible(line)


def write_all(root: str, texts: Mapping[str, tuple[str, str]], begun: int) -> None:
    """Writes files anew, each whole, with its mode and owner. Raises Fault, and writes none, where
    one has changed since it was read, or since the audit began (`begun`, in nanoseconds)."""
    for name, (before, _) in texts.items():
        test_unchanged(root, name, before, begun)
    for name, (before, after) in texts.items():
        test_unchanged(root, name, before, begun)
        write(os.path.realpath(os.path.join(root, name)), after, name)


def test_unchanged(root: str, name: str, before: str, begun: int) -> None:
    """Raises Fault where a file isn't the one that was read."""
    path = os.path.join(root, name)
    try:
        with open(path, "rb") as file:
            text = file.read().decode("utf-8", "surrogateescape")
        status = os.stat(path)
    except OSError as error:
        raise Fault(f"{name} can't be read: {error.strerror}; nothing is written") from None
    if text != before or max(status.st_mtime_ns, status.st_ctime_ns) > begun:
        raise Fault(
            f"{name} has changed while it was audited, so nothing is written: run mkcheck-audit"
            " --fix again"
        )


def write(path: str, text: str, name: str) -> None:
    """Writes a file, whole or not at all, which keeps its mode, and its owner where that may be."""
    beside = os.path.join(os.path.dirname(path), f".mkcheck.{os.getpid()}")
    try:
        status = os.stat(path)
        number = os.open(beside, os.O_WRONLY | os.O_CREAT | os.O_EXCL, 0o600)
        try:
            with open(number, "wb") as file:
                file.write(text.encode("utf-8", "surrogateescape"))
                with contextlib.suppress(PermissionError):
                    os.fchown(number, status.st_uid, status.st_gid)
                os.fchmod(number, status.st_mode & 0o7777)
                file.flush()
                os.fsync(number)
            os.replace(beside, path)
        finally:
            with contextlib.suppress(FileNotFoundError):
                os.unlink(beside)
    except OSError as error:
        raise Fault(f"{name} can't be written: {error.strerror}") from None
