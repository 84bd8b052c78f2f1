"""How a tool ends: it has written a text whole, or says in a sentence why there is none."""

from __future__ import annotations

import os
import sys
from collections.abc import Callable
from pathlib import Path

from mkcheck_tools.faults import Fault, sentence_of
from mkcheck_tools.run.stopping import Stopped, catch_signals, pass_over_signals


def write_text(text: str, path: str | None) -> None:
    """Writes a text to a file, whole or not at all, or to standard output where there is no path.

    A device or a pipe is written to and stays what it is.
    """
    try:
        if path is None:
            write_out(text.encode("utf-8"))
            return
        if os.path.exists(path) and not os.path.isfile(path):
            # The real path of a pipe, as behind /dev/stdout, is none by which it can be opened.
            Path(path).write_text(text, encoding="utf-8")
            return
        goal = Path(os.path.realpath(path))
        beside = goal.with_name(f".mkcheck.{os.getpid()}")
        try:
            beside.write_text(text, encoding="utf-8")
            beside.replace(goal)
        finally:
            beside.unlink(missing_ok=True)
    except OSError as error:
        name = "standard output" if path is None else path
        raise Fault(f"{name} can't be written: {error.strerror or error}") from None


def write_out(content: bytes) -> None:
    """Writes bytes to standard output at once, so that an error isn't met when Python ends."""
    while content:
        content = content[os.write(1, content) :]


def ended(tool: str, called: str, work: Callable[[], int]) -> int:
    """Does the work of a tool, and gives its status. What ends it early is told in a sentence."""
    try:
        catch_signals()
        status = work()
        # All is done, so a signal has nothing more to end.
        pass_over_signals()
        return status
    except Exception as error:
        said = sentence_of(error, called)
        status = error.status if isinstance(error, Fault) else Fault.status
    except Stopped as stopped:
        pass_over_signals()
        said, status = f"stopped by {stopped.name}, {stopped.rest}", stopped.status
    print(f"{tool}: {said}", file=sys.stderr)
    return status
