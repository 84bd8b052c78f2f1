"""Where the four programs start. While one is loaded, a signal ends it at once and without a word;
from then on `run.stopping` has the signals."""

from __future__ import annotations

import importlib
import signal
from collections.abc import Callable


def start(room: str) -> None:
    """Loads and runs the program of a room. Python has SIGINT raise an error, whose traceback
    nobody needs, so until that is loaded it ends the program, unless it is ignored."""
    if signal.getsignal(signal.SIGINT) is signal.default_int_handler:
        signal.signal(signal.SIGINT, signal.SIG_DFL)
    run: Callable[[], None] = importlib.import_module(f"mkcheck_tools.{room}.program").run
    run()


def record() -> None:
    """mkcheck-record."""
    start("record")


def translate() -> None:
    """mkcheck-import."""
    start("imports")


def report() -> None:
    """mkcheck-report."""
    start("report")


def audit() -> None:
    """mkcheck-audit."""
    start("audit")
