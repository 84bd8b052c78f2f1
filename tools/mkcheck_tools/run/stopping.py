"""Ends the program by a signal as by a fault: processes are stopped, and copies removed."""

from __future__ import annotations

import contextlib
import signal
import threading
from collections.abc import Iterator
from types import FrameType

from mkcheck_tools.faults import Fault

SIGNALS = (signal.SIGINT, signal.SIGTERM, signal.SIGHUP)

# How often the end is put off now, and the signals that came meanwhile.
_held: list[None] = []
_came: list[int] = []
# Set when the program ends before its work is done: threads have to end then.
_ending = threading.Event()


class Stopped(BaseException):
    """A signal that ends the program."""

    def __init__(self, number: int) -> None:
        super().__init__(number)
        self.status = 128 + number
        self.name = signal.Signals(number).name
        self.rest = "nothing is written"


def catch_signals() -> None:
    """From now on these signals raise `Stopped`, but for those that were ignored, as nohup has it.

    A second one changes nothing, since the first one's clearing up isn't to be cut short.
    """
    for number in SIGNALS:
        if signal.getsignal(number) is not signal.SIG_IGN:
            signal.signal(number, stop)


def pass_over_signals() -> None:
    """From now on these signals change nothing: what is left to be done is short."""
    for number in SIGNALS:
        signal.signal(number, signal.SIG_IGN)


def stop(number: int, _frame: FrameType | None) -> None:
    """Raises `Stopped`, or has that done later where the end is put off.

    Python would say in a traceback that it ignores a second signal that came at the same moment, if
    both were ignored from here on. So the second one has a function that does nothing.
    """
    for other in SIGNALS:
        if signal.getsignal(other) is stop:
            signal.signal(other, do_nothing)
    if not _held:
        raise Stopped(number)
    _came.append(number)


def do_nothing(_number: int, _frame: FrameType | None) -> None:
    """What a signal does that comes after one by which the program ends."""


def end_threads() -> None:
    """From now on `pause` and `go_on` are faults."""
    _ending.set()


def is_ending() -> bool:
    """Whether the program ends before its work is done."""
    return _ending.is_set()


def go_on() -> None:
    """A fault where the program ends: to be asked in long work, since a signal raises in the main
    thread alone."""
    if is_ending():
        raise Fault("the program ends, so nothing goes on")


def pause(seconds: float) -> None:
    """Waits for a time, unless the program ends, which is a fault."""
    if _ending.wait(seconds):
        raise Fault("the program ends, so nothing is waited for")


@contextlib.contextmanager
def held() -> Iterator[None]:
    """Puts off the end by a signal, which raises in the main thread alone, to the end of this."""
    if threading.current_thread() is not threading.main_thread():
        yield
        return
    _held.append(None)
    try:
        yield
    finally:
        _held.pop()
        if _came and not _held:
            raise Stopped(_came.pop())
