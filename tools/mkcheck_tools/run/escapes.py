"""Escapes in texts of the kernel and of strace: a backslash with a number or a letter."""

from __future__ import annotations

import os
import re

ESCAPE = re.compile(rb"\\(x[0-9a-fA-F]{2}|[0-7]{1,3}|.)")
LETTERS = {
    b"n": b"\n",
    b"t": b"\t",
    b"r": b"\r",
    b"v": b"\v",
    b"f": b"\f",
    b"a": b"\a",
    b"b": b"\b",
}


def unescaped(text: str) -> str:
    """A text without escapes."""
    if "\\" not in text:
        return text
    return os.fsdecode(ESCAPE.sub(byte_of, text.encode("utf-8", "surrogateescape")))


def byte_of(escape: re.Match[bytes]) -> bytes:
    """The byte that an escape stands for."""
    code = escape.group(1)
    if code[:1] == b"x" and len(code) > 1:
        return bytes([int(code[1:], 16)])
    if code[:1].isdigit():
        return bytes([int(code, 8) & 255])
    return LETTERS.get(code, code)
