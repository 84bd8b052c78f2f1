"""Interpreters of scripts and loaders of programs, which the system starts with them."""

from __future__ import annotations

import functools
import os
import struct
from typing import BinaryIO

FIRST_BYTES = 4096
ELF = b"\x7fELF"
PT_INTERP = 3


def interpreters_of(path: str) -> tuple[str, ...]:
    """The interpreter that the first line of a script names, or the loader that an ELF file does,
    as written there."""
    try:
        status = os.stat(path)
        return first_of(path, status.st_dev, status.st_ino, status.st_mtime_ns, status.st_size)
    except OSError:
        return ()


@functools.lru_cache(maxsize=4096)
def first_of(path: str, device: int, inode: int, stamp: int, size: int) -> tuple[str, ...]:
    """The same, kept for each file as it is."""
    with open(path, "rb") as file:
        front = file.read(FIRST_BYTES)
        if front.startswith(ELF):
            return loader_of(front, file)
    words = front.split(b"\n", 1)[0][2:].split(None, 1)
    return (os.fsdecode(words[0]),) if front.startswith(b"#!") and words else ()


def loader_of(front: bytes, file: BinaryIO) -> tuple[str, ...]:
    """The loader that the program headers of an ELF file name."""
    order = "<" if front[5:6] == b"\x01" else ">"
    wide = front[4:5] == b"\x02"
    word = order + ("Q" if wide else "I")
    try:
        (start,) = struct.unpack_from(word, front, 32 if wide else 28)
        size, count = struct.unpack_from(order + "HH", front, 54 if wide else 42)
        file.seek(start)
        headers = file.read(size * count)
        for at in range(0, size * count, size):
            (kind,) = struct.unpack_from(order + "I", headers, at)
            if kind == PT_INTERP:
                (offset,) = struct.unpack_from(word, headers, at + (8 if wide else 4))
                (length,) = struct.unpack_from(word, headers, at + (32 if wide else 16))
                file.seek(offset)
                name = file.read(length).rstrip(b"\0")
                return (os.fsdecode(name),) if name else ()
    except (struct.error, ValueError):
        pass
    return ()
