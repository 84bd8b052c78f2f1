"""What stands at a path at one moment, and a store that keeps contents by their digests."""

from __future__ import annotations

import contextlib
import errno
import hashlib
import os
import stat
import threading
import time
from collections import defaultdict
from collections.abc import Iterator
from dataclasses import dataclass, field
from io import FileIO

from mkcheck_tools.faults import Fault
from mkcheck_tools.run import stopping
from mkcheck_tools.run.paths import RealPath, real_in

FILE = "file"
LINK = "link"
FOLDER = "folder"
# Something that is only known to be there.
THERE = "there"
KINDS = {
    stat.S_IFREG: FILE,
    stat.S_IFLNK: LINK,
    stat.S_IFDIR: FOLDER,
    stat.S_IFIFO: "pipe",
    stat.S_IFSOCK: "socket",
}
CHUNK = 1 << 20
ZEROS = memoryview(bytes(CHUNK))
# The unit in which a status tells how much of a file is no hole.
BLOCK = 512
NOWHERE = RealPath("")
# In nanoseconds: a file that changed less than this ago may change again and keep its stamp, since
# the clocks of file systems go on in steps.
SETTLING = 2_500_000_000

# Files below this size are read as soon as one has looked whether they are known.
LARGE = 1 << 16

# The device, the number, the size and the times of a file.
Stamp = tuple[int, int, int, int, int]


def stamp_of(status: os.stat_result) -> Stamp:
    """What is another one when the bytes of a file are others. No program can set the last time."""
    return (
        status.st_dev,
        status.st_ino,
        status.st_size,
        status.st_mtime_ns,
        status.st_ctime_ns,
    )


def is_settled(stamp: Stamp) -> bool:
    """Whether a file that has this stamp now has other bytes only with another stamp."""
    return stamp[4] < time.time_ns() - SETTLING


@dataclass(frozen=True)
class Version:
    """What stands at a path: its kind, the bits of its mode, and its content.

    The content of a file is a digest of its bytes, that of a link where it leads, else nothing. Two
    versions are equal whatever their stamps are.
    """

    kind: str
    mode: int
    content: str
    stamp: int = field(default=0, compare=False)


def version_of(path: RealPath) -> Version | None:
    """The version at a path itself, which may be a link; None where nothing is there."""
    try:
        status = os.lstat(path)
    except OSError:
        return None
    kind = KINDS.get(stat.S_IFMT(status.st_mode), "device")
    mode = 0 if kind == LINK else stat.S_IMODE(status.st_mode)
    return Version(kind, mode, content_of(path, kind), status.st_mtime_ns)


def content_of(path: RealPath, kind: str) -> str:
    """What tells one content from another: a digest, or where a link leads."""
    try:
        if kind == LINK:
            return os.readlink(path)
        return digest_of(path) if kind == FILE else ""
    except OSError as error:
        raise Fault(f"{path} can't be read: {error.strerror}") from None


# The digests of files, by their stamps.
_known: dict[Stamp, str] = {}
# Held by who reads a file, by its stamp: one that comes meanwhile waits for the digest.
_reading: defaultdict[Stamp, threading.Lock] = defaultdict(threading.Lock)


def know_digest(stamp: Stamp, digest: str) -> None:
    """From now on the digest of the file with this stamp is known."""
    _known[stamp] = digest


def is_known(stamp: Stamp) -> bool:
    """Whether the digest of the file with this stamp is known."""
    return stamp in _known


def digest_of(path: RealPath) -> str:
    """A digest of the bytes of a file, which is read unless its digest is known by its stamp."""
    stamp = stamp_of(os.stat(path))
    known = _known.get(stamp)
    if known is not None:
        return known
    if not is_settled(stamp):
        return digest_of_bytes(path)
    with _reading[stamp]:
        if not is_known(stamp):
            know_digest(stamp, digest_of_bytes(path))
    _reading.pop(stamp, None)
    return _known[stamp]


def digest_of_bytes(path: RealPath) -> str:
    """A digest of the bytes of a file, which is read, but for its holes."""
    digest = hashlib.sha256()
    with open(path, "rb", buffering=0) as file:
        for chunk in chunks_of(file):
            digest.update(chunk)
            stopping.go_on()
    return digest.hexdigest()


def chunks_of(file: FileIO) -> Iterator[bytes | memoryview]:
    """The bytes of a file. Those of holes aren't read."""
    status, at = os.fstat(file.fileno()), 0
    is_sparse = status.st_blocks * BLOCK < status.st_size
    for begin, end in parts_of(file.fileno(), status.st_size) if is_sparse else ():
        yield from zeros(begin - at)
        while begin < end and (chunk := os.pread(file.fileno(), min(CHUNK, end - begin), begin)):
            yield chunk
            begin += len(chunk)
        at = end
    if is_sparse:
        yield from zeros(status.st_size - at)
        return
    while chunk := file.read(CHUNK):
        yield chunk


def zeros(number: int) -> Iterator[memoryview]:
    """This number of bytes that are zero."""
    for at in range(0, number, CHUNK):
        yield ZEROS[: min(CHUNK, number - at)]


def copy_bytes(source: RealPath, goal: RealPath) -> None:
    """Copies the bytes of a file to a new file, which shares them where the disk can, and whose
    holes stay holes."""
    with open(source, "rb", buffering=0) as old, open(goal, "xb", buffering=0) as new:
        size = os.fstat(old.fileno()).st_size
        for begin, end in parts_of(old.fileno(), size):
            copy_part(old.fileno(), new.fileno(), begin, end)
        new.truncate(size)


def parts_of(file: int, size: int) -> Iterator[tuple[int, int]]:
    """The parts of a file that are no holes; all where the file system doesn't tell."""
    end = 0
    while end < size:
        try:
            begin = os.lseek(file, end, os.SEEK_DATA)
            end = os.lseek(file, begin, os.SEEK_HOLE)
        except OSError as error:
            if error.errno != errno.ENXIO:
                yield end, size
            return
        yield begin, end


def copy_part(source: int, goal: int, begin: int, end: int) -> None:
    """Copies a part of a file, by the file system where it can."""
    at = begin
    try:
        while at < end:
            copied = os.copy_file_range(source, goal, min(CHUNK, end - at), at, at)
            if not copied:
                return
            at += copied
            stopping.go_on()
    except (AttributeError, OSError):
        while chunk := os.pread(source, min(CHUNK, end - at), at):
            stopping.go_on()
            while chunk:
                written = os.pwrite(goal, chunk, at)
                chunk, at = chunk[written:], at + written


def lay(source: RealPath, goal: RealPath, version: Version) -> None:
    """Lays a version at a path where nothing is: a link, or a file with the bytes of another."""
    if version.kind == LINK:
        os.symlink(version.content, goal)
        return
    copy_bytes(source, goal)
    os.chmod(goal, version.mode)
    os.utime(goal, ns=(version.stamp, version.stamp))


@dataclass(frozen=True)
class Store:
    """Keeps the bytes of files in a folder, by digest. What `older` has isn't kept again."""

    folder: RealPath
    older: RealPath = NOWHERE

    def path(self, version: Version) -> RealPath:
        """Where the bytes of a version lie."""
        if self.older:
            path = real_in(self.older, version.content)
            if os.path.exists(path):
                return path
        return real_in(self.folder, version.content)

    def keep(self, path: RealPath) -> Version | None:
        """The version at a path, whose bytes are kept where it is a file."""
        version = version_of(path)
        if version is None or version.kind != FILE or os.path.exists(self.path(version)):
            return version
        goal = real_in(self.folder, version.content)
        beside = RealPath(goal + ".new")
        if os.path.lexists(beside):
            os.unlink(beside)
        try:
            copy_bytes(path, beside)
            os.replace(beside, goal)
        except OSError as error:
            with contextlib.suppress(OSError):
                os.unlink(beside)
            raise OSError(error.errno, error.strerror, goal) from None
        return version
