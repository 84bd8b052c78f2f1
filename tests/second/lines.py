"""Lines of a text, comments, names, and what is outside references."""

from __future__ import annotations

from collections.abc import Container, Iterator

BLANKS = b" \t"
LINE_LIMIT = 65536
NAME_LIMIT = 4096
BAD_IN_NAMES = b"%*?[]:;=#$\\\"'`|&<>()"


class Refused(Exception):
    """A refusal: its number, its place where it has one, and its other words as bytes.

    A fault that isn't the first one with its number is named. The word `about` and the place `near`
    are told in sentences alone."""

    def __init__(
        self,
        number: int,
        *words: bytes,
        where: bytes | None = None,
        name: str | None = None,
        about: bytes | None = None,
        near: bytes | None = None,
    ) -> None:
        super().__init__(number, where, words, name)
        self.number = number
        self.where = where
        self.words = list(words)
        self.name = name
        self.about = about
        self.shown = where or near

    def line(self) -> bytes:
        begun = [b"refused", str(self.number).encode()]
        places = [] if self.where is None else [self.where]
        return b" ".join(begun + places + self.words)


class Unplaced(Exception):
    """A fault of a line or of a text in it; who knows the place makes a refusal of it."""

    def __init__(self, number: int, *words: bytes) -> None:
        super().__init__(number, words)
        self.number = number
        self.words = words

    def at(self, where: bytes) -> Refused:
        return Refused(self.number, *self.words, where=where)


class Line:
    """A logical line: its first number, whether it is a command line, its text."""

    def __init__(self, first: int, command: bool, text: bytes) -> None:
        self.first = first
        self.command = command
        self.text = text


def number_of(word: bytes, limit: int) -> int | None:
    """The number of these digits, or None beyond the limit; leading zeros are free."""
    digits = word.lstrip(b"0") or b"0"
    return int(digits) if len(digits) <= len(str(limit)) and int(digits) <= limit else None


def words(text: bytes) -> list[bytes]:
    """The words of a text: its longest parts without blanks."""
    return [word for word in text.replace(b"\t", b" ").split(b" ") if word]


def place(file: bytes, number: int) -> bytes:
    """FILE:LINE."""
    return file + b":" + str(number).encode()


def newline_is_escaped(piece: bytes) -> bool:
    """Whether an odd number of backslashes ends the piece."""
    return (len(piece) - len(piece.rstrip(b"\\"))) % 2 == 1


def joined_lines(text: bytes) -> Iterator[Line]:
    """The logical lines of a text that aren't of blanks alone."""
    pieces = text.split(b"\n")
    at = 0
    while at < len(pieces):
        first = at + 1
        command = pieces[at].startswith(b"\t")
        joined = [pieces[at][1:] if command else pieces[at]]
        while newline_is_escaped(pieces[at]) and at + 1 < len(pieces):
            at += 1
            piece = pieces[at]
            if command:
                joined.append(b"\n" + (piece[1:] if piece.startswith(b"\t") else piece))
            else:
                joined[-1] = joined[-1][:-1]
                joined.append(b" ")
                joined.append(piece.lstrip(BLANKS))
        at += 1
        whole = b"".join(joined)
        if whole.strip(BLANKS):
            yield Line(first, command, whole)


def logical_lines(text: bytes, file: bytes) -> list[Line]:
    """The logical lines of a text, or its first fault among 1, 2 and 3."""
    lines: list[Line] = []
    for line in joined_lines(text):
        if b"\0" in line.text:
            raise Refused(1, where=place(file, line.first))
        if len(line.text) > LINE_LIMIT:
            raise Refused(2, where=place(file, line.first))
        if len(lines) == LINE_LIMIT:
            raise Refused(3, where=place(file, line.first))
        lines.append(line)
    return lines


def depths(text: bytes, start: int) -> Iterator[tuple[int, int, int]]:
    """Each place but those of `$(`, `${` and `$$`, with the number of references
    that are open before its byte and after it.

    `$(` lasts to its `)` and `${` to its `}`, with references inside; `$$` is
    passed over as two bytes; another `$` is one byte like any other."""
    closers: list[bytes] = []
    at = start
    while at < len(text):
        two = text[at : at + 2]
        if two in (b"$$", b"$(", b"${"):
            if two != b"$$":
                closers.append(b")" if two == b"$(" else b"}")
            at += 2
            continue
        before = len(closers)
        if closers and text[at : at + 1] == closers[-1]:
            closers.pop()
        yield at, before, len(closers)
        at += 1


def first_outside(text: bytes, wanted: Container[bytes], start: int = 0) -> int | None:
    """The place of the first byte among the wanted that no reference holds, or None."""
    for at, before, _ in depths(text, start):
        if before == 0 and text[at : at + 1] in wanted:
            return at
    return None


def reference_end(text: bytes, start: int) -> int | None:
    """The place of the byte that closes the reference whose `$` is at start, or None."""
    for at, before, after in depths(text, start):
        if before and not after:
            return at
    return None


WANTED = (b"=", b":", b";")


def include_word(text: bytes) -> bytes | None:
    """The first word, where it makes an include line of the text, else None."""
    first = words(text)[:1]
    return first[0] if first and first[0] in (b"include", b"-include") else None


def is_rule_line(text: bytes) -> bool:
    """Whether a text with its comment is a rule line, to know where that may begin."""
    if include_word(text):
        return False
    at = first_outside(text, WANTED)
    if at is None or text[at : at + 1] != b":":
        return False
    return not any(text.startswith(op, at) for op in (b":=", b"::=", b":::="))


def uncomment(text: bytes) -> bytes:
    """A plain line without its comment; `\\#` becomes `#`."""
    limit = len(text)
    if is_rule_line(text):
        semicolon = first_outside(text, (b";",))
        limit = len(text) if semicolon is None else semicolon
    at = text.find(b"#", 0, limit)
    while at > 0 and text[at - 1 : at] == b"\\":
        at = text.find(b"#", at + 1, limit)
    if at >= 0:
        return text[:at].replace(b"\\#", b"#")
    return text[:limit].replace(b"\\#", b"#") + text[limit:]


def is_plain_path(name: bytes) -> bool:
    """Whether bytes are a plain path."""
    try:
        name.decode("utf-8")
    except UnicodeDecodeError:
        return False
    if not 1 <= len(name) <= NAME_LIMIT or any(byte <= 32 or byte == 127 for byte in name):
        return False
    parts = name.split(b"/")
    absolute = parts[0] == b""
    if absolute:
        parts = parts[1:]
    leading = not absolute
    for part in parts:
        if part in (b"", b"."):
            return False
        if part == b".." and not leading:
            return False
        leading = leading and part == b".."
    return True


def is_make_name(name: bytes) -> bool:
    return is_plain_path(name) and not any(byte in BAD_IN_NAMES for byte in name)


def tested_name(
    word: bytes, where: bytes, member: str | None = None, bad: str | None = None
) -> bytes:
    """The word, or 28 or 27 at that place, by these names; of a makefile's word without a name."""
    if b"(" in word or b")" in word:
        raise Refused(28, where=where, name=member, about=None if member else word)
    if not is_make_name(word):
        raise Refused(27, where=where, name=bad, about=None if bad else word)
    return word
