"""Texts as a reader may see them: what doesn't show is made visible, what is markup is escaped."""

from __future__ import annotations

import html
import re
import unicodedata

# Categories of characters that don't show, or that turn the direction of writing: controls, marks
# of format, surrogates, private use, unassigned, line and paragraph separators.
UNSEEN = frozenset({"Cc", "Cf", "Cs", "Co", "Cn", "Zl", "Zp"})
# Bytes that aren't UTF-8 are decoded as U+DC80 to U+DCFF.
BYTES = 0xDC00
CODE = re.compile(r"`([^`]+)`")
NAME_AT_MOST = 60
TEXT_AT_MOST = 1200


def shown_character(character: str) -> str:
    """A character, or its number where it doesn't show."""
    if character == " " or character.isalnum():
        return character
    number = ord(character)
    category = unicodedata.category(character)
    if category == "Cs" and BYTES + 0x80 <= number <= BYTES + 0xFF:
        return f"<{number - BYTES:02X}>"
    if category in UNSEEN or category == "Zs":
        return f"<U+{number:04X}>"
    return character


def visible(text: str) -> str:
    """A text in which each character shows; tabs and newlines stay."""
    if text.isascii() and text.replace("\t", "").replace("\n", "").isprintable():
        return text
    return "".join(one if one in "\t\n" else shown_character(one) for one in text)


def shortened(text: str, most: int = NAME_AT_MOST) -> str:
    """A text, or its two ends where it is longer."""
    if len(text) <= most:
        return text
    behind = (most - 1) // 2
    return f"{text[: most - 1 - behind]}…{text[-behind:]}"


def clipped(text: str, most: int = TEXT_AT_MOST) -> str:
    """A text, or its two ends and how much is left out between them."""
    if len(text) <= most:
        return text
    half = most // 2
    return f"{text[:half]} … {len(text) - 2 * half:,} characters … {text[-half:]}"


def markup(text: str) -> str:
    """A text for a page or a picture."""
    return html.escape(visible(text))


def prose(text: str) -> str:
    """A sentence for a page; what stands between backticks is code."""
    return CODE.sub(r"<code>\1</code>", markup(text))


def as_sentence(text: str) -> str:
    """A text that begins with a capital letter and ends with a full stop."""
    return f"{text[:1].upper()}{text[1:]}{'' if text.endswith('.') else '.'}"


def dot_string(text: str) -> str:
    """A text as a quoted string of Graphviz, which reads backslashes and entities in it."""
    escaped = html.escape(visible(text), quote=False)
    return '"' + escaped.replace("\\", "\\\\").replace('"', '\\"') + '"'


def counted(number: int, word: str) -> str:
    """A number and a word, which is one or several."""
    return f"{number:,} {word}{'' if number == 1 else 's'}"
