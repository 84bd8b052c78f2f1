"""Commands that start makes: whether they do more, and what is left of them without the makes."""

from __future__ import annotations

import re

# Words after which the name of a command stands.
FRONT = r"(?:^|(?<=[;&|({\n])|(?<=\bthen\b)|(?<=\bdo\b)|(?<=\belse\b)|(?<=\bexec\b)|(?<=!))"
ASSIGNMENTS = r"(?:[A-Za-z_]\w*=(?:'[^']*'|\"[^\"]*\"|[^\s;&|'\"]*)[ \t]+)*"
MAKE = re.compile(rf"({FRONT}\s*{ASSIGNMENTS})(?:/usr/bin/|/bin/)?g?make(?=[\s;&|)]|$)")
# Parts of a command that change no file, whatever make does.
HARMLESS = re.compile(r"(cd|echo|exit|set|test|true|:|export|\[)(\s.*)?$|[A-Za-z_]\w*=\S*$|$")


def is_only_makes(text: str, wrapper: str) -> bool:
    """Whether a command only starts makes, in folders and with variables of the environment.

    Where this says no, the command may still do nothing else: then the recording shows it.
    """
    text = text.replace(wrapper, "make").replace("\\\n", " ")
    rest = text.replace("&&", ";").replace("||", ";")
    if re.search(r"[`|<>*?\[&]|\$\(", rest):
        return False
    return all(is_make_or_harmless(part.strip(" \t(){}")) for part in re.split(r"[;\n]", rest))


def runs_at_once(text: str) -> bool:
    """Whether a command starts something that goes on beside what follows."""
    return re.search(r"(?<![&>|<\\])&(?![&>\d])|\bxargs\b.*\s-P|\bparallel\b", text) is not None


def is_make_or_harmless(part: str) -> bool:
    """Whether one simple command starts make, or changes nothing."""
    return MAKE.match(part) is not None or HARMLESS.match(part) is not None


def without_makes(text: str, wrapper: str) -> str:
    """The command with `:` in place of make."""
    return MAKE.sub(r"\1:", text.replace(wrapper, "make"))
