"""Commands of CMake's makefiles that make nothing which the build reads."""

from __future__ import annotations

import re

FRONT = r"(?:cd \S+ && )?\S*cmake(?:\.exe)? -E "
# Print a line of progress, and count it in files that nothing else reads.
DISPLAY = re.compile(FRONT + r"cmake_(?:echo_color|progress_start)\b[^;&|`<>]*$")
# Touch the further names of a library. They are links, and the library's recipe makes them.
TOUCH = re.compile(FRONT + r"touch_nocreate\b[^;&|`<>]*$")
# Write makefiles alone: those of a project that is configured anew, or from dependency files.
REMAKE = re.compile(
    r"(?:cd \S+ && )?\S*cmake(?:\.exe)? (?:[^;&|`<>]* --check-build-system [^;&|`<>]*"
    r"|-E cmake_depends [^;&|`<>]*)$"
)


def is_beside(text: str) -> bool:
    """Whether a command of CMake's makefiles makes nothing that the build reads."""
    return any(pattern.match(text) for pattern in (DISPLAY, TOUCH, REMAKE))
