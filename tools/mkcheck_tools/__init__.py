"""Tools around mkcheck: they record what recipes read and write, translate builds of GNU make and
ninja, and show answers.

Rooms, from the bottom up:

- `run`: runs commands in folders that appear at the project's own path, and ends them
- `trace`: what strace writes: calls, and what they do to files
- `answers`: asks the program mkcheck, and reads what it prints
- `judge`: what is left of a recording: footprints, and what has to be said of them
- `gnu`: where GNU make reads a makefile otherwise than POSIX
- `replay`: runs recipes again in folders of their own, and compares
- `book`: the footprint file, the state beside it, and what an update keeps
- `record`, `imports`, `report`, `audit`: the four programs; the last one begins the others
"""

import sys

VERSION = "0.2.0"
# The address of the repository, to which logs lead their readers; empty while it has none.
HOME = ""
LEAST = (3, 11)
if sys.version_info < LEAST:
    sys.exit(
        "The tools of mkcheck need Python 3.11 or later; this is Python " + sys.version.split()[0]
    )
