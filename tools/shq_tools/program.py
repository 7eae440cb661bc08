"""The program: where it is, and whether it is built."""
import os
import subprocess
import sys
from pathlib import Path

from shq_tools import places
from shq_tools.messages import say

PROGRAM = places.PROGRAM
NOT_THERE = "there is no program to ask"
SOURCE_ENDS = (".rt", ".antt")


def sources():
    """The files that the program is made from."""
    yield places.CRATE_LIST
    for folder, inner, names in os.walk(places.CRATES):
        inner[:] = [it for it in inner if it != "out"]
        for name in names:
            if name.endswith(SOURCE_ENDS):
                yield Path(folder, name)


def is_stale():
    """Whether the program is not built, or a source is newer."""
    if not os.access(PROGRAM, os.X_OK):
        return True
    built = os.stat(PROGRAM).st_mtime_ns
    return any(it.exists() and it.stat().st_mtime_ns > built for it in sources())


def is_ready():
    """Whether the program is built, which is done where it is not."""
    if not is_stale():
        return True
    how = {"stdin": subprocess.DEVNULL, "check": False}
    if subprocess.run([sys.executable, "-B", places.TOOLS / "build"], **how).returncode == 0:
        return True
    say(NOT_THERE)
    return False
