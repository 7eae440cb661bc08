"""What is kept of a gate that passed: which program, made from which sources, by which kit and when.

`.ci/run` has it written behind `rt ci`, into the folder of the program, which `rt ci` empties at its beginning. So a
record says that the gate passed on just these sources, and that it made just this program.
"""
import calendar
import hashlib
import os
import re
import subprocess
import time
from dataclasses import asdict, dataclass
from pathlib import Path

from shq_tools.places import BUILT_PROGRAM, CRATE_LIST, CRATES, PROGRAM, TOP

NAME = "gate.txt"
TIME = "%Y-%m-%dT%H:%M:%SZ"
PASSED = re.compile(r"[0-9]+ passed, 0 failed")
NOT_COMMITTED = "not committed"


class NoRecord(Exception):
    """Why there is no record, or none that holds."""


@dataclass(frozen=True)
class GateRecord:
    """The kit's line, when the gate passed, its last line, the commit, and sums of the program and the sources."""

    kit: str
    proved: str
    gate: str
    commit: str
    program: str
    sources: str

    def text(self):
        return "".join(f"{key}: {value}\n" for key, value in asdict(self).items())

    @property
    def seconds(self):
        """The time at which the gate passed, in seconds since 1970."""
        return calendar.timegm(time.strptime(self.proved, TIME))


def read_record(path):
    """The record in a file."""
    try:
        lines = Path(path).read_text(encoding="utf-8").splitlines()
        return GateRecord(**dict(it.split(": ", 1) for it in lines))
    except (OSError, TypeError, ValueError) as error:
        raise NoRecord("there is no record that rt ci passed and made this program: run .ci/run") from error


def sum_of(path):
    """The SHA-256 sum of a file."""
    return hashlib.sha256(Path(path).read_bytes()).hexdigest()


def source_files():
    """All that the gate reads: the crates without what is made from them, the list of crates, and what is allowed."""
    yield from (it for it in (CRATE_LIST, TOP / "HANDLES") if it.exists())
    for folder, inner, names in os.walk(CRATES):
        inner[:] = sorted(it for it in inner if it != "out")
        yield from (Path(folder, it) for it in sorted(names))


def sum_of_sources():
    """One sum over all sources, their names included."""
    lines = (f"{sum_of(it)}  {it.relative_to(TOP)}\n" for it in source_files())
    return hashlib.sha256("".join(sorted(lines)).encode("utf-8")).hexdigest()


def said(*words):
    """What a command prints, without the blanks around it."""
    try:
        ran = subprocess.run(words, cwd=TOP, stdin=subprocess.DEVNULL, capture_output=True, text=True, check=True)
    except (OSError, subprocess.CalledProcessError) as error:
        raise NoRecord(f"{' '.join(words)} fails, so the gate is not recorded") from error
    return ran.stdout.strip()


def commit_of_sources():
    """The commit, or that the sources are not those of one."""
    changed = said("git", "status", "--porcelain", "--", "crates", "crates.txt", "HANDLES")
    return NOT_COMMITTED if changed else said("git", "rev-parse", "HEAD")


def record_gate(log, started):
    """Writes the record of a gate that printed this log and began when the file `started` was made."""
    lines = [it for it in Path(log).read_text(encoding="utf-8", errors="replace").splitlines() if it.strip()]
    if not lines or not PASSED.fullmatch(lines[-1]):
        raise NoRecord("the last line of the gate is not that all passed, so it is not recorded")
    begun = os.stat(started).st_mtime_ns
    changed = next((it for it in source_files() if it.stat().st_mtime_ns > begun), None)
    if changed:
        raise NoRecord(f"{changed.relative_to(TOP)} changed while the gate ran, so it is not recorded")
    if not BUILT_PROGRAM.exists() or BUILT_PROGRAM.stat().st_mtime_ns < begun:
        raise NoRecord("the gate left no program that it made, so it is not recorded")
    record = GateRecord(
        kit=said("rt", "version"),
        proved=time.strftime(TIME, time.gmtime()),
        gate=lines[-1],
        commit=commit_of_sources(),
        program=sum_of(BUILT_PROGRAM),
        sources=sum_of_sources(),
    )
    (BUILT_PROGRAM.parent / NAME).write_text(record.text(), encoding="utf-8")
    return record


def record_of(program=PROGRAM):
    """The record of a program, where there is one that names this very program."""
    record = read_record(program.parent / NAME)
    if sum_of(program) != record.program:
        raise NoRecord("the program is not the one that the gate made: run .ci/run")
    return record
