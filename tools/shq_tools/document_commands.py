"""Runs the commands that stand in a document, and compares what they print with what stands there.

A block of commands is marked `sh`. Where a block that is marked `text` follows with no words between, it is what the
commands print. A line `..` in it stands for any lines. Commands of the toolchain are passed over, since they take too
long.
"""
import os
import re
import subprocess
import sys
import tempfile
from dataclasses import dataclass
from pathlib import Path

from shq_tools.places import TOP

BLOCK = re.compile(r"^```(\w*)\n(.*?)^```$", re.M | re.S)
PASSED_OVER = re.compile(r"^\s*(rt|git)\b")
ANY_LINES = ".."


@dataclass
class Commands:
    """The commands of a block, and what they print, or None where that is not said."""

    line: int
    text: str
    printed: str = None


def kept_commands(text):
    return "".join(it for it in text.splitlines(True) if not PASSED_OVER.match(it))


def commands_in(document):
    """The blocks of commands of a document."""
    found, end, latest = [], 0, None
    for match in BLOCK.finditer(document):
        is_next = not document[end : match.start()].strip()
        if match[1] == "text" and latest is not None and is_next:
            latest.printed = match[2]
        kept = kept_commands(match[2]) if match[1] == "sh" else ""
        latest = Commands(1 + document.count("\n", 0, match.start()), kept) if kept.strip() else None
        found += [latest] if latest else []
        end = match.end()
    return found


def is_printed(wanted, printed):
    """Whether what was printed is what was wanted, where a line `..` stands for any lines."""
    pieces = [re.escape(line) if line != ANY_LINES else None for line in wanted.splitlines()]
    pattern = "".join("(?:.*\\n)*?" if it is None else it + "\\n" for it in pieces)
    return re.fullmatch(pattern, printed if printed.endswith("\n") or not printed else printed + "\n") is not None


def room_like_the_top(room):
    """Puts a link to everything at the top of the repository into a folder, so that what commands write stays apart."""
    for path in TOP.iterdir():
        if path.name != ".git":
            os.symlink(path, Path(room) / path.name)


def run(commands, room):
    """What is wrong with a block of commands, or None."""
    how = {"stdin": subprocess.DEVNULL, "capture_output": True, "check": False}
    ran = subprocess.run(["bash", "-c", commands.text], cwd=room, **how)
    printed = ran.stdout.decode("utf-8", "replace")
    if ran.returncode:
        return f"ended with {ran.returncode}: {ran.stderr.decode('utf-8', 'replace').strip()[-500:]}"
    if commands.printed is not None and not is_printed(commands.printed, printed):
        return f"printed\n{printed}"
    return None


def run_document(path):
    """Runs the commands of a document in one folder, says of each block how it went, and returns how many failed."""
    failed = 0
    with tempfile.TemporaryDirectory(prefix="shq-document-") as room:
        room_like_the_top(room)
        for commands in commands_in(path.read_text(encoding="utf-8")):
            fault = run(commands, room)
            first = commands.text.strip().splitlines()[0]
            print(f"{'FAILED' if fault else 'ok'}: {path.name} line {commands.line}: {fault or first}", flush=True)
            failed += fault is not None
    return failed


def main(words):
    """Runs the commands of some documents, and returns 1 where one failed."""
    if not words:
        print("usage: tools/run-readme FILE ..", file=sys.stderr)
        return 2
    return 1 if sum(run_document(Path(it)) for it in words) else 0
