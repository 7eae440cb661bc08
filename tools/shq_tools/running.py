"""Runs of the program."""
import os
import signal
import subprocess
import sys
from dataclasses import dataclass

from shq_tools import program
from shq_tools.output import written
from shq_tools.progress import Progress, is_terminal
from shq_tools.statuses import Status


@dataclass(frozen=True)
class Ended:
    """How a run ended: its status, or less than 0 the signal that ended it, and what it printed."""

    status: int
    output: bytes


class Signals:
    """The signals that end this script end the running programs first. An interrupt at the terminal reaches them by
    itself. It is made in the main thread; programs may be started in others.
    """

    def __init__(self):
        self.children = set()
        self.got = None
        signal.signal(signal.SIGINT, self.note)
        for number in (signal.SIGTERM, signal.SIGHUP):
            signal.signal(number, self.hand_on)

    def note(self, number, _):
        self.got = number

    def hand_on(self, number, _):
        self.got = number
        for child in list(self.children):
            if child.poll() is None:
                child.send_signal(number)


def end_by(number):
    """Ends this script by a signal."""
    signal.signal(number, signal.SIG_DFL)
    os.kill(os.getpid(), number)


def started(words, source, output):
    """The program, running on the bytes of a source, or on what this script reads where there is none."""
    stdin = source.opened() if source else None
    try:
        return subprocess.Popen([program.PROGRAM, *words], stdin=stdin, stdout=output)
    finally:
        if stdin:
            stdin.close()


def copied(child, progress):
    """Copies what the program writes, once the line on the terminal is gone, and returns whether that went well."""
    for piece in iter(lambda: child.stdout.read1(1 << 16), b""):
        progress.stop()
        if not written(piece):
            child.stdout.close()
            return False
    return True


def run_through(words, source=None):
    """Runs the program, whose answer goes to standard output as it comes, and returns its status.

    On a terminal the answer has to wait until the line with the seconds is gone.
    """
    output = subprocess.PIPE if is_terminal() and sys.stdout else None
    signals = Signals()
    with Progress() as progress:
        child = started(words, source, output)
        signals.children.add(child)
        is_whole = copied(child, progress) if output else True
        status = child.wait()
    if status < 0:
        end_by(-status)
    return status if is_whole else Status.WRITE_FAULT


def run_caught(words, source, seconds, signals):
    """Runs the program and keeps what it prints. Answers None where it had to be ended after so many seconds."""
    child = started(words, source, subprocess.PIPE)
    signals.children.add(child)
    try:
        output, _ = child.communicate(timeout=seconds)
    except subprocess.TimeoutExpired:
        child.kill()
        child.communicate()
        return None
    finally:
        signals.children.discard(child)
    return Ended(child.returncode, output)
