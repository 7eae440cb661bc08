"""Standard output, where it may be closed or full."""
import os
import sys

from shq_tools.messages import say
from shq_tools.statuses import Status


def given_up(error):
    """Says why standard output failed, unless whoever read it has gone, and returns the status."""
    if not isinstance(error, BrokenPipeError):
        say(f"standard output: {error.strerror}")
    # what is still held back must not be written once more at the end
    nothing = os.open(os.devnull, os.O_WRONLY)
    os.dup2(nothing, 1)
    return Status.WRITE_FAULT


def written(data):
    """Writes bytes to standard output, and returns whether it took them."""
    if sys.stdout is None:
        say("standard output: it is closed")
        return False
    try:
        sys.stdout.flush()
        sys.stdout.buffer.write(data)
        sys.stdout.buffer.flush()
    except OSError as error:
        given_up(error)
        return False
    return True


def guarded(call, words):
    """Makes a call that prints, and returns its status, or that of a fault of a file or of standard output."""
    if sys.stdout is None:
        say("standard output: it is closed")
        return Status.WRITE_FAULT
    try:
        status = call(words)
        sys.stdout.flush()
        return status
    except OSError as error:
        if error.filename is None:
            return given_up(error)
        say(f"{error.filename}: {error.strerror}")
        return Status.READ_FAULT
