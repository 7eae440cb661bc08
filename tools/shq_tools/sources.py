"""What a job reads: a file or standard input, read once and handed to the program as often as it is asked."""
import errno
import os
import sys
import tempfile
from dataclasses import dataclass

from shq_tools.documents import MOST_BYTES
from shq_tools.syntaxes import MOST_OPENED

STANDARD_INPUT = "standard input"


@dataclass(frozen=True)
class Source:
    """The bytes that a job reads, and the name of the file that they are from, or None for standard input.

    They may be more than the program reads, since what is made from them may be shorter. Where they are a translation,
    `translation` is what `approximation.text` says of it.
    """

    name: str
    data: bytes
    translation: object = None

    def opened(self):
        """A file with these bytes, for the program to read. It has no name, and is gone once it is closed.

        Of a longer text than the program reads it has one byte more than that, so that the program refuses it.
        """
        if hasattr(os, "memfd_create"):
            file = os.fdopen(os.memfd_create("shq"), "w+b")
        else:
            file = tempfile.TemporaryFile()
        file.write(self.data[: MOST_BYTES + 1])
        file.flush()
        file.seek(0)
        return file


def input_data():
    """The bytes of standard input. Raises `OSError`, which names it."""
    if sys.stdin is None:
        raise OSError(errno.EBADF, "it is closed", STANDARD_INPUT)
    try:
        return sys.stdin.buffer.read(MOST_OPENED)
    except OSError as error:
        raise OSError(error.errno, error.strerror, STANDARD_INPUT) from error


def source_of(name):
    """The source with the bytes of a file, or of standard input where the name is None. Raises `OSError`."""
    if name is None:
        return Source(None, input_data())
    with open(name, "rb") as file:
        return Source(name, file.read(MOST_OPENED))
