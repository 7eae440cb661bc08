"""The text that a script of this folder reads: a file that is named, or standard input."""
import sys

STATUSES = {"bad text": 3, "outside": 4, "limit": 5}
READ_FAULT = 6


def say(text):
    print(f"shq: {text}", file=sys.stderr, flush=True)


def data_of(words):
    """The bytes of the file that the words name, or of standard input, or None where they cannot be read."""
    try:
        if words:
            with open(words[0], "rb") as file:
                return file.read()
        return sys.stdin.buffer.read()
    except OSError as error:
        say(f"{words[0] if words else 'standard input'}: {error.strerror}")
        return None
