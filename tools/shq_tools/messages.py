"""What is said to the person at the command, on standard error."""
import sys


def say(text):
    """Says something, unless nobody can hear it."""
    say_plainly(f"shq: {text}")


def say_plainly(text):
    """Says something without the name of the command in front."""
    # without a stream `print` would take standard output
    if sys.stderr is None:
        return
    try:
        print(text, file=sys.stderr, flush=True)
    except (OSError, ValueError):
        pass


def seconds_text(seconds):
    """So many seconds, in words."""
    return f"{seconds:g} second{'' if seconds == 1 else 's'}"
