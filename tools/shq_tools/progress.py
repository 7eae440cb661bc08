"""A line on the terminal that says how long a job has run."""
import sys
import threading
import time

# How long a job runs before its seconds are shown.
QUIET_SECONDS = 2
WIPE = "\r\x1b[K"


def is_terminal():
    return sys.stderr is not None and sys.stderr.isatty()


class Progress:
    """Shows on standard error how many seconds a job has run, and what `note` says, where that is a terminal.

    The line has to be wiped, by `stop`, before anything else is written: standard output may lead to the same screen.
    """

    def __init__(self):
        self.note = ""
        self.ended = threading.Event()
        self.thread = threading.Thread(target=self.show, daemon=True)

    def show(self):
        begun = time.monotonic()
        wait = QUIET_SECONDS
        while not self.ended.wait(wait):
            sys.stderr.write(f"{WIPE}shq: {time.monotonic() - begun:.0f} seconds{self.note}")
            sys.stderr.flush()
            wait = 1
        if wait == 1:
            sys.stderr.write(WIPE)
            sys.stderr.flush()

    def __enter__(self):
        if is_terminal():
            self.thread.start()
        return self

    def __exit__(self, *fault):
        self.stop()

    def stop(self):
        """Wipes the line. After that none is shown."""
        self.ended.set()
        if self.thread.is_alive():
            self.thread.join()
