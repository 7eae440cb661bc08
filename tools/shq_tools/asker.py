"""Many questions to the program, several at once, each within some seconds."""
import os
import time
from concurrent.futures import ThreadPoolExecutor

from shq_tools.budgets import SECONDS, by_budgets
from shq_tools.progress import Progress
from shq_tools.running import Signals, end_by
from shq_tools.words import BadWords


def at_once_in(text):
    """How many questions a word allows at once; as many as there are processors without one. Raises `BadWords`."""
    if text is None:
        return os.cpu_count() or 1
    if not text.isascii() or not text.isdigit() or not 0 < int(text) < 1000:
        raise BadWords(f"-j needs a number from 1 to 999, and not {text}")
    return int(text)


class Deadline:
    """A time after which nothing more is asked."""

    def __init__(self, seconds):
        self.end = time.monotonic() + seconds

    def left(self):
        return max(0.0, self.end - time.monotonic())


class Asker:
    """Asks questions, some at once. It is made in the main thread, and used in a `with`."""

    def __init__(self, seconds=SECONDS, at_once=None):
        self.seconds = seconds
        self.signals = Signals()
        self.progress = Progress()
        self.pool = ThreadPoolExecutor(at_once or os.cpu_count() or 1)

    def __enter__(self):
        self.progress.__enter__()
        return self

    def __exit__(self, *_):
        self.pool.shutdown(cancel_futures=True)
        self.progress.stop()
        if self.signals.got:
            end_by(self.signals.got)

    def known(self, words, source, seconds=None):
        """What the program answers, in whatever thread."""
        seconds = self.seconds if seconds is None else seconds
        return by_budgets(words, source, seconds, self.signals, Progress())

    def later(self, words, source, deadline, most=None):
        """What the program answers up to a deadline, and within `most` seconds from when it is asked: a future, since
        it is asked beside others.
        """

        def asked():
            left = deadline.left()
            return self.known(words, source, left if most is None else min(most, left))

        return self.pool.submit(asked)

    def all(self, call, items):
        """What a call answers to each item, in order, made for some of them at once; up to a signal."""
        for future in [self.pool.submit(call, it) for it in items]:
            found = future.result()
            if self.signals.got:
                return
            yield found
