"""A job by seconds: runs with budgets that grow, until one decides or the seconds are over."""
import time
from dataclasses import dataclass

from shq_tools.progress import Progress
from shq_tools.running import Ended, Signals, run_caught
from shq_tools.statuses import Status

FIRST = 1_000_000
MOST = 4_294_967_295
GROWTH = 8
SECONDS = 60
# What is known where no run has ended, by job; of the others it is UNDECIDED.
UNDECIDED = b"undecided\n"
NOTHING_FOUND = {"explain": b"partial justifications 0\nundecided\n", "repair": b"partial repairs 0\nundecided\n"}


def budgets():
    """The budgets in order, up to the greatest that the program allows."""
    steps = FIRST
    while steps * GROWTH <= MOST:
        yield steps
        steps *= GROWTH
    yield MOST


def budget_in(words):
    """How many steps the words allow, or 0 where they do not say it."""
    return int(words[-1]) if len(words) >= 3 and words[-2] == "budget" and words[-1].isdigit() else 0


@dataclass(frozen=True)
class Known:
    """What is known at the end: how the last run ended that was not cut off, its budget (0 where there was none), and
    the signal by which all of it was ended, or None.
    """

    ended: Ended
    budget: int
    signal: int = None

    @property
    def status(self):
        return self.ended.status


def first_known(words):
    """What is known before the program was asked."""
    return Known(Ended(Status.UNDECIDED, NOTHING_FOUND.get(words[0], UNDECIDED)), 0)


def by_budgets(words, source, seconds, signals, progress):
    """What the program answers within so many seconds, in any thread."""
    known, end = first_known(words), time.monotonic() + seconds
    for steps in budgets():
        left = end - time.monotonic()
        if signals.got or left <= 0:
            return Known(known.ended, known.budget, signals.got)
        progress.note = f", budget {steps:,}"
        ended = run_caught((*words, "budget", str(steps)), source, left, signals)
        if ended is None or ended.status < 0:
            number = signals.got if ended is None else -ended.status
            return Known(known.ended, known.budget, number)
        known = Known(ended, steps)
        if ended.status != Status.UNDECIDED:
            break
    return known


def known_within(words, source, seconds):
    """What the program answers within so many seconds."""
    with Progress() as progress:
        return by_budgets(words, source, seconds, Signals(), progress)


def known_with(words, source, seconds=None):
    """What the program answers to words that say how many steps it may make, or to words that it refuses. Answers None
    where it has to be ended after so many seconds.
    """
    signals = Signals()
    with Progress():
        ended = run_caught(words, source, seconds, signals)
    if ended is None and not signals.got:
        return None
    if ended is None:
        return Known(first_known(words).ended, 0, signals.got)
    if ended.status < 0:
        return Known(first_known(words).ended, 0, -ended.status)
    return Known(ended, budget_in(words))
