"""`./shq session`: a script by seconds, and a script that stands in a file of its own.

The program answers a script up to the first line that its budget does not suffice for. By seconds `./shq` goes on: what
is left is asked in another run, with the additions and removals before it done again, and so is each line that was
undecided, with budgets that grow. An answer of the program speaks of the axioms that are in alone, so it is the same
in either run.
"""
import time
from dataclasses import dataclass

from shq_tools.budgets import Known, budgets
from shq_tools.progress import Progress
from shq_tools.running import Ended, Signals, run_caught
from shq_tools.sources import Source
from shq_tools.statuses import Status

UNDECIDED = "undecided"
DONE = ("axiom ", "removed ")
REFUSALS = {"bad line": Status.FAILED, "bad text ": Status.BAD_TEXT, "outside ": Status.OUTSIDE, "limit ": Status.LIMIT}


@dataclass
class Line:
    """A line of a script: its number, its text as it was written and as the program gets it, and its answer, or None
    where it has none yet.
    """

    number: int
    written: bytes
    text: bytes
    answer: str = None

    @property
    def is_question(self):
        return self.text.startswith(b"ask ")

    @property
    def has_changed(self):
        """Whether it put an axiom in, or took one out."""
        return self.answer is not None and self.answer.startswith(DONE)


def lines_of(script):
    """The lines of a script that are not blank."""
    found = [Line(at, it, it) for at, it in enumerate(script.split(b"\n"), 1)]
    return [it for it in found if it.text.strip(b" \t\r\n")]


class Faulted(Exception):
    """A run that ended in another way than by answers, with how it ended."""

    def __init__(self, ended):
        super().__init__(str(ended.status))
        self.ended = ended


class TimeOver(Exception):
    """The seconds are over, or a signal came."""


class Script:
    """A script over a document, asked in runs until it is answered or the seconds are over."""

    def __init__(self, text, lines, end):
        self.text = text
        self.lines = lines
        self.end = end
        self.signals = Signals()

    def run(self, lines, steps):
        """The answers to some lines, each a text; the last one may be `undecided`. Raises `Faulted` and `TimeOver`."""
        data = b"\n".join([self.text, *(it.text for it in lines), b""])
        left = None if self.end is None else max(0.0, self.end - time.monotonic())
        ended = run_caught(("session", "budget", str(steps)), Source(None, data), left, self.signals)
        if ended is None or ended.status < 0:
            if ended is not None:
                self.signals.got = -ended.status
            raise TimeOver
        if ended.status not in (Status.DONE, Status.UNDECIDED):
            raise Faulted(ended)
        return ended.output.decode("utf-8").splitlines()

    def note(self, lines, steps):
        """Asks some lines in a run, and notes the answers of those that have none. A line that is undecided though
        others came before it in its run stays without one.
        """
        answers = self.run(lines, steps)
        before = 0
        for line, answer in zip(lines, answers):
            if answer != UNDECIDED or not before:
                line.answer = answer
            before += line.is_question

    def note_once(self, steps):
        """Asks all lines in one run, and notes what it answers."""
        for line, answer in zip(self.lines, self.run(self.lines, steps)):
            line.answer = answer

    def ask_all(self, steps):
        """Gives each line an answer, which may be `undecided`."""
        while any(it.answer is None for it in self.lines):
            self.note([it for it in self.lines if it.answer is None or it.has_changed], steps)

    def ask_again(self, steps):
        """Asks each line that is undecided in a run of its own, and returns whether any stays so."""
        for at, line in enumerate(self.lines):
            if line.answer == UNDECIDED:
                self.note([*(it for it in self.lines[:at] if it.has_changed), line], steps)
        return any(it.answer == UNDECIDED for it in self.lines)

    def ask_by_seconds(self, progress):
        """Asks with budgets that grow, and returns the last one that was spent on each line."""
        spent = 0
        try:
            for steps in budgets():
                progress.note = f", budget {steps:,}"
                self.ask_all(steps)
                is_left = self.ask_again(steps) if spent else any(it.answer == UNDECIDED for it in self.lines)
                spent = steps
                if not is_left:
                    break
        except TimeOver:
            pass
        for line in self.lines:
            line.answer = line.answer or UNDECIDED
        return spent


def status_of(lines, is_checked):
    """The status of a script: that of its first line that is refused, where that is to be told; else whether all lines
    were decided.
    """
    for line in lines if is_checked else []:
        for begins, status in REFUSALS.items():
            if line.answer is not None and line.answer.startswith(begins):
                return status
    return Status.UNDECIDED if any(it.answer in (None, UNDECIDED) for it in lines) else Status.DONE


def text_of(lines, is_beside):
    """The answers, a line each: alone, or beside the lines that they answer."""
    told = [it for it in lines if it.answer is not None]
    if not is_beside:
        return "".join(f"{it.answer}\n" for it in told)
    return "".join(f"line {it.number}: {it.written.decode('utf-8', 'replace').strip()} => {it.answer}\n" for it in told)


def known_of(text, lines, seconds, steps, is_beside):
    """What is known of a script after so many seconds, or after one run with so many steps."""
    script = Script(text, lines, None if seconds is None else time.monotonic() + seconds)
    spent = 0
    try:
        with Progress() as progress:
            if seconds is None:
                script.note_once(steps)
            else:
                spent = script.ask_by_seconds(progress)
    except TimeOver:
        pass
    except Faulted as fault:
        told = text_of([it for it in lines if it.answer is not None], is_beside).encode("utf-8")
        return Known(Ended(fault.ended.status, told + fault.ended.output), spent)
    output = text_of(lines, is_beside).encode("utf-8")
    return Known(Ended(status_of(lines, is_beside), output), spent, script.signals.got)


def told_lines(lines):
    """The answers, for an object of JSON."""
    told = [it for it in lines if it.answer is not None]
    texts = [(it.number, it.written.decode("utf-8", "replace").strip(), it.answer) for it in told]
    return {"verdict": "answered", "lines": [{"line": at, "text": text, "answer": said} for at, text, said in texts]}
