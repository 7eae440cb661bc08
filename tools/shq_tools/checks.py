"""A file of checks: what must follow from an ontology, what must not, and which classes must be satisfiable.

Each line has a statement and then `must follow` or `must not follow`, or a class expression and then `must be
satisfiable` or `must not be satisfiable`. Blank lines, and lines that begin with `#`, are passed over.
"""
import re
from dataclasses import dataclass

from shq_tools.questions import put_clearly
from shq_tools.reductions import NotAsked
from shq_tools.statements import Unclear, UnknownName
from shq_tools.statuses import Status

LINE = re.compile(r"(?P<text>.*\S)\s+must\s+(?P<no>not\s+)?(?P<wish>follow|be\s+satisfiable)", re.S)


@dataclass(frozen=True)
class Check:
    """A check: its line and that line's number, the statement or class, the verdict that is wanted and its opposite."""

    number: int
    line: str
    text: str
    wanted: str
    opposite: str

    @property
    def slot(self):
        return "CLASS" if "satisfiable" in self.wanted else "AXIOM"

    @property
    def job(self):
        return "sat" if self.slot == "CLASS" else "entails"


@dataclass(frozen=True)
class Fault:
    """A line that is no check: its number, what is wrong with it, and the status to end with."""

    number: int
    text: str
    status: int


def check_in(number, line):
    """The check of a line, or None where it is none."""
    match = LINE.fullmatch(line)
    if match is None:
        return None
    verdicts = ("entailed", "not entailed") if match["wish"] == "follow" else ("satisfiable", "unsatisfiable")
    wanted, opposite = reversed(verdicts) if match["no"] else verdicts
    return Check(number, line, match["text"], wanted, opposite)


def lines_in(text):
    """The lines that are not passed over, with their numbers."""
    lines = [(number, line.strip()) for number, line in enumerate(text.splitlines(), 1)]
    return [it for it in lines if it[1] and not it[1].startswith("#")]


def put_check(check, vocabulary, any_names):
    """The question of a check as the program gets it, or a fault."""
    try:
        found = put_clearly(check.text, check.slot, vocabulary)
    except UnknownName as fault:
        return Fault(check.number, str(fault), Status.UNKNOWN_NAME)
    except NotAsked as fault:
        return Fault(check.number, str(fault), Status.OUTSIDE)
    except Unclear as fault:
        return Fault(check.number, str(fault), Status.BAD_TEXT)
    if found.complaints and not any_names:
        return Fault(check.number, "; ".join(found.complaints), Status.UNKNOWN_NAME)
    return found


def checks_in(text, vocabulary, any_names=False):
    """The checks of a file, each with its question as the program gets it; and the lines that are at fault."""
    found, faults = [], []
    for number, line in lines_in(text):
        check = check_in(number, line)
        if check is None:
            faults.append(Fault(number, "this is no check", Status.BAD_TEXT))
            continue
        put = put_check(check, vocabulary, any_names)
        if isinstance(put, Fault):
            faults.append(put)
        else:
            found.append((check, put))
    return found, faults
