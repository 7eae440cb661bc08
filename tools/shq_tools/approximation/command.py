"""`./shq approximate`, and the option `--approximate` of the jobs."""
import gc
import sys
from dataclasses import replace

from shq_tools.approximation.summary import lines_of
from shq_tools.approximation.text import approximation
from shq_tools.approximation.translation import Strength
from shq_tools.converting import ontology_data_of
from shq_tools.input_files import STATUSES
from shq_tools.messages import say
from shq_tools.preparing import Unprepared
from shq_tools.statuses import Status
from shq_tools.tokens import Refused

STRENGTHS = {"": Strength.LIGHT, **{it.value: it for it in Strength}}
USAGE = "usage: ./shq approximate [--full] [FILE] > SHQ"
FULL = "--full"


class BadStrength(Exception):
    """A value of `--approximate` that it does not have."""


def strength_of(value):
    """How much is translated by the value of `--approximate`. Raises `BadStrength`."""
    if value not in STRENGTHS:
        raise BadStrength(f"--approximate has the value full, or none, and not {value}")
    return STRENGTHS[value]


def with_value(words):
    """The words of a command of this folder in which `--approximate` never takes the next word as its value."""
    return ["--approximate=" if it == "--approximate" else it for it in words]


def translated(data, strength):
    """The translation of a file, as fast as it can be had: a great text makes many values, and none in a circle."""
    gc.disable()
    try:
        return approximation(data, strength)
    finally:
        gc.enable()


def tell(found):
    """Says on standard error what became of the file."""
    for line in lines_of(found):
        say(line)


def prepared(question, source, value):
    """The question as it is, on the translation of what the job reads."""
    try:
        found = translated(source.data, strength_of(value))
    except BadStrength as fault:
        raise Unprepared(str(fault), Status.BAD_WORDS) from fault
    except Refused:
        # the reasoner refuses it
        return question, source
    tell(found)
    return question, replace(source, data=found.data, translation=found)


def main(words):
    """Writes the translation, and returns 0. A damaged text is written as it is, for the reasoner to refuse."""
    strength = Strength.FULL if FULL in words else Strength.LIGHT
    files = [it for it in words if it != FULL]
    if len(files) > 1 or any(it.startswith("-") for it in files):
        print(USAGE, file=sys.stderr)
        return Status.BAD_WORDS
    data = ontology_data_of(files)
    try:
        found = translated(data, strength)
    except Refused as refused:
        sys.stdout.buffer.write(data)
        say(f"the text is left as it is, since the reasoner will answer: {refused}")
        return STATUSES[refused.sort]
    sys.stdout.buffer.write(found.data)
    tell(found)
    return Status.DONE
