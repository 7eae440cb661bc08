"""The script of a session: where it stands, and its lines as the program gets them."""
import sys
from dataclasses import dataclass, replace

from shq_tools.documents import document, first_stray
from shq_tools.messages import say
from shq_tools.preparing import Unprepared
from shq_tools.questions import put
from shq_tools.sessions import Line, lines_of
from shq_tools.sources import source_of
from shq_tools.statuses import Status
from shq_tools.tokens import Refused
from shq_tools.vocabulary import vocabulary_of

STANDARD_INPUT = "-"


@dataclass
class Given:
    """A document, the lines of a script, and whether these stand apart from the document."""

    text: bytes
    lines: list
    is_apart: bool


def split(data):
    """The document that a text begins with, and what stands behind it. Raises `Refused`."""
    read = document(data)
    place = len(read.text[: read.end].encode("utf-8"))
    return data[:place], data[place:]


def waits_on_standard_input():
    """Whether a script may come from there."""
    return sys.stdin is not None and not sys.stdin.isatty()


def may_stand_apart(question):
    """Whether a script may come from standard input, where none stands behind the ontology."""
    return question.file is not None and waits_on_standard_input()


def name_of_script(question, behind):
    """The name of the file that has the script, `-` for standard input, or None where it stands behind the ontology."""
    if question.script is not None:
        return question.script
    is_alone = first_stray(behind.decode("latin-1"), 0) is None
    return STANDARD_INPUT if is_alone and may_stand_apart(question) else None


def put_line(line, vocabulary, added):
    """A line with its question as the program gets it. Names that a line puts in are no mistake."""
    word, blank, text = line.text.partition(b" ")
    if word != b"ask" or not blank:
        return line
    try:
        found = put(text.decode("utf-8", "surrogateescape").strip(), "AXIOM", vocabulary)
    except Unprepared as fault:
        raise Unprepared(f"line {line.number} of the script: {fault}", fault.status) from fault
    if found.added:
        why = "this kind of statement cannot be asked in a session"
        raise Unprepared(f"line {line.number} of the script: {why}", Status.OUTSIDE)
    for complaint in [] if added else found.complaints:
        say(f"line {line.number} of the script: {complaint}")
    return replace(line, text=b"ask " + found.text.encode("utf-8", "surrogateescape"))


def lines_apart(data, text):
    """The lines of a script in a file of its own, without comments."""
    lines = [it for it in lines_of(data) if not it.text.lstrip().startswith(b"#")]
    lines = [Line(it.number, it.written, it.text.strip()) for it in lines]
    vocabulary = vocabulary_of(text)
    added = any(it.text.startswith(b"add ") for it in lines)
    return [put_line(it, vocabulary, added) for it in lines]


def given(question, source):
    """The document and the script of a session. Raises `Refused` where the document is refused, `Unprepared` where a
    line is not clear, and `OSError` where the script cannot be read.
    """
    text, behind = split(source.data)
    name = name_of_script(question, behind)
    if name is None:
        return Given(text, lines_of(behind), False)
    data = source_of(None if name == STANDARD_INPUT else name).data
    return Given(text, lines_apart(data, text), True)


def given_or_none(question, source):
    """As `given`, or None where the program refuses the document, and is to say so."""
    try:
        return given(question, source)
    except Refused:
        return None
