"""`./shq read`: an answer of the reasoner for people."""
import argparse
import sys
from dataclasses import dataclass, field, replace

from shq_tools.answers import Plain, Reasons, Taxonomy, Unread, answer
from shq_tools.approximation.command import BadStrength, strength_of, translated, with_value
from shq_tools.approximation.for_people import SEEN_TO_BE_TRANSLATED, caveat_of, names_of, new_forms, originals_of
from shq_tools.caveats import NO_CAVEAT, Caveat
from shq_tools.converting import ontology_data_of
from shq_tools.drawing import graph_of
from shq_tools.fitting import fits, is_of_class
from shq_tools.input_files import READ_FAULT, data_of, say
from shq_tools.names import Names, has_language, labels_in, languages
from shq_tools.ontology_facts import Ontology, ontology_from
from shq_tools.page import page_of
from shq_tools.reading import Reading
from shq_tools.statuses import status_of
from shq_tools.terms import BOTTOM, TOP
from shq_tools.text_view import heading_of, lines_above, lines_below, lines_of
from shq_tools.tokens import Refused, end_line, tokens
from shq_tools.trees import trees
from shq_tools.trees_of_classes import around
from shq_tools.walk import NoLimits, Walk

BAD_WORDS = 2
BAD_ANSWER = 3
MISFIT = "the answer is to another statement than that of --query"
NO_LINES = "The script has no lines."
NOT_WHOLE = "The answer is not whole."
NOTHING_TO_READ = (
    "there is nothing to read. In a pipe, look for the message of the job in front. Two answers have no line and are "
    "no failure: that of why for a class without individuals, which is read with --query CLASS, and that of session "
    "for a script without lines"
)
READ_AS_WHY = "nothing was read: that is the answer of why if no individual is in the class, and of no other job"
NOT_COMPARED = "whether the answer is to the statement of --query cannot be told"


def words_of(words):
    """The words of the command, taken apart."""
    parser = argparse.ArgumentParser(prog="./shq read", description=__doc__, allow_abbrev=False)
    parser.add_argument("--labels", metavar="FILE", help="the ontology, or another file that has the labels")
    parser.add_argument("--language", metavar="TAG", default="", help="the language of the labels, as en")
    parser.add_argument("--query", metavar="AXIOM", help="the statement, or the class, that was asked about")
    parser.add_argument("--approximate", metavar="full", nargs="?", const="",
                        help="the answer is to the translation of the file for --labels, as --approximate has it")
    parser.add_argument("--about", metavar="CLASS", help="of a taxonomy only what is above this class and close below")
    parser.add_argument("--all", action="store_true", help="of a world also what has nothing to do with the statement")
    parser.add_argument("--pipe-status", action="store_true", help="end with the status that the answer had")
    how = parser.add_mutually_exclusive_group()
    how.add_argument("--dot", action="store_true", help="a picture for Graphviz")
    how.add_argument("--html", action="store_true", help="one page")
    how.add_argument("--markdown", action="store_true", help="text for a pull request or an issue")
    parser.add_argument("file", nargs="?", metavar="FILE", help="the answer, in place of standard input")
    return parser.parse_args(with_value(words))


class Unshown(Exception):
    """A wish that cannot be met for an answer, with what to say."""


class NothingToRead(Exception):
    """There is no text, and it is not known to be the answer of a job that may print none."""


@dataclass
class Known:
    """What is known of the ontology behind an answer: the ontology itself, the names of things, its file, axioms of the
    file by line that others were made from, and what the answer is worth for the whole file.
    """

    ontology: Ontology = field(default_factory=Ontology)
    names: Names = field(default_factory=Names)
    file: str = ""
    originals: dict = field(default_factory=dict)
    caveat: Caveat = NO_CAVEAT


def labels_from(data, is_named=True):
    """The labels of a file, or none where it is damaged, which is said of a file that is named for its labels."""
    try:
        return labels_in(data)
    except Refused as refused:
        if is_named:
            say(f"the file for --labels cannot be read, so names are the ends of IRIs: {refused}")
        return {}


def complain_of_language(labels, language):
    """Says where no label is in the language that was asked for."""
    if labels and language and not has_language(labels, language):
        there = ", ".join(languages(labels)) or "no language at all"
        say(f"no label is in the language {language}; there are labels in {there}. Names are the ends of IRIs")


def known_from(data, language="", file="", is_named=True):
    """What a file with labels, which may be the ontology itself, says of things."""
    ontology, labels = ontology_from(data), labels_from(data, is_named) if data else {}
    complain_of_language(labels, language)
    return Known(ontology, names_of(ontology, labels, language), file or "")


def with_translation(known, found):
    """The same, with what is known of the file of which the ontology is the translation."""
    return replace(known, originals=originals_of(found, known.names), caveat=caveat_of(found))


def known_of_translation(data, strength, language="", file=""):
    """What is known of the translation of a file. Raises `Refused` where the file is damaged."""
    found = translated(data, strength)
    return with_translation(known_from(found.data, language, file), found)


def query_of(text, prefixes):
    """The statement that was asked about: its two classes, and the individual asked about or None. A class alone asks
    whether it has a member.
    """
    data = text.encode("utf-8", "surrogateescape")
    items = trees(tokens(data)[0], end_line(data))
    walk = Walk(prefixes, NoLimits())
    if len(items) == 1 and items[0].is_group("SubClassOf"):
        return *walk.axiom(items[0]).items, None
    if len(items) == 1 and items[0].is_group("ClassAssertion"):
        of, individual = walk.axiom(items[0]).items
        return TOP, of, individual
    if len(items) == 1:
        return walk.class_of(items[0]), BOTTOM, None
    raise Refused("bad text", "shape", 1)


def class_called(text, known):
    """The class that a word names: by its label, or as a statement would."""
    for iri in known.ontology.classes:
        if known.names.of(iri) == text:
            return iri
    sub = query_of(text, known.ontology.prefixes)[0]
    return sub[1] if sub[0] == "name" else ""


def cut_to(reading, text, known):
    """The reading of a taxonomy with the neighbourhood of a class alone."""
    if not isinstance(reading.answer, Taxonomy):
        raise Unshown("--about is for the answer of classify")
    iri = class_called(text, known)
    part = around(reading.answer, iri)
    if part is None:
        raise Unshown(f"{text} has no place in the hierarchy of this answer")
    reading.answer, reading.about = part, iri
    return reading


def compared(reading):
    """The reading, once its statement is compared with its answer."""
    if reading.query is None:
        return reading
    if isinstance(reading.answer, Taxonomy):
        raise Unshown("--query is not for an answer of this kind, which is to no single statement")
    fitting = fits(reading)
    if fitting is False:
        raise Unshown(MISFIT)
    reading.is_asked = bool(fitting)
    reading.notes += [NOT_COMPARED] * (fitting is None)
    return reading


def reading_of(given, text, label_data):
    """The answer with what is known of its ontology. Raises `Unread`, `NothingToRead`, `Refused` and `Unshown`."""
    if given.approximate is None:
        known = known_from(label_data, given.language, given.labels)
    else:
        known = known_of_translation(label_data, strength_of(given.approximate), given.language, given.labels)
    query = query_of(given.query, known.ontology.prefixes) if given.query else None
    forms = new_forms(text, known.names)
    known.names.add_forms(forms)
    caveat = SEEN_TO_BE_TRANSLATED if forms and given.approximate is None else known.caveat
    how = {"file": known.file, "originals": known.originals, "caveat": caveat, "shows_all": given.all}
    found = answer(text) if text.strip() else answer_without_lines(query)
    reading = Reading(found, known.names, known.ontology, query, **how)
    reading.notes += [READ_AS_WHY] * (not text.strip())
    reading = compared(reading)
    return cut_to(reading, given.about, known) if given.about else reading


def answer_without_lines(query):
    """What an answer without a line says to a question on a class, which is that of `why`. Raises `NothingToRead`."""
    if query is None or not is_of_class(query):
        raise NothingToRead
    return Reasons([])


def known_for(question, source):
    """What is known of the ontology that a job read, which may be a translation of its file."""
    if source is None:
        return Known()
    known = known_from(source.data, question.options.get("--language", ""), source.name, is_named=False)
    return with_translation(known, source.translation) if source.translation else known


def statement_of(question):
    """The statement or class that the program was asked about, or nothing where there is none or it has names that
    were made for it.
    """
    command = question.command
    return question.words[1] if command and command.operands and command.files and not question.added else None


def answer_of(job, text):
    """The answer of a job, where no line at all may be one too, and one that is cut off is shown as such."""
    if not text:
        return Reasons([]) if job == "why" else Plain([NO_LINES if job == "session" else NOT_WHOLE])
    try:
        return answer(text)
    except Unread:
        return Plain([NOT_WHOLE])


def asked_reading(text, known, statement=None, job="", written=""):
    """The reading of an answer that is surely to this statement, or to no statement."""
    try:
        query = query_of(statement, known.ontology.prefixes) if statement else None
    except Refused:
        query = None
    how = {"file": known.file, "originals": known.originals, "caveat": known.caveat, "written": written}
    return Reading(answer_of(job, text), known.names, known.ontology, query, is_asked=query is not None, **how)


def reading_for(question, source, text):
    """The answer of a job, with the question as it was written where that was put in another way."""
    written = question.written if question.written not in question.words else ""
    return asked_reading(text, known_for(question, source), statement_of(question), question.words[0], written or "")


def markdown_of(reading):
    """The answer as text for a pull request or an issue: its heading, and the rest as it stands."""
    lines = [f"### {heading_of(reading)}", "", *(f"> {it}" for it in lines_above(reading) if it)]
    body = "\n".join(lines_below(reading)).strip("\n")
    return "\n".join([*lines, *["", "```text", body, "```"] * bool(body), ""])


def shown(given, reading):
    """What is printed. Raises `Unshown` where an answer has no picture."""
    if given.html:
        return page_of(reading)
    if given.markdown:
        return markdown_of(reading)
    if not given.dot:
        return "\n".join(lines_of(reading)) + "\n"
    graph = graph_of(reading)
    if graph is None:
        raise Unshown("an answer of this kind has no picture")
    return graph


def read(given, text, label_data):
    """Prints the answer, and returns the exit status."""
    try:
        reading = reading_of(given, text, label_data)
        output = shown(given, reading)
    except NothingToRead:
        say(NOTHING_TO_READ)
        return BAD_ANSWER
    except Unread as fault:
        say(f"this is no answer of the reasoner: {fault}")
        return BAD_ANSWER
    except BadStrength as fault:
        say(str(fault))
        return BAD_WORDS
    except Refused as refused:
        say(f"the statement for --query, or the class for --about, cannot be read: {refused}")
        return BAD_WORDS
    except Unshown as unshown:
        say(unshown)
        return BAD_WORDS
    for note in reading.notes:
        say(note)
    sys.stdout.write(output)
    return 0


def main(words):
    given = words_of(words)
    sys.stdout.reconfigure(encoding="utf-8", errors="replace")
    label_data = ontology_data_of([given.labels]) if given.labels else b""
    data = data_of([given.file] if given.file else [])
    if data is None:
        return READ_FAULT
    text = data.decode("utf-8", "replace")
    status = read(given, text, label_data)
    return status_of(text) if given.pipe_status and status == 0 else status
