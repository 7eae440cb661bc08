"""The question of a job: read as people write it, compared with the names of the file, and put as the program asks it.

A question of the form that the program reads goes to it as it stands. `./shq` then says which of its names the file
does not have. Any other question is read by `statements`, and becomes one of that form by `reductions`; an axiom that
this needs is put into the ontology as its last one, on the line of the closing bracket, so that no number and no line
of the others changes.
"""
import re
from dataclasses import dataclass, replace

from shq_tools.documents import document
from shq_tools.functional import axiom_text, class_text
from shq_tools.messages import say
from shq_tools.preparing import Unprepared
from shq_tools.prefixes import Prefixes
from shq_tools.reductions import FreshNames, NotAsked, exception, reduced
from shq_tools.statements import Unclear, UnknownName, class_in, statement_in
from shq_tools.statuses import Status
from shq_tools.terms import Axiom
from shq_tools.tokens import Refused, end_line, tokens
from shq_tools.trees import trees
from shq_tools.vocabulary import vocabulary_of
from shq_tools.walk import NoLimits, Walk

ASKED_OF = ("AXIOM", "CLASS")
PLAIN = ("SubClassOf", "ClassAssertion")
# A longer question is handed over inside of the ontology, since no system hands over a longer word.
MOST_WORD = (1 << 17) - 1
# In a longer text names are looked for before it is read whole, which takes seconds.
MOST_READ_AT_ONCE = 200_000
FILE_SIGN = "@"
MOST_SHOWN = 1000
# More than the new names that a reduction uses: of many individuals a role for each, and 1,000 roles may be there.
NAMES_OF_REDUCTIONS = 2000
PREFIX = re.compile(rb"Prefix\s*\(\s*([^\s()=:]*):\s*=\s*<([^<>\s]*)>\s*\)")


class Noted(NoLimits):
    """Notes the names that a walk meets, by kind."""

    def __init__(self):
        self.names = []

    def name(self, what, iri, line):
        self.names.append((what, iri))


def read_plainly(text, slot, prefixes):
    """A question as the program reads it, an axiom or a class expression, and its names. Raises `Refused` where the
    program does not read it.
    """
    data = text.encode("utf-8", "surrogateescape")
    items = trees(tokens(data)[0], end_line(data))
    noted = Noted()
    walk = Walk(prefixes, noted)
    if len(items) != 1 or slot == "AXIOM" and (items[0].kind != "group" or items[0].text not in PLAIN):
        raise Refused("bad text", "shape", 1)
    return (walk.axiom if slot == "AXIOM" else walk.class_of)(items[0]), noted.names


def prefixes_in_front(data):
    """The prefixes of a document, found without reading it."""
    found = Prefixes()
    front = data[: max(0, data.find(b"Ontology("))]
    for name, iri in PREFIX.findall(front):
        found.iris.setdefault(name.decode("utf-8", "replace"), iri.decode("utf-8", "replace"))
    return found


def stands_in(iri, data, prefixes):
    """Whether a text has an IRI somewhere, in any of the ways to write it."""
    ways = [f"<{iri}>"] + [f"{name}:{iri[len(it):]}" for name, it in prefixes.iris.items() if it and iri.startswith(it)]
    alike = b"|".join(re.escape(it.encode("utf-8")) for it in ways)
    return re.search(rb"(?<![^\s()])(?:" + alike + rb")(?![^\s()])", data) is not None


def is_surely_known(text, slot, data):
    """Whether the program reads the question, and each of its names stands somewhere in the text."""
    prefixes = prefixes_in_front(data)
    try:
        _, names = read_plainly(text, slot, prefixes)
    except Refused:
        return False
    return all(stands_in(iri, data, prefixes) for _, iri in names)


def text_of(word):
    """A question that is given by a word: the word itself, or what the file has that it names behind an `@`."""
    if not word.startswith(FILE_SIGN):
        return word
    try:
        with open(word[len(FILE_SIGN) :], encoding="utf-8") as file:
            return file.read().strip()
    except (OSError, UnicodeDecodeError) as error:
        why = error.strerror if isinstance(error, OSError) else "it is no UTF-8"
        raise Unprepared(f"{word[len(FILE_SIGN):]}: {why}", Status.READ_FAULT) from error


def with_axioms(data, texts):
    """A document with more axioms, in front of its last bracket and on its line."""
    read = document(data)
    place = len(read.text[: read.end].encode("utf-8")) - 1
    return data[:place] + "".join(f" {it}" for it in texts).encode("utf-8", "surrogateescape") + data[place:]


@dataclass(frozen=True)
class Put:
    """A question as the program gets it, with the axioms that are put into the ontology for it, and complaints on names
    that the file does not have.
    """

    text: str
    added: tuple = ()
    complaints: tuple = ()


def complaints_on(names, vocabulary):
    """What to say of the names of a question that the file does not have."""
    missing = dict.fromkeys(it for it in names if not vocabulary.has(*it))
    return tuple(vocabulary.complaint(kind, iri, vocabulary.written(iri)) for kind, iri in missing)


def put_plainly(text, slot, vocabulary):
    """A question that the program reads, or refuses as being outside of the language or of its limits; else None."""
    try:
        _, names = read_plainly(text, slot, vocabulary.prefixes)
    except Refused as refused:
        return None if refused.sort == "bad text" else Put(text)
    return Put(text, (), complaints_on(names, vocabulary))


def put_by_people(text, slot, vocabulary):
    """A question that people write. Raises `Unclear`, `UnknownName` and `NotAsked`."""
    if slot == "CLASS":
        expression, missing = class_in(text, vocabulary)
        return Put(class_text(expression, vocabulary.written), (), tuple(missing))
    statement, missing = statement_in(text, vocabulary)
    found = reduced(statement, FreshNames(vocabulary.names))
    added = tuple(axiom_text(it, vocabulary.written) for it in found.added)
    return Put(axiom_text(found.asked, vocabulary.written), added, tuple(missing))


def put_clearly(text, slot, vocabulary):
    """A question as the program gets it. Raises `Unclear`, `UnknownName` and `NotAsked`."""
    found = put_plainly(text, slot, vocabulary) or put_by_people(text, slot, vocabulary)
    is_long = len(found.text.encode("utf-8", "surrogateescape")) > MOST_WORD
    return defined(found, slot, vocabulary) if is_long else found


def put(text, slot, vocabulary):
    """A question as the program gets it: also one that is damaged, for the program to refuse. Raises `Unprepared` where
    it is not clear which things its names stand for.
    """
    try:
        return put_clearly(text, slot, vocabulary)
    except UnknownName as fault:
        raise Unprepared(str(fault), Status.UNKNOWN_NAME) from fault
    except NotAsked as fault:
        raise Unprepared(str(fault), Status.OUTSIDE) from fault
    except Unclear as fault:
        say(f"the question cannot be read: {fault}")
        return Put(text)


def asked_of_defined(asked, name):
    """The class expression that a question is about, and the question where a class of this name is it."""
    if not isinstance(asked, Axiom):
        return asked, name
    if asked.keyword == "ClassAssertion":
        return asked.items[0], f"ClassAssertion({name} <{asked.items[1]}>)"
    return exception(*asked.items), f"SubClassOf({name} owl:Nothing)"


def defined(found, slot, vocabulary):
    """A question that is too long for a word, by a class that is new and defined in the ontology."""
    new = FreshNames(vocabulary.names)
    new.count = NAMES_OF_REDUCTIONS
    name = f"<{new.one()}>"
    of, text = asked_of_defined(read_plainly(found.text, slot, vocabulary.prefixes)[0], name)
    defining = f"EquivalentClasses({name} {class_text(of, vocabulary.written)})"
    return replace(found, text=text, added=(*found.added, defining))


def tell(found, text):
    """Says how a question is put."""
    for complaint in found.complaints:
        say(complaint)
    if found.text != text and len(found.text) < MOST_WORD:
        say(f"asked as {found.text}")
    for axiom in found.added:
        shown = axiom if len(axiom) < MOST_SHOWN else f"{axiom[:MOST_SHOWN]} .."
        say(f"the ontology is asked with one axiom more, as its last: {shown}")


def prepared(question, source, _):
    """The question and the source as the program is to get them. Raises `Unprepared`."""
    slot = question.command.operands[0] if question.command.operands else ""
    if slot not in ASKED_OF:
        return question, source
    word = question.words[1]
    text = text_of(word)
    is_long = len(text.encode("utf-8", "surrogateescape")) > MOST_WORD
    is_strict = "--strict" in question.options
    plain = replace(question, words=(question.words[0], text, *question.words[2:]), written=text)
    if len(source.data) > MOST_READ_AT_ONCE and not is_long and not is_strict:
        if is_surely_known(text, slot, source.data):
            return plain, source
    try:
        vocabulary = vocabulary_of(source.data)
    except Refused:
        return (question if is_long else plain), source
    found = put(text, slot, vocabulary)
    if is_strict and found.complaints:
        raise Unprepared("; ".join(found.complaints), Status.UNKNOWN_NAME)
    tell(found, text)
    if not found.added:
        return replace(plain, words=(plain.words[0], found.text, *plain.words[2:])), source
    words = (plain.words[0], found.text, *plain.words[2:])
    data = with_axioms(source.data, found.added)
    plain = replace(plain, words=words, own_axioms=vocabulary.axiom_count, added=found.added)
    return plain, replace(source, data=data)
