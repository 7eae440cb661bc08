"""Ontologies, read as the reasoner reads them."""
from dataclasses import dataclass, replace

from shq_tools.keywords import NOT_SIMPLE
from shq_tools.prefixes import Prefixes
from shq_tools.terms import RoleBox, roles_counted_by
from shq_tools.tokens import Refused, bad_text, end_line, tokens
from shq_tools.trees import trees
from shq_tools.walk import Limits, Walk

MOST_BYTES = 1 << 24


@dataclass
class Document:
    """A document: its prefixes, the items of its group `Ontology` that may be axioms, and where it ends."""

    text: str
    prefixes: Prefixes
    axiom_items: list
    end: int


def first_axiom(items):
    """How many names or IRIs stand first, two at most."""
    count = 0
    while count < min(2, len(items)) and items[count].kind in ("name", "iri"):
        count += 1
    return count


def ontology_group(items, last_line):
    if not items:
        raise bad_text("shape", last_line)
    if not items[0].is_group("Ontology"):
        raise bad_text("shape", items[0].line)
    return items[0]


def document(data):
    """The document that the bytes begin with. Raises `Refused` where the text, its brackets or its prefixes are
    damaged.
    """
    if len(data) > MOST_BYTES:
        raise Refused("limit", "text", None)
    return parsed(data)


def parsed(data):
    """The same of bytes of any length."""
    found, text, end = tokens(data)
    items = trees(found, end_line(data))
    prefixes = Prefixes()
    while items and items[0].is_group("Prefix"):
        prefixes.declare(items.pop(0))
    inner = ontology_group(items, end_line(data)).items
    return Document(text, prefixes, inner[first_axiom(inner) :], end)


def numbered(axioms):
    """The axioms with their numbers; those that are None have none."""
    found = [it for it in axioms if it is not None]
    return [replace(it, number=at) for at, it in enumerate(found, 1)]


def refuse_not_simple(axioms):
    """Raises `Refused` at the first axiom that counts a role which is not simple."""
    not_simple = RoleBox(axioms).not_simple()
    for axiom in axioms:
        if roles_counted_by(axiom) & not_simple:
            raise Refused("outside", NOT_SIMPLE, axiom.line)


def walked(read):
    """The numbered axioms of a document, and its classes, roles and individuals by kind, as keys in the order in which
    they are met. Raises `Refused` where the reasoner refuses it.
    """
    limits = Limits()
    walk = Walk(read.prefixes, limits)
    axioms = numbered([walk.axiom(it) for it in read.axiom_items])
    refuse_not_simple(axioms)
    return axioms, limits.names


def ontology_of(read):
    """The numbered axioms of a document, and its individuals in the order in which they are met. Raises `Refused`
    where the reasoner refuses it.
    """
    axioms, names = walked(read)
    return axioms, list(names["individuals"])


def axioms_of(read):
    """The numbered axioms of a document. Raises `Refused` where the reasoner refuses it."""
    return ontology_of(read)[0]


def first_stray(text, place):
    """The place of the first character from a place on that is neither whitespace nor part of a comment, or None."""
    while place < len(text):
        if text[place] == "#":
            while place < len(text) and text[place] not in "\r\n":
                place += 1
        elif text[place] in " \t\r\n":
            place += 1
        else:
            return place
    return None


def refuse_stray(data, read):
    """Raises `Refused` where something stands behind the document, which only `check` reads."""
    # a byte that is no UTF-8 stands here as a character of its own, and may stand in a comment
    behind = data[len(read.text[: read.end].encode("utf-8")) :].decode("latin-1")
    stray = first_stray(behind, 0)
    if stray is not None:
        raise bad_text("shape", read.text.count("\n", 0, read.end) + 1 + behind.count("\n", 0, stray))


def refusal(data):
    """How the reasoner refuses a document that stands alone, or None."""
    try:
        read = document(data)
        axioms_of(read)
        refuse_stray(data, read)
    except Refused as refused:
        return refused
    return None
