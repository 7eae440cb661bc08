"""New names: the IRI of each tells what it means.

A new name is the beginning below and then an OWL 2 expression in functional-style syntax, or an individual without a
name, in which what may not stand in an IRI (RFC 3987) is written as a percent sign and two digits. A new class is the
class expression; a new role is the inverse of a role; a new individual is one without a name.
"""
import re
from functools import lru_cache
from urllib.parse import unquote

from shq_tools.approximation.owl import OwlReader, expect, inverse
from shq_tools.approximation.writing import class_text, role_text
from shq_tools.prefixes import Prefixes
from shq_tools.tokens import Refused, tokens
from shq_tools.trees import trees

BEGINNING = "urn:owl2-as-shq:"
FORM = re.compile(r"urn:owl2-as-shq(?:-\d+)?:(?P<definition>.*)", re.S)
NOT_IN_AN_IRI = re.compile(r'[\x00-\x20\x7f<>"%\\^`{|}]')


def quoted(text):
    return NOT_IN_AN_IRI.sub(lambda found: f"%{ord(found[0]):02X}", text)


@lru_cache(maxsize=1 << 16)
def definition_of(iri):
    """What a new name means, or None where the IRI is not new: `("class", expression)`, `("role", role)` or
    `("individual", name)`.
    """
    match = FORM.fullmatch(iri)
    if match is None:
        return None
    text = unquote(match["definition"])
    if text.startswith("_:"):
        return ("individual", text)
    try:
        return expression_in(text)
    except Refused:
        # an IRI of the file that begins in the same way
        return None


def expression_in(text):
    items = trees(tokens(text.encode("utf-8"))[0], 1)
    expect(len(items) == 1, 1)
    reader = OwlReader(Prefixes())
    is_role = items[0].is_group("ObjectInverseOf")
    return ("role", reader.role(items[0])) if is_role else ("class", reader.class_of(items[0]))


def is_new(iri):
    return FORM.fullmatch(iri) is not None


def not_new(iris):
    """The IRIs that no translation made, in their order."""
    return [it for it in iris if definition_of(it) is None]


def meaning_text(iri):
    """A name in functional-style syntax, and in place of a new one what it means."""
    return f"<{iri}>" if definition_of(iri) is None else unquote(FORM.fullmatch(iri)["definition"])


class NewNames:
    """The new names of a translation. None of them is one of the IRIs of the file."""

    def __init__(self, iris):
        taken = [it for it in iris if it.startswith("urn:owl2-as-shq")]
        self.beginning = BEGINNING
        number = 1
        while any(it.startswith(self.beginning) for it in taken):
            number += 1
            self.beginning = f"urn:owl2-as-shq-{number}:"
        self.classes = {}
        self.meanings = {}

    def class_name(self, expression):
        """The new class that is a class expression, as an expression."""
        if expression not in self.classes:
            self.classes[expression] = ("name", self.beginning + quoted(class_text(expression)))
            self.meanings[self.classes[expression]] = expression
        return self.classes[expression]

    def inverse(self, role):
        """The new role that is the inverse of a named one."""
        return self.beginning + quoted(role_text(inverse(role)))

    def individual(self, name):
        """The individual of the language for one of the file."""
        return self.beginning + quoted(name) if name.startswith("_:") else name
