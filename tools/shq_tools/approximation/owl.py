"""OWL 2 axioms and expressions as plain values, read from the items of a document.

Class expressions are those of `terms`, and besides `("one of", individuals)`, `("value", role, individual)`,
`("self", role)`, and over data `("data some", properties, range)`, `("data all", properties, range)`,
`("data value", property, literal)`, and with a number `("data least", n, property, range)`, `("data most", ..)`,
`("data exactly", ..)`. A role is an IRI or `("inverse", iri)`, an individual an IRI or a name that begins with `_:`.

Data ranges are `("datatype", iri)`, `("not", range)`, `("and", ranges)`, `("or", ranges)`, `("values", literals)` and
`("restricted", datatype, facets)`, where a facet is a pair of an IRI and a literal.
"""
from typing import NamedTuple

from shq_tools.keywords import ANNOTATIONS, ANONYMOUS, NOTHING, OWL, PREDECLARED, THING
from shq_tools.names import unescaped
from shq_tools.terms import BOTTOM, TOP
from shq_tools.tokens import Refused, bad_text
from shq_tools.walk import DIGITS, without_annotations

TOP_ROLE = OWL + "topObjectProperty"
BOTTOM_ROLE = OWL + "bottomObjectProperty"
TOP_DATA = OWL + "topDataProperty"
BOTTOM_DATA = OWL + "bottomDataProperty"
XSD = PREDECLARED["xsd"]
STRING = XSD + "string"
PLAIN_LITERAL = PREDECLARED["rdf"] + "PlainLiteral"
TOP_RANGE = ("datatype", PREDECLARED["rdfs"] + "Literal")
# Numbers from here on are not told apart.
LIMITED_NUMBER = 10**18

# What the items of an axiom are, in order; the last one stands for all that follow where it ends with a star.
SHAPES = {
    "SubClassOf": ("class", "class"),
    "EquivalentClasses": ("class*",),
    "DisjointClasses": ("class*",),
    "DisjointUnion": ("class", "class*"),
    "SubObjectPropertyOf": ("chain", "role"),
    "EquivalentObjectProperties": ("role*",),
    "DisjointObjectProperties": ("role*",),
    "InverseObjectProperties": ("role", "role"),
    "ObjectPropertyDomain": ("role", "class"),
    "ObjectPropertyRange": ("role", "class"),
    "FunctionalObjectProperty": ("role",),
    "InverseFunctionalObjectProperty": ("role",),
    "ReflexiveObjectProperty": ("role",),
    "IrreflexiveObjectProperty": ("role",),
    "SymmetricObjectProperty": ("role",),
    "AsymmetricObjectProperty": ("role",),
    "TransitiveObjectProperty": ("role",),
    "SubDataPropertyOf": ("property", "property"),
    "EquivalentDataProperties": ("property*",),
    "DisjointDataProperties": ("property*",),
    "DataPropertyDomain": ("property", "class"),
    "DataPropertyRange": ("property", "range"),
    "FunctionalDataProperty": ("property",),
    "DatatypeDefinition": ("datatype", "range"),
    "SameIndividual": ("individual*",),
    "DifferentIndividuals": ("individual*",),
    "ClassAssertion": ("class", "individual"),
    "ObjectPropertyAssertion": ("role", "individual", "individual"),
    "NegativeObjectPropertyAssertion": ("role", "individual", "individual"),
    "DataPropertyAssertion": ("property", "individual", "literal"),
    "NegativeDataPropertyAssertion": ("property", "individual", "literal"),
}
# Axioms of which nothing is translated, so their items are not read.
UNTRANSLATED = {"Import", "HasKey", "DLSafeRule", "DGRule", "DGAxiom"}
# The class expressions whose items are a role and one thing more.
ROLE_RESTRICTIONS = {
    "ObjectSomeValuesFrom": ("some", "class"),
    "ObjectAllValuesFrom": ("all", "class"),
    "ObjectHasValue": ("value", "individual"),
}
NUMBERS = {
    "ObjectMinCardinality": "least",
    "ObjectMaxCardinality": "most",
    "ObjectExactCardinality": "exactly",
    "DataMinCardinality": "data least",
    "DataMaxCardinality": "data most",
    "DataExactCardinality": "data exactly",
}
CONNECTIVES = {"ObjectIntersectionOf": "and", "ObjectUnionOf": "or"}
DATA_CONNECTIVES = {"DataIntersectionOf": "and", "DataUnionOf": "or"}
DATA_QUANTIFIERS = {"DataSomeValuesFrom": "data some", "DataAllValuesFrom": "data all"}


class Literal(NamedTuple):
    """A literal: its text without backslashes, the IRI of its datatype, and its language."""

    text: str
    datatype: str
    language: str = ""


class OwlAxiom(NamedTuple):
    """An axiom of OWL 2: its keyword, its items in order, its line, and its place in the text."""

    keyword: str
    items: tuple
    line: int
    start: int = 0
    end: int = 0


def inverse(role):
    """The inverse of a role."""
    if role in (TOP_ROLE, BOTTOM_ROLE):
        return role
    return ("inverse", role) if isinstance(role, str) else role[1]


def base(role):
    """The name in a role."""
    return role if isinstance(role, str) else role[1]


def expect(condition, line):
    if not condition:
        raise bad_text("shape", line)


class OwlReader:
    """Reads the axioms of a document. Raises `Refused` at an item that is no part of OWL 2 where it stands.

    `features` collects the kinds of expressions, and the kinds of special names, that were read since it was emptied.
    """

    def __init__(self, prefixes):
        self.prefixes = prefixes
        self.features = set()
        self.iris = {}
        self.classes = {}
        self.roles = set()
        self.individuals = set()
        self.kinds = {
            "class": self.class_of,
            "role": self.role,
            "chain": self.chain,
            "property": self.property_of,
            "individual": self.individual,
            "literal": self.literal,
            "datatype": self.datatype,
            "range": self.range_of,
        }

    def iri(self, item):
        # most names of a document stand in it often
        key = (item.kind, item.text)
        found = self.iris.get(key)
        if found is None:
            found = self.iris[key] = self.prefixes.iri(item)
        return found

    def axiom(self, item):
        """The axiom of an item, or None where it is a declaration or an annotation."""
        keyword = item.text
        expect(item.kind == "group" and keyword is not None, item.line)
        if keyword == "Declaration":
            return self.declaration(without_annotations(item.items), item.line)
        if keyword in ANNOTATIONS:
            return None
        if keyword in UNTRANSLATED:
            return OwlAxiom(keyword, (), item.line, item.start, item.end)
        expect(keyword in SHAPES, item.line)
        items = self.operands(SHAPES[keyword], without_annotations(item.items), item.line)
        return OwlAxiom(keyword, items, item.line, item.start, item.end)

    def declaration(self, items, line):
        """Takes note of a name that is declared."""
        expect(len(items) == 1 and items[0].kind == "group" and len(items[0].items) == 1, line)
        kind = {"Class": "class", "ObjectProperty": "role", "NamedIndividual": "individual"}.get(items[0].text)
        if kind:
            self.kinds[kind](items[0].items[0])

    def operands(self, shape, items, line):
        last = shape[-1]
        if last.endswith("*"):
            shape = shape[:-1] + (last[:-1],) * (len(items) - len(shape) + 1)
        expect(len(items) == len(shape) and items, line)
        return tuple([self.kinds[kind](it) for kind, it in zip(shape, items)])

    def class_of(self, item):
        if item.kind != "group":
            return self.class_name(item)
        keyword, items = item.text, item.items
        if keyword in ROLE_RESTRICTIONS:
            kind, filler = ROLE_RESTRICTIONS[keyword]
            expect(len(items) == 2, item.line)
            found = (kind, self.role(items[0]), self.kinds[filler](items[1]))
        elif keyword in CONNECTIVES:
            expect(items, item.line)
            found = (CONNECTIVES[keyword], tuple(map(self.class_of, items)))
            if len(items) == 1:
                self.features.add("single")
        elif keyword == "ObjectComplementOf":
            expect(len(items) == 1, item.line)
            found = ("not", self.class_of(items[0]))
        elif keyword in NUMBERS:
            found = self.cardinality(keyword, items, item.line)
        elif keyword == "ObjectOneOf":
            expect(items, item.line)
            found = ("one of", tuple(map(self.individual, items)))
        elif keyword == "ObjectHasSelf":
            expect(len(items) == 1, item.line)
            found = ("self", self.role(items[0]))
        else:
            found = self.data_class(item)
        self.features.add(found[0])
        return found

    def class_name(self, item):
        iri = self.iri(item)
        found = self.classes.get(iri)
        if found is None:
            found = TOP if iri == THING else BOTTOM if iri == NOTHING else ("name", iri)
            self.classes[iri] = found
        return found

    def cardinality(self, keyword, items, line):
        expect(len(items) in (2, 3), line)
        kind, number = NUMBERS[keyword], self.number(items[0])
        if kind.startswith("data"):
            return (kind, number, self.property_of(items[1]), self.range_of(items[2]) if len(items) == 3 else TOP_RANGE)
        return (kind, number, self.role(items[1]), self.class_of(items[2]) if len(items) == 3 else TOP)

    def number(self, item):
        expect(item.kind == "name" and set(item.text) <= DIGITS, item.line)
        digits = item.text.lstrip("0")
        return LIMITED_NUMBER if len(digits) > 18 else int(digits or "0")

    def data_class(self, item):
        keyword, items = item.text, item.items
        if keyword in DATA_QUANTIFIERS:
            expect(len(items) >= 2, item.line)
            return (DATA_QUANTIFIERS[keyword], tuple(map(self.property_of, items[:-1])), self.range_of(items[-1]))
        expect(keyword == "DataHasValue" and len(items) == 2, item.line)
        return ("data value", self.property_of(items[0]), self.literal(items[1]))

    def role(self, item):
        if item.kind == "group":
            expect(item.text == "ObjectInverseOf" and len(item.items) == 1, item.line)
            self.features.add("inverse")
            return inverse(self.role(item.items[0]))
        iri = self.iri(item)
        if iri in (TOP_ROLE, BOTTOM_ROLE):
            self.features.add("special role")
        else:
            self.roles.add(iri)
        return iri

    def chain(self, item):
        """A role, or a tuple that begins with `chain` and has the roles."""
        if not item.is_group("ObjectPropertyChain"):
            return self.role(item)
        expect(item.items, item.line)
        self.features.add("chain")
        return ("chain", tuple(map(self.role, item.items)))

    def property_of(self, item):
        self.features.add("data")
        return self.iri(item)

    def individual(self, item):
        if item.kind == "name" and item.text.startswith(ANONYMOUS):
            self.features.add("anonymous")
            self.individuals.add(item.text)
            return item.text
        iri = self.iri(item)
        self.individuals.add(iri)
        return iri

    def literal(self, item):
        expect(item.kind == "literal", item.line)
        text = unescaped(item.text)
        if item.tag:
            return Literal(text, PLAIN_LITERAL, item.tag.lower())
        return Literal(text, self.iri(item.datatype) if item.datatype else STRING)

    def datatype(self, item):
        self.features.add("data")
        return self.iri(item)

    def range_of(self, item):
        self.features.add("data")
        if item.kind != "group":
            return ("datatype", self.iri(item))
        keyword, items = item.text, item.items
        expect(items, item.line)
        if keyword in DATA_CONNECTIVES:
            return (DATA_CONNECTIVES[keyword], tuple(map(self.range_of, items)))
        if keyword == "DataOneOf":
            return ("values", tuple(map(self.literal, items)))
        if keyword == "DataComplementOf":
            expect(len(items) == 1, item.line)
            return ("not", self.range_of(items[0]))
        expect(keyword == "DatatypeRestriction" and len(items) % 2 == 1, item.line)
        facets = tuple((self.iri(one), self.literal(other)) for one, other in zip(items[1::2], items[2::2]))
        return ("restricted", self.iri(items[0]), facets)


def read_axiom(reader, item):
    """The axiom of an item and the features of its expressions, or the fault that it has."""
    reader.features = set()
    try:
        return reader.axiom(item), reader.features
    except Refused as fault:
        return fault, reader.features
