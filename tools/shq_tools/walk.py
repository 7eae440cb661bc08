"""The walk of tests over an ontology, in the order of the proved reader."""
from shq_tools.keywords import (
    ANNOTATIONS,
    ANONYMOUS,
    CARDINALITIES,
    CLASSES,
    ENTITIES,
    NOTHING,
    NUMBERED,
    OUTSIDE_AXIOMS,
    OUTSIDE_CLASSES,
    OUTSIDE_ROLE_NAMES,
    OUTSIDE_ROLES,
    THING,
)
from shq_tools.terms import BOTTOM, TOP, Axiom
from shq_tools.tokens import Refused, bad_text

MOST_NUMBER = 100
ONE_PART = {
    "SubClassOf",
    "ObjectPropertyDomain",
    "ObjectPropertyRange",
    "FunctionalObjectProperty",
    "ClassAssertion",
    "ObjectPropertyAssertion",
}
DIGITS = set("0123456789")


class Limits:
    """The limits of a document that count over all of it. Each call raises `Refused` where its limit is passed."""

    MOST = {
        "axioms": 20_000,
        "parts": 500_000,
        "nodes": 262_144,
        "classes": 20_000,
        "roles": 1_000,
        "individuals": 20_000,
    }

    def __init__(self):
        self.counts = dict.fromkeys(self.MOST, 0)
        # The names in the order in which they were met.
        self.names = {"classes": {}, "roles": {}, "individuals": {}}

    def count(self, what, line, number=1):
        if self.counts[what] + number > self.MOST[what]:
            raise Refused("limit", what, line)
        self.counts[what] += number

    def name(self, what, iri, line):
        if iri not in self.names[what]:
            self.count(what, line)
            self.names[what][iri] = None


class NoLimits:
    """Counts nothing, for a look at one axiom by itself."""

    def count(self, what, line, number=1):
        pass

    def name(self, what, iri, line):
        pass


def pairs(count):
    return count * (count - 1) // 2


def part_count(keyword, count):
    """How many parts an axiom with so many items has, or how many facts it is."""
    if keyword in ONE_PART:
        return 1
    if keyword == "EquivalentClasses":
        return count
    if keyword in ("DisjointClasses", "DifferentIndividuals"):
        return pairs(count)
    if keyword == "SameIndividual":
        return count - 1
    return count + pairs(count - 1) if keyword == "DisjointUnion" else 0


def without_annotations(items):
    """The items behind the annotations that an axiom may begin with."""
    for at, item in enumerate(items):
        if not item.is_group("Annotation"):
            return items[at:]
    return []


def is_within(count, bounds):
    return bounds[0] <= count <= bounds[1]


class Walk:
    """Reads axioms, and raises `Refused` at the first thing that is wrong.

    Where it is given a list for what is outside of the language, a construct that is outside goes into that list with
    its line, and the walk goes on.
    """

    def __init__(self, prefixes, limits, outside=None):
        self.prefixes = prefixes
        self.limits = limits
        self.outside = outside

    def meets_outside(self, what, line):
        if self.outside is None:
            raise Refused("outside", what, line)
        self.outside.append((what, line))

    def axiom(self, item):
        """The axiom of an item, or None where it has no number."""
        if item.kind != "group" or item.text is None:
            raise bad_text("shape", item.line)
        keyword, items = item.text, without_annotations(item.items)
        if keyword in NUMBERED:
            return self.numbered(keyword, items, item.line)
        if keyword == "Declaration":
            return self.declaration(items, item.line)
        if keyword in OUTSIDE_AXIOMS:
            return self.meets_outside(keyword, item.line)
        if keyword not in ANNOTATIONS:
            raise bad_text("shape", item.line)
        return None

    def numbered(self, keyword, items, line):
        self.limits.count("axioms", line)
        if not is_within(len(items), NUMBERED[keyword]):
            raise bad_text("shape", line)
        self.limits.count("parts", line, part_count(keyword, len(items)))
        return Axiom(keyword, tuple(self.operands(keyword, items)), line)

    def operands(self, keyword, items):
        if keyword in ("SubClassOf", "EquivalentClasses", "DisjointClasses"):
            return [self.class_of(it) for it in items]
        if keyword == "DisjointUnion":
            return [self.class_name(items[0])] + [self.class_of(it) for it in items[1:]]
        if keyword in ("ObjectPropertyDomain", "ObjectPropertyRange"):
            return [self.role(items[0]), self.class_of(items[1])]
        if keyword == "ClassAssertion":
            return [self.class_of(items[0]), self.individual(items[1])]
        if keyword == "ObjectPropertyAssertion":
            return [self.role(items[0]), self.individual(items[1]), self.individual(items[2])]
        if keyword in ("SameIndividual", "DifferentIndividuals"):
            return [self.individual(it) for it in items]
        return [self.role(it) for it in items]

    def declaration(self, items, line):
        if len(items) != 1:
            raise bad_text("shape", line)
        entity = items[0]
        if entity.kind != "group" or entity.text not in ENTITIES or len(entity.items) != 1:
            raise bad_text("shape", entity.line)
        if entity.text == "Class":
            self.list_class(self.prefixes.iri(entity.items[0]), entity.items[0].line)
        if entity.text == "ObjectProperty":
            self.declare_role(entity.items[0])
        if entity.text == "NamedIndividual":
            self.individual(entity.items[0])

    def declare_role(self, item):
        iri = self.prefixes.iri(item)
        if iri not in OUTSIDE_ROLE_NAMES:
            self.limits.name("roles", iri, item.line)

    def list_class(self, iri, line):
        if iri not in (THING, NOTHING):
            self.limits.name("classes", iri, line)

    def individual(self, item):
        """The individual that an item names."""
        if item.kind == "name" and item.text.startswith(ANONYMOUS):
            self.meets_outside(ANONYMOUS, item.line)
            return ""
        iri = self.prefixes.iri(item)
        self.limits.name("individuals", iri, item.line)
        return iri

    def class_name(self, item):
        """The class that an item names."""
        iri = self.prefixes.iri(item)
        self.limits.count("nodes", item.line)
        self.list_class(iri, item.line)
        return TOP if iri == THING else BOTTOM if iri == NOTHING else ("name", iri)

    def class_of(self, item):
        """The class expression of an item."""
        if item.kind != "group" or item.text is None:
            return self.class_name(item)
        if item.text in OUTSIDE_CLASSES:
            self.meets_outside(item.text, item.line)
            return TOP
        if item.text not in CLASSES:
            raise bad_text("shape", item.line)
        return self.class_group(item.text, item.items, item.line)

    def class_group(self, keyword, items, line):
        is_short = keyword in CARDINALITIES and len(items) == 2
        self.limits.count("nodes", line, 2 if is_short else 1)
        if not is_within(len(items), CLASSES[keyword]):
            raise bad_text("shape", line)
        if keyword in CARDINALITIES:
            return self.cardinality(CARDINALITIES[keyword], items)
        if keyword in ("ObjectSomeValuesFrom", "ObjectAllValuesFrom"):
            kind = "some" if keyword == "ObjectSomeValuesFrom" else "all"
            return (kind, self.role(items[0]), self.class_of(items[1]))
        if keyword == "ObjectComplementOf":
            return ("not", self.class_of(items[0]))
        kind = "and" if keyword == "ObjectIntersectionOf" else "or"
        return (kind, tuple(self.class_of(it) for it in items))

    def cardinality(self, kind, items):
        number, role = self.number(items[0]), self.role(items[1])
        return (kind, number, role, self.class_of(items[2]) if len(items) == 3 else TOP)

    def number(self, item):
        if item.kind != "name" or not set(item.text) <= DIGITS:
            raise bad_text("shape", item.line)
        # a number of so many digits that it cannot be read plainly is too great too
        digits = item.text.lstrip("0")
        if len(digits) > 3 or int(digits or "0") > MOST_NUMBER:
            raise Refused("limit", "number", item.line)
        return int(digits or "0")

    def role(self, item):
        """The role of an item."""
        if item.kind == "group":
            if item.text not in OUTSIDE_ROLES:
                raise bad_text("shape", item.line)
            self.meets_outside(item.text, item.line)
            return ""
        iri = self.prefixes.iri(item)
        if iri in OUTSIDE_ROLE_NAMES:
            self.meets_outside(OUTSIDE_ROLE_NAMES[iri], item.line)
            return ""
        self.limits.name("roles", iri, item.line)
        return iri
