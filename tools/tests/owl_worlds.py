"""OWL 2 in many interpretations at once.

What is true is a whole number whose bits stand for the interpretations: bit k is 1 where it is true in the k-th one.
This reads axioms as the "OWL 2 Direct Semantics" does, and has nothing of the code that translates.
"""
import random
from fractions import Fraction
from itertools import combinations, product

from shq_tools.approximation.new_names import definition_of
from shq_tools.approximation.owl import BOTTOM_DATA, BOTTOM_ROLE, TOP_ROLE

XSD = "http://www.w3.org/2001/XMLSchema#"
OWL = "http://www.w3.org/2002/07/owl#"
RDF = "http://www.w3.org/1999/02/22-rdf-syntax-ns#"
RDFS_LITERAL = "http://www.w3.org/2000/01/rdf-schema#Literal"

# The values that an interpretation may have. Each is a tuple that begins with its kind.
VALUES = [
    ("number", Fraction(1)),
    ("number", Fraction(2)),
    ("number", Fraction(-3)),
    ("number", Fraction(0)),
    ("number", Fraction(3, 2)),
    ("number", Fraction(500)),
    ("string", "x", ""),
    ("string", "x", "en"),
    ("truth", True),
    ("double", 1.0),
]
IS_IN = {
    XSD + "integer": lambda it: it[0] == "number" and it[1].denominator == 1,
    XSD + "nonNegativeInteger": lambda it: it[0] == "number" and it[1].denominator == 1 and it[1] >= 0,
    XSD + "byte": lambda it: it[0] == "number" and it[1].denominator == 1 and -128 <= it[1] <= 127,
    XSD + "decimal": lambda it: it[0] == "number",
    OWL + "real": lambda it: it[0] == "number",
    XSD + "string": lambda it: it[0] == "string" and it[2] == "",
    RDF + "PlainLiteral": lambda it: it[0] == "string",
    XSD + "boolean": lambda it: it[0] == "truth",
    XSD + "double": lambda it: it[0] == "double",
    RDFS_LITERAL: lambda it: True,
}
FACETS = {
    XSD + "minInclusive": lambda it, bound: it >= bound,
    XSD + "maxInclusive": lambda it, bound: it <= bound,
    XSD + "minExclusive": lambda it, bound: it > bound,
    XSD + "maxExclusive": lambda it, bound: it < bound,
}


def value_of(literal):
    """The value of a literal of the grammar."""
    name = literal.datatype
    if name == XSD + "boolean":
        return ("truth", literal.text in ("true", "1"))
    if name == RDF + "PlainLiteral":
        text, _, tag = (literal.text, "", literal.language) if literal.language else literal.text.rpartition("@")
        return ("string", text, tag)
    if name == XSD + "string":
        return ("string", literal.text, "")
    return ("number", Fraction(literal.text))


class Worlds:
    """Interpretations of one size, with the same data values."""

    def __init__(self, size, values, chooser, count):
        self.size, self.values, self.chooser = size, values, chooser
        self.elements = range(size)
        self.facts = {}
        self.known = {}
        self.set_count(count)

    def set_count(self, count):
        self.count = count
        self.every = (1 << count) - 1
        self.known = {}

    def fact(self, *key):
        """Whether a fact holds: at random, but where all ways are asked for."""
        if key not in self.facts:
            self.facts[key] = self.chooser.getrandbits(self.count)
        return self.facts[key]

    def have_all_ways(self):
        """Makes one interpretation for each way in which the facts that were asked for hold."""
        self.set_count(1 << len(self.facts))
        for at, key in enumerate(self.facts):
            block, length = ((1 << (1 << at)) - 1) << (1 << at), 2 << at
            while length < self.count:
                block |= block << length
                length *= 2
            self.facts[key] = block

    def negated(self, bits):
        return self.every & ~bits

    def is_at(self, individual, element):
        """Whether an individual is an element: each is exactly one."""
        meaning = definition_of(individual)
        if meaning:
            individual = meaning[1]
        bits = [self.fact("individual", individual, it) for it in range(self.size - 1)]
        found = self.every
        for bit in bits[:element]:
            found &= self.negated(bit)
        return found & bits[element] if element < len(bits) else found

    def leads(self, role, one, other):
        if role == TOP_ROLE:
            return self.every
        if role == BOTTOM_ROLE:
            return 0
        if isinstance(role, tuple):
            return self.leads(role[1], other, one)
        meaning = definition_of(role)
        return self.leads(meaning[1], one, other) if meaning else self.fact("role", role, one, other)

    def has_value(self, name, element, value):
        return 0 if name == BOTTOM_DATA else self.fact("data", name, element, value)

    def extension(self, of):
        """Of each element whether it is in a class expression."""
        if of not in self.known:
            self.known[of] = [self.is_in(of, it) for it in self.elements]
        return self.known[of]

    def is_in(self, of, element):
        kind = of[0]
        if kind in ("top", "bottom"):
            return self.every if kind == "top" else 0
        if kind == "name":
            meaning = definition_of(of[1])
            return self.extension(meaning[1])[element] if meaning else self.fact("class", of[1], element)
        if kind == "not":
            return self.negated(self.extension(of[1])[element])
        if kind == "and":
            return self.all_of(self.extension(it)[element] for it in of[1])
        if kind == "or":
            return any_of(self.extension(it)[element] for it in of[1])
        if kind == "one of":
            return any_of(self.is_at(it, element) for it in of[1])
        if kind == "value":
            return any_of(self.leads(of[1], element, it) & self.is_at(of[2], it) for it in self.elements)
        if kind == "self":
            return self.leads(of[1], element, element)
        return self.is_in_data(of, element) if kind.startswith("data") else self.is_in_restriction(of, element)

    def is_in_restriction(self, of, element):
        kind, role, filler = of[0], of[-2], self.extension(of[-1])
        there = [self.leads(role, element, it) & filler[it] for it in self.elements]
        if kind == "all":
            return self.all_of(self.negated(self.leads(role, element, it)) | filler[it] for it in self.elements)
        return self.by_number(kind, 1 if kind == "some" else of[1], there)

    def is_in_data(self, of, element):
        kind = of[0]
        if kind == "data value":
            named = value_of(of[2])
            return self.has_value(of[1], element, named) if named in self.values else 0
        if kind in ("data some", "data all") and len(of[1]) > 1:
            return self.fact("class", of, element)
        name = of[1][0] if kind in ("data some", "data all") else of[2]
        there = [(self.has_value(name, element, it), self.has(of[-1], it)) for it in self.values]
        if kind == "data all":
            return self.all_of(self.negated(has) | holds for has, holds in there)
        return self.by_number(kind[5:], 1 if kind == "data some" else of[1], [has & holds for has, holds in there])

    def by_number(self, kind, number, there):
        if kind in ("some", "least"):
            return self.at_least(number, there)
        most = self.negated(self.at_least(number + 1, there))
        return most if kind == "most" else most & self.at_least(number, there)

    def at_least(self, number, there):
        return any_of(self.all_of(chosen) for chosen in combinations(there, number)) if number else self.every

    def has(self, of, value):
        """Whether a value is in a data range."""
        kind = of[0]
        if kind == "datatype":
            is_in = IS_IN.get(of[1])
            return self.fact("range", of[1], value) if is_in is None else self.every * is_in(value)
        if kind == "not":
            return self.negated(self.has(of[1], value))
        if kind == "and":
            return self.all_of(self.has(it, value) for it in of[1])
        if kind == "or":
            return any_of(self.has(it, value) for it in of[1])
        if kind == "values":
            return self.every * (value in map(value_of, of[1]))
        holds = IS_IN[of[1]](value) and all(FACETS[facet](value[1], value_of(it)[1]) for facet, it in of[2])
        return self.every * holds

    def all_of(self, found):
        result = self.every
        for bits in found:
            result &= bits
        return result

    def every_pair(self, condition):
        return self.all_of(condition(one, other) for one, other in product(self.elements, repeat=2))

    def is_below(self, one, other):
        return self.all_of(self.negated(a) | b for a, b in zip(self.extension(one), self.extension(other)))

    def are_equal(self, classes):
        return self.all_of(self.is_below(a, b) for a, b in zip(classes, classes[1:] + classes[:1]))

    def are_disjoint(self, classes):
        found = self.every
        for one, other in combinations(classes, 2):
            found &= self.all_of(self.negated(a & b) for a, b in zip(self.extension(one), self.extension(other)))
        return found

    def is_role_below(self, one, other):
        return self.every_pair(lambda a, b: self.negated(self.path(one, a, b)) | self.leads(other, a, b))

    def path(self, role, one, other):
        if role[0] != "chain":
            return self.leads(role, one, other)
        first, rest = role[1][0], role[1][1:]
        if not rest:
            return self.leads(first, one, other)
        return any_of(self.leads(first, one, it) & self.path(("chain", rest), it, other) for it in self.elements)

    def is_functional(self, role):
        return self.all_of(
            self.negated(self.leads(role, it, a) & self.leads(role, it, b))
            for it in self.elements
            for a, b in combinations(self.elements, 2)
        )

    def holds_of(self, role, one, other):
        """Whether a role leads from an individual to another one."""
        return any_of(
            self.is_at(one, a) & self.is_at(other, b) & self.leads(role, a, b)
            for a, b in product(self.elements, repeat=2)
        )

    def is_data_below(self, one, other):
        return self.all_of(
            self.negated(self.has_value(one, it, value)) | self.has_value(other, it, value)
            for it in self.elements
            for value in self.values
        )

    def data_holds_of(self, name, individual, literal):
        value = value_of(literal)
        if value not in self.values:
            return 0
        return any_of(self.is_at(individual, it) & self.has_value(name, it, value) for it in self.elements)

    def are_same(self, individuals):
        return any_of(self.all_of(self.is_at(it, at) for it in individuals) for at in self.elements)

    def holds(self, axiom):
        """Where an axiom holds, or None where nothing is known of it."""
        rule = getattr(self, "of_" + axiom.keyword, None)
        return rule(*axiom.items) if rule else None

    def of_SubClassOf(self, one, other):
        return self.is_below(one, other)

    def of_EquivalentClasses(self, *classes):
        return self.are_equal(classes)

    def of_DisjointClasses(self, *classes):
        return self.are_disjoint(classes)

    def of_DisjointUnion(self, whole, *parts):
        return self.are_equal((whole, ("or", parts))) & self.are_disjoint(parts)

    def of_SubObjectPropertyOf(self, one, other):
        return self.is_role_below(one, other)

    def of_EquivalentObjectProperties(self, *roles):
        return self.all_of(self.is_role_below(a, b) for a, b in zip(roles, roles[1:] + roles[:1]))

    def of_DisjointObjectProperties(self, *roles):
        found = self.every
        for one, other in combinations(roles, 2):
            found &= self.every_pair(lambda a, b: self.negated(self.leads(one, a, b) & self.leads(other, a, b)))
        return found

    def of_InverseObjectProperties(self, one, other):
        return self.every_pair(lambda a, b: self.negated(self.leads(one, a, b) ^ self.leads(other, b, a)))

    def of_ObjectPropertyDomain(self, role, of):
        return self.every_pair(lambda a, b: self.negated(self.leads(role, a, b)) | self.extension(of)[a])

    def of_ObjectPropertyRange(self, role, of):
        return self.every_pair(lambda a, b: self.negated(self.leads(role, a, b)) | self.extension(of)[b])

    def of_FunctionalObjectProperty(self, role):
        return self.is_functional(role)

    def of_InverseFunctionalObjectProperty(self, role):
        return self.all_of(
            self.negated(self.leads(role, a, it) & self.leads(role, b, it))
            for it in self.elements
            for a, b in combinations(self.elements, 2)
        )

    def of_ReflexiveObjectProperty(self, role):
        return self.all_of(self.leads(role, it, it) for it in self.elements)

    def of_IrreflexiveObjectProperty(self, role):
        return self.all_of(self.negated(self.leads(role, it, it)) for it in self.elements)

    def of_SymmetricObjectProperty(self, role):
        return self.every_pair(lambda a, b: self.negated(self.leads(role, a, b)) | self.leads(role, b, a))

    def of_AsymmetricObjectProperty(self, role):
        return self.every_pair(lambda a, b: self.negated(self.leads(role, a, b) & self.leads(role, b, a)))

    def of_TransitiveObjectProperty(self, role):
        return self.is_role_below(("chain", (role, role)), role)

    def of_SubDataPropertyOf(self, one, other):
        return self.is_data_below(one, other)

    def of_EquivalentDataProperties(self, *names):
        return self.all_of(self.is_data_below(a, b) for a, b in zip(names, names[1:] + names[:1]))

    def of_DisjointDataProperties(self, *names):
        return self.all_of(
            self.negated(self.has_value(one, it, value) & self.has_value(other, it, value))
            for one, other in combinations(names, 2)
            for it in self.elements
            for value in self.values
        )

    def of_DataPropertyDomain(self, name, of):
        return self.all_of(
            self.negated(self.has_value(name, it, value)) | self.extension(of)[it]
            for it in self.elements
            for value in self.values
        )

    def of_DataPropertyRange(self, name, of):
        return self.all_of(
            self.negated(self.has_value(name, it, value)) | self.has(of, value)
            for it in self.elements
            for value in self.values
        )

    def of_FunctionalDataProperty(self, name):
        return self.all_of(
            self.negated(self.at_least(2, [self.has_value(name, it, value) for value in self.values]))
            for it in self.elements
        )

    def of_DatatypeDefinition(self, name, of):
        named = ("datatype", name)
        return self.all_of(self.negated(self.has(named, it) ^ self.has(of, it)) for it in self.values)

    def of_SameIndividual(self, *individuals):
        return self.are_same(individuals)

    def of_DifferentIndividuals(self, *individuals):
        return self.all_of(self.negated(self.are_same(pair)) for pair in combinations(individuals, 2))

    def of_ClassAssertion(self, of, individual):
        return any_of(self.is_at(individual, it) & self.extension(of)[it] for it in self.elements)

    def of_ObjectPropertyAssertion(self, role, one, other):
        return self.holds_of(role, one, other)

    def of_NegativeObjectPropertyAssertion(self, role, one, other):
        return self.negated(self.holds_of(role, one, other))

    def of_DataPropertyAssertion(self, name, individual, literal):
        return self.data_holds_of(name, individual, literal)

    def of_NegativeDataPropertyAssertion(self, name, individual, literal):
        return self.negated(self.data_holds_of(name, individual, literal))


def any_of(found):
    result = 0
    for bits in found:
        result |= bits
    return result


def literals_within(of):
    """The literals of the grammar in the items of an axiom."""
    found = []
    for item in of:
        if hasattr(item, "datatype"):
            found.append(item)
        elif isinstance(item, tuple):
            found += literals_within(item)
    return found


def chosen_values(axioms, chooser):
    """Two values, those of the axioms rather than others."""
    named = [value_of(it) for axiom in axioms for it in literals_within(axiom.items)]
    pool = list(dict.fromkeys(named * (chooser.random() < 0.8) + VALUES))
    first = pool[: max(2, len(set(named)))]
    return tuple(chooser.sample(first if chooser.random() < 0.7 else pool, 2))


def all_worlds_of(size, values, ask, most_facts):
    """All interpretations of a size, or None where there are too many ways. `ask` asks for all that will be asked for.
    """
    worlds = Worlds(size, values, random.Random(0), 1)
    ask(worlds)
    if len(worlds.facts) > most_facts:
        return None
    worlds.have_all_ways()
    return worlds


def worlds_of(size, values, seed, ask, most_facts=12, count=2048):
    """All interpretations of a size where there are not too many ways, else so many random ones. Of `ask` see above."""
    found = all_worlds_of(size, values, ask, most_facts)
    return found or Worlds(size, values, random.Random(seed), count)
