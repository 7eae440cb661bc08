"""Classes of one individual.

For an individual a that stands in `ObjectOneOf` or `ObjectHasValue` there is a new class {a}, whose only member is a.
By this definition a is in {a}; what is said of a holds of all members of {a}; the classes of different individuals have
no common member, and those of equal ones are equal. That {a} has no second member cannot be said.
"""
from shq_tools.approximation.losses import Loss
from shq_tools.terms import Axiom


class Nominals:
    """The classes of individuals that were made."""

    def __init__(self, context):
        self.context = context
        self.made = {}

    def class_of(self, individual):
        """The class of an individual. Its assertion is written where the class is met first."""
        self.context.lose(Loss.NOMINAL)
        if individual not in self.made:
            of = self.made[individual] = self.context.names.class_name(("one of", (individual,)))
            self.context.define(Axiom("ClassAssertion", (of, self.context.individual(individual)), 0))
        return self.made[individual]

    def those_of(self, individuals):
        """The classes that were made of some individuals, each once."""
        return [self.made[it] for it in dict.fromkeys(individuals) if it in self.made]


def of_different(context, axiom):
    """`DifferentIndividuals(a b ..)`: {a}, {b} and so on have no common member, since that one would be a and b."""
    classes = context.nominals.those_of(axiom.items)
    if len(classes) > 1 and len(set(axiom.items)) == len(axiom.items):
        yield Axiom("DisjointClasses", tuple(classes), axiom.line)


def of_same(context, axiom):
    """`SameIndividual(a b ..)`: {a}, {b} and so on are one class."""
    classes = context.nominals.those_of(axiom.items)
    if len(classes) > 1:
        yield Axiom("EquivalentClasses", tuple(classes), axiom.line)


def of_type(context, axiom, above):
    """`ClassAssertion(C a)`: {a} is below C, since its only member is in C."""
    for of in context.nominals.those_of(axiom.items[1:]):
        yield Axiom("SubClassOf", (of, above), axiom.line)


def of_pair(context, axiom):
    """`ObjectPropertyAssertion(r a b)`: {a} is below `some r {b}`, since its only member leads to b; and backwards in
    the same way, where r has an inverse.
    """
    role, one, other = axiom.items
    made = context.nominals.made
    if one not in made or other not in made:
        return
    yield Axiom("SubClassOf", (made[one], ("some", context.roles.name(role), made[other])), axiom.line)
    for name in context.roles.inverses_of(role):
        yield Axiom("SubClassOf", (made[other], ("some", name, made[one])), axiom.line)


def of_no_pair(context, axiom):
    """`NegativeObjectPropertyAssertion(r a b)`: a is in `all r not {b}`, since what is in {b} is b."""
    role, one, other = axiom.items
    excluded = ("all", context.roles.name(role), ("not", context.nominals.class_of(other)))
    yield Axiom("ClassAssertion", (excluded, context.individual(one)), axiom.line)
    for of in context.nominals.those_of([one]):
        yield Axiom("SubClassOf", (of, excluded), axiom.line)
