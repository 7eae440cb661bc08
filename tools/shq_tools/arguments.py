"""Reasons for people: their axioms in the order of the argument, and what several reasons share told once."""
from dataclasses import dataclass, field

from shq_tools.terms import inner_classes

ROLE_AXIOMS = {
    "SubObjectPropertyOf",
    "EquivalentObjectProperties",
    "TransitiveObjectProperty",
    "FunctionalObjectProperty",
}
# Of axioms that say the same of each item, one that is known leads to the others.
SYMMETRIC = {
    "EquivalentClasses",
    "DisjointClasses",
    "DisjointUnion",
    "EquivalentObjectProperties",
    "SameIndividual",
    "DifferentIndividuals",
}
# Of these two items have to be known.
NEED_TWO = {"DisjointClasses", "DifferentIndividuals"}
# How many families a reason is compared with, so that long lists take no time that grows with their square.
MOST_COMPARED = 40


def names_in(expression):
    """The classes and roles that a class expression names."""
    found, left = set(), [expression]
    while left:
        one = left.pop()
        left += inner_classes(one)
        if one[0] == "name":
            found.add(one[1])
        elif one[0] in ("some", "all", "least", "most", "exactly"):
            found.add(one[-2])
    return found


def names_of_item(item):
    """What an item of an axiom names: a class expression, or a role or an individual by itself."""
    return names_in(item) if isinstance(item, tuple) else {item}


def names_of_axiom(axiom):
    return set().union(*map(names_of_item, axiom.items))


def triggers(axiom):
    """The sets of names of which one has to be known before an axiom can say more."""
    items = axiom.items
    if not items:
        return [set()]
    if axiom.keyword == "ClassAssertion":
        return [names_of_item(items[1])]
    if axiom.keyword == "ObjectPropertyAssertion":
        return [{items[1]}, {items[2]}]
    if axiom.keyword in SYMMETRIC:
        return list(map(names_of_item, items))
    first = items[0]
    if isinstance(first, tuple) and first[0] == "or":
        return list(map(names_in, first[1]))
    return [names_of_item(first)]


class Argument:
    """Puts axioms in the order of the argument: each after those that bring what it speaks of, and as near to them as
    that goes. Axioms about roles come behind those about classes.
    """

    def __init__(self, axioms, start):
        self.left = list(axioms)
        self.since = dict.fromkeys(start, 0)
        self.ordered = []

    def readiness(self, axiom):
        """When the last name became known that an axiom waits for, or None where it still waits."""
        known = [max((self.since[it] for it in one), default=-1) for one in triggers(axiom) if one <= self.since.keys()]
        return max(known) if len(known) >= (2 if axiom.keyword in NEED_TWO else 1) else None

    def next(self):
        """The axiom that comes next: one that goes on with what was told last, else the first that is left."""
        ready = [(self.readiness(it), it.keyword not in ROLE_AXIOMS, -it.number, it) for it in self.left]
        ready = [it for it in ready if it[0] is not None]
        return max(ready, key=lambda it: it[:3])[3] if ready else self.left[0]

    def order(self):
        while self.left:
            axiom = self.next()
            self.left.remove(axiom)
            self.ordered.append(axiom)
            for name in names_of_axiom(axiom):
                self.since.setdefault(name, len(self.ordered))
        return self.ordered


def sources(axioms):
    """The names with which an argument begins where its question is not known: the individuals of which it says what
    they are, else the names that stand on left sides alone.
    """
    individuals = {it.items[1] for it in axioms if it.keyword == "ClassAssertion"}
    inclusions = [it for it in axioms if it.keyword == "SubClassOf"]
    left = set().union(*(triggers(it)[0] for it in inclusions))
    return individuals or left - set().union(*(names_of_item(it.items[1]) for it in inclusions))


def in_order_of_argument(axioms, query=None):
    """Axioms in the order of the argument for a question, a pair of class expressions and an individual or None."""
    axioms = list(axioms)
    start = sources(axioms)
    if query is not None:
        sub, sup, individual = query
        start = {individual} if individual is not None else names_in(sub) or names_in(sup) or start
    return Argument(axioms, start).order()


@dataclass
class Family:
    """Sets of axioms, by their places in the list, that share most axioms: the shared ones, and each set."""

    shared: frozenset
    members: list = field(default_factory=list)

    def takes(self, one):
        """Whether a set shares at least half of its axioms, and two at least, with all of the family."""
        both = self.shared & one
        return len(both) >= 2 and 2 * len(both) >= max(len(one), *(len(it) for _, it in self.members))

    def add(self, place, one):
        self.shared &= one
        self.members.append((place, one))


def families(sets):
    """The families of a list of sets, in the order of their first members. A set that shares little with others is one
    by itself.
    """
    found = []
    for place, numbers in enumerate(sets, 1):
        one = frozenset(numbers)
        family = next((it for it in found[-MOST_COMPARED:] if it.takes(one)), None)
        if family is None:
            family = Family(one)
            found.append(family)
        family.add(place, one)
    return found
