"""What the axioms of a file say of a class directly: which classes are above it, and to which its members lead."""
from dataclasses import dataclass

from shq_tools.terms import Axiom


def sides(axiom):
    """The pairs of class expressions of which an axiom says that the members of the first are in the second."""
    items = axiom.items
    if axiom.keyword == "SubClassOf":
        return [(items[0], items[1])]
    if axiom.keyword == "EquivalentClasses":
        return [(one, other) for one in items if one[0] == "name" for other in items if other is not one]
    if axiom.keyword == "DisjointUnion":
        return [(part, items[0]) for part in items[1:]]
    return []


def conjuncts(expression):
    """The class expressions that each member of an expression is in, as far as it says so by itself."""
    left, found = [expression], []
    while left:
        one = left.pop()
        if one[0] == "and":
            left += one[1]
        else:
            found.append(one)
    return found


def classes_reached(expression):
    """The classes that each member of an expression is in, or to a member of which it leads."""
    found, left = [], conjuncts(expression)
    while left:
        one = left.pop()
        if one[0] == "name":
            found.append(one[1])
        elif one[0] == "some" or one[0] in ("least", "exactly") and one[1] > 0:
            left += conjuncts(one[-1])
    return found


class ToldClasses:
    """The classes that axioms put directly above each class."""

    def __init__(self, axioms):
        self.direct = {}
        for axiom in axioms:
            for sub, sup in sides(axiom):
                if sub[0] == "name":
                    named = (it[1] for it in conjuncts(sup) if it[0] == "name")
                    self.direct.setdefault(sub[1], set()).update(named)
        self.known = {}

    def above(self, iri):
        """All classes above a class, by what is told."""
        if iri not in self.known:
            found, left = set(), [iri]
            while left:
                new = self.direct.get(left.pop(), set()) - found
                found |= new
                left += new
            self.known[iri] = found
        return self.known[iri]

    def most_specific(self, classes):
        """Those of some classes that are above no other one of them; classes above each other all stay."""
        outer = set()
        for one in classes:
            outer.update(it for it in self.above(one) if one not in self.above(it))
        return [it for it in classes if it not in outer]


@dataclass(frozen=True)
class Link:
    """An axiom by which each member of a class is in another class, or leads to a member of it."""

    axiom: Axiom
    target: str


def links_between(axioms, classes):
    """For each of some classes, the links from it to others of them."""
    found = {it: [] for it in classes}
    for axiom in axioms:
        for sub, sup in sides(axiom):
            if sub[0] == "name" and sub[1] in found:
                reached = set(classes_reached(sup)) - {sub[1]}
                found[sub[1]] += [Link(axiom, it) for it in sorted(reached) if it in found]
    return found
