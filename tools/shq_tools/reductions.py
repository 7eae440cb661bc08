"""Statements of many kinds as questions of the reasoner, which asks `SubClassOf` and `ClassAssertion` alone.

What is asked instead follows from an ontology exactly where the statement does. Three ways lead there:

- Some inclusions of classes are one: all follow where nothing can be in the left side and outside of the right side of
  any of them.
- What is said of roles is said of a class N that is new: each r-successor is an s-successor exactly where what has an
  r-successor in N has an s-successor in N, whatever N is.
- What is said of two individuals is asked with an axiom put into the ontology: that a role leads from a to b is that a
  has a successor in N, where N is a new class that b is in; and that it does not lead there, that with this assertion
  nothing can be true. To more than two individuals new roles lead from a new individual: where each two are different,
  it has as many successors by one role; where all are the same, it has a successor in N by a role for each of them.
"""
from dataclasses import dataclass

from shq_tools.normal_forms import parts
from shq_tools.terms import BOTTOM, TOP, Axiom


class NotAsked(Exception):
    """A statement that is not asked, with the reason."""


@dataclass(frozen=True)
class Reduced:
    """The axiom to ask about, and the axioms that are put into the ontology for it."""

    asked: Axiom
    added: tuple = ()


class FreshNames:
    """IRIs that an ontology does not have."""

    def __init__(self, names):
        self.taken = set().union(*names.values())
        self.count = 0

    def one(self):
        """An IRI that was not there before."""
        while True:
            self.count += 1
            iri = f"urn:shq:new:{self.count}"
            if iri not in self.taken:
                return iri


def inclusion(sub, sup):
    return Axiom("SubClassOf", (sub, sup), 1)


def exception(sub, sup):
    """The class of what is in one class and not in the other."""
    outside = sup[1] if sup[0] == "not" else ("not", sup)
    inner = [it for it in (sub, outside) if it not in (TOP, ("not", BOTTOM))]
    if not inner:
        return TOP
    return inner[0] if len(inner) == 1 else ("and", tuple(inner))


def one_inclusion(pairs):
    """The inclusion that follows exactly where all of these do."""
    pairs = [it for it in pairs if it[0] != BOTTOM and it[1] != TOP] or pairs[:1]
    if len(pairs) == 1:
        return inclusion(*pairs[0])
    return inclusion(("or", tuple(exception(*it) for it in pairs)), BOTTOM)


def ring(items):
    return list(zip(items, items[1:] + items[:1]))


def role_inclusions(keyword, items, new):
    """The inclusions of classes, over the new class, that say what a statement on roles says; or None."""
    one, *others = items

    def some(role, inner=new):
        return ("some", role, inner)

    if keyword == "SubObjectPropertyOf":
        return [(some(one), some(others[0]))]
    if keyword == "EquivalentObjectProperties":
        return [(some(below), some(above)) for below, above in ring(items)]
    if keyword == "TransitiveObjectProperty":
        return [(some(one, some(one)), some(one))]
    if keyword == "ReflexiveObjectProperty":
        return [(new, some(one))]
    if keyword == "SymmetricObjectProperty":
        return [(new, ("all", one, some(one)))]
    if keyword == "InverseObjectProperties":
        return [(new, ("all", one, some(others[0]))), (new, ("all", others[0], some(one)))]
    if keyword == "ObjectPropertyRange":
        return [(TOP, ("all", one, others[0]))]
    return None


def led(role, one, other):
    return Axiom("ObjectPropertyAssertion", (role, one, other), 1)


def all_same(items, fresh):
    """That more than two individuals are the same."""
    new, hub, roles = ("name", fresh.one()), fresh.one(), [fresh.one() for _ in items[1:]]
    added = [led(role, hub, it) for role, it in zip(roles, items[1:])]
    asked = Axiom("ClassAssertion", (("and", tuple(("some", it, new) for it in roles)), hub), 1)
    return Reduced(asked, (Axiom("ClassAssertion", (new, items[0]), 1), *added))


def all_different(items, fresh):
    """That of more than two individuals each two are different."""
    hub, role = fresh.one(), fresh.one()
    asked = Axiom("ClassAssertion", (("least", len(items), role, TOP), hub), 1)
    return Reduced(asked, tuple(led(role, hub, it) for it in items))


OF_MANY = {"SameIndividual": all_same, "DifferentIndividuals": all_different}


def contradicted(keyword, items, fresh):
    """The axioms that are contradictory exactly where the statement follows, or None."""
    if keyword == "DifferentIndividuals":
        return [Axiom("SameIndividual", items, 1)]
    if keyword == "NegativeObjectPropertyAssertion":
        return [led(*items)]
    if keyword == "IrreflexiveObjectProperty":
        one = fresh.one()
        return [led(items[0], one, one)]
    if keyword == "AsymmetricObjectProperty":
        one, other = fresh.one(), fresh.one()
        return [led(items[0], one, other), led(items[0], other, one)]
    if keyword == "DisjointObjectProperties":
        one, other = fresh.one(), fresh.one()
        return [led(it, one, other) for it in items]
    return None


def membership(keyword, items, fresh):
    """A statement that an individual is in a class, with axioms on a new class, or None."""
    new = ("name", fresh.one())

    def asked(of, individual, *added):
        return Reduced(Axiom("ClassAssertion", (of, individual), 1), added)

    if keyword == "SameIndividual":
        return asked(new, items[1], Axiom("ClassAssertion", (new, items[0]), 1))
    if keyword == "ObjectPropertyAssertion":
        role, one, other = items
        return asked(("some", role, new), one, Axiom("ClassAssertion", (new, other), 1))
    if keyword == "InverseFunctionalObjectProperty":
        one, other, shared = fresh.one(), fresh.one(), fresh.one()
        added = (led(items[0], one, shared), led(items[0], other, shared), Axiom("ClassAssertion", (new, one), 1))
        return asked(new, other, *added)
    return None


def reduced(statement, fresh):
    """What is asked for a statement. Raises `NotAsked`."""
    keyword, items = statement.keyword, statement.items
    if keyword in ("SubClassOf", "ClassAssertion"):
        return Reduced(statement)
    if keyword in OF_MANY and len(items) > 2:
        return OF_MANY[keyword](items, fresh)
    if keyword == "DisjointObjectProperties" and len(items) > 2:
        raise NotAsked(f"{keyword} can be asked of two at a time")
    pairs = role_inclusions(keyword, items, ("name", fresh.one()))
    pairs = pairs or parts(statement)
    if pairs:
        return Reduced(one_inclusion(pairs))
    added = contradicted(keyword, items, fresh)
    if added:
        return Reduced(inclusion(TOP, BOTTOM), tuple(added))
    found = membership(keyword, items, fresh)
    if found is None:
        raise NotAsked(f"{keyword} cannot be asked")
    return found
