"""Axioms on classes: each class expression becomes the bound that its place asks for."""
from itertools import combinations

from shq_tools.approximation.bounds import joined
from shq_tools.terms import BOTTOM, TOP, Axiom


def inclusion(sub, sup, line):
    """An inclusion, where it says anything."""
    if sub != BOTTOM and sup != TOP and sub != sup:
        yield Axiom("SubClassOf", (sub, sup), line)


def of_inclusion(context, axiom):
    """C in D: what C contains is in what contains D."""
    sub, sup = axiom.items
    yield from inclusion(context.bounds.below(sub), context.bounds.above(sup), axiom.line)


def of_equivalence(context, axiom):
    """Where all class expressions can be had they are equal; else there is an inclusion each way, between each one and
    one that can be had, or between all.
    """
    bounds = [(context.bounds.below(it), context.bounds.above(it)) for it in axiom.items]
    exact = [below for below, above in bounds if below == above]
    if len(exact) == len(bounds):
        if len(set(exact)) > 1:
            yield Axiom("EquivalentClasses", tuple(dict.fromkeys(exact)), axiom.line)
        return
    if exact:
        pairs = [((exact[0], exact[0]), it) for it in bounds if it != (exact[0], exact[0])]
    else:
        pairs = combinations(bounds, 2)
    for (below, above), (other_below, other_above) in pairs:
        yield from inclusion(below, other_above, axiom.line)
        yield from inclusion(other_below, above, axiom.line)


def of_disjointness(context, axiom):
    """What is contained in disjoint classes is disjoint."""
    bounds = [it for it in map(context.bounds.below, axiom.items) if it != BOTTOM]
    if len(bounds) > 1:
        yield Axiom("DisjointClasses", tuple(bounds), axiom.line)


def of_disjoint_union(context, axiom):
    """A class that is the disjoint union of others, with a bound of each."""
    whole, parts = axiom.items[0], axiom.items[1:]
    yield from inclusion(context.bounds.below(whole), joined("or", list(map(context.bounds.above, parts))), axiom.line)
    for part in parts:
        yield from inclusion(context.bounds.below(part), context.bounds.above(whole), axiom.line)
    yield from of_disjointness(context, axiom._replace(items=parts))


def of_domain(context, axiom):
    """The domain of a role grows; it is the range of the inverse."""
    role, domain = axiom.items
    above = context.bounds.above(domain)
    yield Axiom("ObjectPropertyDomain", (context.roles.name(role), above), axiom.line)
    for name in context.roles.inverses_of(role):
        yield Axiom("ObjectPropertyRange", (name, above), axiom.line)


def of_range(context, axiom):
    """The range of a role grows; it is the domain of the inverse."""
    role, sup = axiom.items
    above = context.bounds.above(sup)
    yield Axiom("ObjectPropertyRange", (context.roles.name(role), above), axiom.line)
    for name in context.roles.inverses_of(role):
        yield Axiom("ObjectPropertyDomain", (name, above), axiom.line)


def of_type(context, axiom):
    """The class of an individual grows; all members of the class of this individual alone are in it."""
    of, individual = axiom.items
    above = context.bounds.above(of)
    yield Axiom("ClassAssertion", (above, context.individual(individual)), axiom.line)
