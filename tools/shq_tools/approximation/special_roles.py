"""Axioms on `owl:topObjectProperty`, which leads from everything to everything, and `owl:bottomObjectProperty`, which
leads from nothing.
"""
from shq_tools.approximation.owl import BOTTOM_ROLE, TOP_ROLE
from shq_tools.terms import BOTTOM, TOP

# Axioms that hold of the role whatever else is said.
TRUE_OF_TOP = {"TransitiveObjectProperty", "SymmetricObjectProperty", "ReflexiveObjectProperty"}
TRUE_OF_BOTTOM = {
    "TransitiveObjectProperty",
    "SymmetricObjectProperty",
    "IrreflexiveObjectProperty",
    "AsymmetricObjectProperty",
    "FunctionalObjectProperty",
    "InverseFunctionalObjectProperty",
    "ObjectPropertyDomain",
    "ObjectPropertyRange",
    "NegativeObjectPropertyAssertion",
}


def roles_of(axiom):
    """The named roles that stand in an axiom of roles, or in an assertion, outside of its class expressions. A role
    that is its own inverse is never read as an inverse.
    """
    found = []
    for item in axiom.items[:1] if "Assertion" in axiom.keyword else axiom.items:
        if isinstance(item, str):
            found.append(item)
        elif item[0] == "chain":
            found += item[1]
    return found


def is_special(axiom):
    return not {TOP_ROLE, BOTTOM_ROLE}.isdisjoint(roles_of(axiom))


def nowhere(axiom, roles):
    """An axiom by which the composition of some roles leads from nothing."""
    sub = TOP
    for role in reversed(roles):
        sub = ("some", role, sub)
    return axiom._replace(keyword="SubClassOf", items=(sub, BOTTOM))


def without_special(axiom):
    """Axioms that say the same without these roles, or None where there are none."""
    keyword, items = axiom.keyword, axiom.items
    if keyword == "SubObjectPropertyOf":
        return of_inclusion(axiom)
    if keyword == "EquivalentObjectProperties":
        others = [it for it in items if it != BOTTOM_ROLE]
        return None if TOP_ROLE in items else [nowhere(axiom, [it]) for it in others]
    if keyword == "InverseObjectProperties":
        others = [it for it in items if it != BOTTOM_ROLE]
        return None if TOP_ROLE in items else [nowhere(axiom, [it]) for it in others]
    if keyword == "DisjointObjectProperties":
        others = [it for it in items if it not in (TOP_ROLE, BOTTOM_ROLE)]
        if items.count(TOP_ROLE) > 1:
            return [axiom._replace(keyword="SubClassOf", items=(TOP, BOTTOM))]
        empty = [nowhere(axiom, [it]) for it in others] if TOP_ROLE in items else []
        return empty + ([axiom._replace(items=tuple(others))] if len(others) > 1 else [])
    is_top = items[0] == TOP_ROLE
    if keyword in (TRUE_OF_TOP if is_top else TRUE_OF_BOTTOM):
        return []
    if is_top and keyword in ("ObjectPropertyDomain", "ObjectPropertyRange"):
        return [axiom._replace(keyword="SubClassOf", items=(TOP, items[1]))]
    if keyword in ("ObjectPropertyAssertion", "NegativeObjectPropertyAssertion"):
        is_true = is_top == (keyword == "ObjectPropertyAssertion")
        return [] if is_true else [axiom._replace(keyword="ClassAssertion", items=(BOTTOM, items[1]))]
    if keyword in ("IrreflexiveObjectProperty", "AsymmetricObjectProperty", "ReflexiveObjectProperty"):
        # everything has a loop, and there is something
        return [axiom._replace(keyword="SubClassOf", items=(TOP, BOTTOM))]
    return None


def of_inclusion(axiom):
    sub, sup = axiom.items
    roles = list(sub[1]) if sub[0] == "chain" else [sub]
    if sup == TOP_ROLE or BOTTOM_ROLE in roles:
        return []
    if sup == BOTTOM_ROLE and TOP_ROLE in roles:
        return without_top(axiom, roles)
    return None if TOP_ROLE in roles else [nowhere(axiom, roles)]


def without_top(axiom, roles):
    """A chain with a role that leads everywhere leads from nothing where one of the others does; that is said of the
    only other one, where there is one alone.
    """
    others = [it for it in roles if it != TOP_ROLE]
    if len(others) > 1:
        return None
    return [nowhere(axiom, others)] if others else [axiom._replace(keyword="SubClassOf", items=(TOP, BOTTOM))]
