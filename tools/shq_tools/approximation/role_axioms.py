"""Axioms on roles, with what they say of inverses."""
from shq_tools.approximation.losses import Loss
from shq_tools.approximation.owl import base, inverse
from shq_tools.terms import Axiom

OF_INVERSES = {"InverseObjectProperties", "SymmetricObjectProperty", "InverseFunctionalObjectProperty"}


def inclusions(axiom):
    """The pairs of roles one of which is in the other by an axiom."""
    keyword, items = axiom.keyword, axiom.items
    if keyword == "SubObjectPropertyOf":
        sub = items[0]
        if sub[0] != "chain":
            return [(sub, items[1])]
        return [(sub[1][0], items[1])] if len(sub[1]) == 1 else []
    if keyword == "EquivalentObjectProperties":
        return [(one, other) for one, other in zip(items, items[1:] + items[:1]) if one != other]
    if keyword == "InverseObjectProperties":
        return [(items[0], inverse(items[1])), (inverse(items[1]), items[0])]
    return [(items[0], inverse(items[0]))] if keyword == "SymmetricObjectProperty" else []


def spoken_of(axiom):
    """The named roles of whose inverse an axiom speaks."""
    return set(map(base, axiom.items)) if axiom.keyword in OF_INVERSES else inverses_within(axiom.items)


def inverses_within(of):
    found = set()
    for item in of:
        if isinstance(item, tuple):
            found |= {item[1]} if item[0] == "inverse" else inverses_within(item)
    return found


def of_inclusion(context, axiom):
    """`SubObjectPropertyOf(r s)`, and the inverse of r in the inverse of s."""
    for sub, sup in inclusions(axiom):
        yield from both_ways(context, "SubObjectPropertyOf", (sub, sup), axiom.line)


def of_equivalence(context, axiom):
    """`EquivalentObjectProperties(r s ..)`, and the same of the inverses."""
    if len(set(axiom.items)) > 1:
        yield from both_ways(context, "EquivalentObjectProperties", tuple(dict.fromkeys(axiom.items)), axiom.line)


def of_inverses(context, axiom):
    """`InverseObjectProperties(r s)`: r is the inverse of s, and the other way."""
    one, other = axiom.items
    context.lose(Loss.INVERSE)
    yield from both_ways(context, "EquivalentObjectProperties", (one, inverse(other)), axiom.line)


def of_symmetric(context, axiom):
    """`SymmetricObjectProperty(r)`: r is its inverse."""
    role = axiom.items[0]
    names = (context.roles.name(role), context.roles.name(inverse(role)))
    context.lose(Loss.INVERSE)
    yield Axiom("EquivalentObjectProperties", names, axiom.line)


def of_transitive(context, axiom):
    """`TransitiveObjectProperty(r)`, and the same of the inverse."""
    yield from both_ways(context, "TransitiveObjectProperty", axiom.items, axiom.line)


def of_chain(context, axiom):
    """`r r` in r: r is transitive. This loses nothing."""
    yield from both_ways(context, "TransitiveObjectProperty", axiom.items[1:], axiom.line)


def is_transitivity(axiom):
    """Whether an axiom on a chain says that a role is transitive."""
    chain, sup = axiom.items
    return chain[1] == (sup, sup)


def both_ways(context, keyword, roles, line):
    """An axiom on some roles, and the same on their inverses where all of them have one."""
    yield Axiom(keyword, tuple(map(context.roles.name, roles)), line)
    if all(map(context.roles.has_inverse, roles)):
        yield Axiom(keyword, tuple(context.roles.name(inverse(it)) for it in roles), line)


def of_functional(context, axiom):
    """`FunctionalObjectProperty(r)`, where r can be counted."""
    name = context.roles.name(axiom.items[0])
    if name in context.not_simple:
        context.lose(Loss.COUNTED)
    else:
        yield Axiom("FunctionalObjectProperty", (name,), axiom.line)


def of_inverse_functional(context, axiom):
    """`InverseFunctionalObjectProperty(r)`: the inverse of r is functional. So individuals that lead to the same one by
    assertions are the same.
    """
    context.lose(Loss.INVERSE_FUNCTIONAL)
    yield from of_functional(context, axiom._replace(items=(inverse(axiom.items[0]),)))


def of_pair(context, axiom):
    """`ObjectPropertyAssertion(r a b)`: a leads to b by r, and b to a by the inverse."""
    role, one, other = axiom.items
    one, other = context.individual(one), context.individual(other)
    yield Axiom("ObjectPropertyAssertion", (context.roles.name(role), one, other), axiom.line)
    for name in context.roles.inverses_of(role):
        yield Axiom("ObjectPropertyAssertion", (name, other, one), axiom.line)


def normal_pair(axiom):
    """An assertion on an inverse as one on the role."""
    role, one, other = axiom.items
    return axiom if isinstance(role, str) else axiom._replace(items=(role[1], other, one))
