"""Disjoint and asymmetric roles, where assertions clash with them.

Both are said of the individuals alone that roles lead to by assertions: of the others the language cannot say it.
"""
from itertools import combinations

from shq_tools.approximation.owl import inverse
from shq_tools.terms import Axiom


class Pairs:
    """The pairs of individuals that a role leads from and to, by assertions and inclusions of roles."""

    def __init__(self, assertions, inclusions):
        self.below, self.asserted = {}, {}
        for sub, sup in inclusions:
            self.below.setdefault(sup, set()).add(sub)
            self.below.setdefault(inverse(sup), set()).add(inverse(sub))
        for role, one, other in assertions:
            self.asserted.setdefault(role, set()).add((one, other))
            self.asserted.setdefault(inverse(role), set()).add((other, one))

    def of(self, role):
        found, left, pairs = {role}, [role], set()
        while left:
            one = left.pop()
            pairs |= self.asserted.get(one, set())
            new = self.below.get(one, set()) - found
            found |= new
            left += new
        return pairs


def of_disjoint(context, axiom, pairs):
    """`DisjointObjectProperties(r s ..)`, where r and s lead to b from the same individual: what leads to {b} by r does
    not lead to {b} by s.
    """
    for one, other in combinations(axiom.items, 2):
        for individual in sorted({to for _, to in pairs.of(one) & pairs.of(other)}):
            of = context.nominals.class_of(individual)
            sub = ("some", context.roles.name(one), of)
            sup = ("all", context.roles.name(other), ("not", of))
            yield Axiom("SubClassOf", (sub, sup), axiom.line)


def of_asymmetric(context, axiom, pairs):
    """`AsymmetricObjectProperty(r)`, where r leads from a to b and from b to a: what {a} leads to by r is not b, or
    does not lead back to {a}.
    """
    role = axiom.items[0]
    name = context.roles.name(role)
    there = pairs.of(role)
    for one, other in sorted(it for it in there if it[::-1] in there and it[0] < it[1]):
        here, beyond = context.nominals.class_of(one), context.nominals.class_of(other)
        back = ("or", (("not", beyond), ("all", name, ("not", here))))
        yield Axiom("SubClassOf", (here, ("all", name, back)), axiom.line)
