"""Concepts in negation normal form, by number, and what is said of roles.

A shape is a tuple of a kind and what stands in it, names and concepts by their numbers: `("and", 4, 6)`, `("least", 2,
role, 4)`. A shape and that of its complement get the numbers 2 N and 2 N + 1, so `K ^ 1` is the complement of K.
"""
from collections import defaultdict
from functools import cache

TOP, BOTTOM = 0, 1
OTHER = {"top": "bottom", "name": "not", "and": "or", "some": "all", "least": "most"}
OTHER.update({other: kind for kind, other in OTHER.items()})


class Concepts:
    """A table of concepts: each shape has one number."""

    def __init__(self):
        self.shapes, self.numbers = [], {}
        self.number(("top",))

    def number(self, shape):
        """The number of a shape that is in normal form."""
        if shape not in self.numbers:
            for one in (shape, self.complement(*shape)):
                self.numbers[one] = len(self.shapes)
                self.shapes.append(one)
        return self.numbers[shape]

    def complement(self, kind, *rest):
        """The shape of the complement."""
        if kind in ("and", "or"):
            return (OTHER[kind], *(it ^ 1 for it in rest))
        if kind in ("some", "all"):
            return (OTHER[kind], rest[0], rest[1] ^ 1)
        if kind in ("least", "most"):
            return (OTHER[kind], rest[0] + (1 if kind == "most" else -1), *rest[1:])
        return (OTHER[kind], *rest)

    def conjuncts(self, concept):
        """The parts of an intersection, none of `top`, and of anything else itself."""
        kind, *parts = self.shapes[concept]
        return parts if kind in ("and", "top") else [concept]

    def intersection(self, *members):
        """The intersection: parts that are intersections are opened, `top` is left out, `bottom` takes all."""
        parts = [part for member in members for part in self.conjuncts(member)]
        if BOTTOM in parts:
            return BOTTOM
        return self.number(("and", *parts)) if len(parts) > 1 else parts[0] if parts else TOP

    def union(self, *members):
        """The union, as the complement of an intersection of complements."""
        return self.intersection(*(it ^ 1 for it in members)) ^ 1

    def at_least(self, count, role, filler):
        if count < 2:
            return self.number(("some", role, filler)) if count else TOP
        return self.number(("least", count, role, filler))

    def at_most(self, count, role, filler):
        return self.at_least(count + 1, role, filler) ^ 1


class Roles:
    """What axioms say of roles: which ones are transitive, and which are below others, directly or by a chain."""

    def __init__(self, axioms):
        self.transitive = {role for it in axioms if it.kind == "transitive" for (role,) in it.said}
        self.directly_above, self.above = defaultdict(set), cache(self.found_above)
        for lower, upper in (both for it in axioms if it.kind == "below" for both in it.said):
            self.directly_above[lower].add(upper)

    def found_above(self, *roles):
        """The roles that some of these are below, themselves among them."""
        found, left = set(roles), list(roles)
        while left:
            new = self.directly_above[left.pop()] - found
            found |= new
            left += new
        return found
