"""Finite interpretations, and what is true in them (OWL 2 Direct Semantics, sections 2.2 and 2.3).

The elements in a concept are a set, or those outside of one. So elements of which no line speaks stand in no set.
"""
from collections import defaultdict
from functools import cache

NOTHING = frozenset()


class Interpretation:
    """An interpretation: its size, the elements of classes, the pairs of roles, and of each individual its element."""

    def __init__(self, reader, size, classes, roles, individuals):
        self.reader, self.size, self.classes, self.members = reader, size, classes, cache(self.members_of)
        self.element = defaultdict(int, {one: element for one, (element,) in individuals.items()})
        self.after = defaultdict(dict)  # for each role and each element that has successors, the set of these
        for role, pairs in roles.items():
            for one, other in pairs:
                self.after[role].setdefault(one, set()).add(other)

    def in_all(self, *concepts):
        """The elements that are in all of some concepts."""
        told = [self.members(it) for it in concepts]
        inside = [elements for elements, are_outside in told if not are_outside]
        outside = NOTHING.union(*(elements for elements, are_outside in told if are_outside))
        return (inside[0].intersection(*inside) - outside, False) if inside else (outside, True)

    def members_of(self, concept):
        """The elements in a concept; those of some kinds are the elements outside of the complement."""
        kind, *rest = self.reader.concepts.shapes[concept]
        if kind in ("bottom", "not", "or", "all", "most"):
            elements, are_outside = self.members(concept ^ 1)
            return elements, not are_outside
        if kind in ("top", "name"):
            return frozenset(self.classes.get(rest[0], ()) if rest else ()), kind == "top"
        if kind == "and":
            return self.in_all(*rest)
        count, role, filler = rest if kind == "least" else (1, *rest)
        counts = {one: sum(self.has(it, filler) for it in all_) for one, all_ in self.after[role].items()}
        return frozenset(one for one in counts if counts[one] >= count), False

    def has(self, element, concept):
        elements, are_outside = self.members(concept)
        return (element in elements) != are_outside

    def is_part(self, lower, upper):
        """Whether no element is in a concept and in the complement of another one."""
        elements, are_outside = self.in_all(lower, upper ^ 1)
        return len(elements) == (self.size if are_outside else 0)

    def meets(self, axiom):
        return all(MEETS[axiom.kind](self, *it) for it in axiom.said)

    def fault(self, query, left_out=()):
        """Which axiom is not met of those that are not left out, or that the query is not refuted, or None."""
        unmet = (at for at, it in enumerate(self.reader.axioms, 1) if at not in left_out and not self.meets(it))
        return next((f"axiom {it}" for it in unmet), "query" if self.meets(query) else None)


# Whether an interpretation meets what an axiom of a kind says.
MEETS = {
    "part": Interpretation.is_part,
    "range": lambda it, role, filler: all(it.has(one, filler) for all_ in it.after[role].values() for one in all_),
    "below": lambda it, role, upper: all(all_ <= it.after[upper].get(a, NOTHING) for a, all_ in it.after[role].items()),
    "transitive": lambda it, r: all(it.after[r].get(b, NOTHING) <= all_ for all_ in it.after[r].values() for b in all_),
    "in": lambda it, concept, one: it.has(it.element[one], concept),
    "edge": lambda it, role, one, other: it.element[other] in it.after[role].get(it.element[one], NOTHING),
    "same": lambda it, _, one, other: it.element[one] == it.element[other],
    "apart": lambda it, _, one, other: it.element[one] != it.element[other],
}
