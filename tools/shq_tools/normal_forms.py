"""Negation normal form, and what a row of an axiom adds, as the format of refutations has them."""
from shq_tools.terms import BOTTOM, TOP


def joined(kind, members):
    """An intersection (`and`) or union (`or`) of members in normal form."""
    empty, full = (TOP, BOTTOM) if kind == "and" else (BOTTOM, TOP)
    parts = []
    for member in members:
        parts += member[1] if member[0] == kind else (member,)
    parts = [it for it in parts if it != empty]
    if full in parts:
        return full
    if len(parts) > 1:
        return (kind, tuple(parts))
    return parts[0] if parts else empty


def normal(expression):
    """The normal form of a class expression."""
    kind = expression[0]
    if kind in ("top", "bottom", "name"):
        return expression
    if kind == "not":
        return complement(expression[1])
    if kind in ("and", "or"):
        return joined(kind, map(normal, expression[1]))
    if kind in ("some", "all"):
        return (kind, expression[1], normal(expression[2]))
    return normal_bound(*expression)


def normal_bound(kind, number, role, filler):
    if kind == "exactly":
        return joined("and", [normal_bound(it, number, role, filler) for it in ("least", "most")])
    if kind == "least" and number < 2:
        return TOP if number == 0 else ("some", role, normal(filler))
    if kind == "most" and number == 0:
        return ("all", role, complement(filler))
    return (kind, number, role, normal(filler))


def complement(expression):
    """The normal form of the complement of a class expression."""
    kind = expression[0]
    if kind in ("top", "bottom"):
        return BOTTOM if kind == "top" else TOP
    if kind == "name":
        return ("not", expression)
    if kind == "not":
        return normal(expression[1])
    if kind in ("and", "or"):
        return joined("or" if kind == "and" else "and", map(complement, expression[1]))
    if kind in ("some", "all"):
        return ("all" if kind == "some" else "some", expression[1], complement(expression[2]))
    return complement_of_bound(*expression)


def complement_of_bound(kind, number, role, filler):
    if kind == "exactly":
        return joined("or", [complement_of_bound(it, number, role, filler) for it in ("least", "most")])
    if kind == "least":
        return BOTTOM if number == 0 else normal_bound("most", number - 1, role, filler)
    return normal_bound("least", number + 1, role, filler)


def disjoint_parts(classes):
    return [(one, ("not", other)) for at, one in enumerate(classes) for other in classes[at + 1 :]]


def parts(axiom):
    """The inclusions that an axiom is made of, in order, as pairs of class expressions. That of a range is None."""
    items, keyword = axiom.items, axiom.keyword
    if keyword == "SubClassOf":
        return [(items[0], items[1])]
    if keyword == "EquivalentClasses":
        return list(zip(items, items[1:] + items[:1]))
    if keyword == "DisjointClasses":
        return disjoint_parts(items)
    if keyword == "DisjointUnion":
        whole, classes = items[0], items[1:]
        return [(whole, ("or", classes)), *((it, whole) for it in classes), *disjoint_parts(classes)]
    if keyword == "ObjectPropertyDomain":
        return [(("some", items[0], TOP), items[1])]
    if keyword == "ObjectPropertyRange":
        return [None]
    return [(TOP, ("most", 1, items[0], TOP))] if keyword == "FunctionalObjectProperty" else []


def conjuncts(expression):
    """The conjuncts of the left side of an inclusion."""
    whole = normal(expression)
    if whole == TOP:
        return ()
    return whole[1] if whole[0] == "and" else (whole,)


def row(axiom, part, positions):
    """The names that a row needs, and what it adds, where the conjuncts at these positions hold."""
    left, right = parts(axiom)[part - 1]
    members = conjuncts(left)
    needed = [members[at - 1] for at in positions]
    rest = [complement(it) for at, it in enumerate(members, 1) if at not in positions]
    return needed, joined("or", [*rest, normal(right)])


def facts(axiom):
    """The facts of an assertion, in order: a kind (`is`, `leads`, `same` or `apart`) and its operands."""
    items, keyword = axiom.items, axiom.keyword
    if keyword == "ClassAssertion":
        return [("is", items[1], normal(items[0]))]
    if keyword == "ObjectPropertyAssertion":
        return [("leads", *items)]
    if keyword == "SameIndividual":
        return [("same", *it) for it in zip(items, items[1:])]
    if keyword == "DifferentIndividuals":
        return [("apart", one, other) for at, one in enumerate(items) for other in items[at + 1 :]]
    return []
