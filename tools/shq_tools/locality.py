"""Which axioms can matter for a question: those that are not local for its names.

An axiom is local for some names where it holds whenever everything else is empty. What follows about these names
follows without it. So all axioms of a reason are met by beginning with the names of the question and taking in what is
not local, with its names, until nothing is.
"""
from shq_tools.arguments import names_in, names_of_axiom

ALWAYS_MATTERS = {"ObjectPropertyAssertion", "SameIndividual", "DifferentIndividuals"}


def is_empty(expression, names):
    """Whether a class expression surely has no member where all but these names are empty."""
    kind = expression[0]
    if kind == "name":
        return expression[1] not in names
    if kind == "not":
        return is_full(expression[1], names)
    if kind in ("and", "or"):
        found = (is_empty(it, names) for it in expression[1])
        return any(found) if kind == "and" else all(found)
    if kind == "some" or kind in ("least", "exactly") and expression[1] > 0:
        return leads_nowhere(expression, names)
    return kind == "bottom"


def is_full(expression, names):
    """Whether a class expression surely holds everything where all but these names are empty."""
    kind = expression[0]
    if kind == "not":
        return is_empty(expression[1], names)
    if kind in ("and", "or"):
        found = (is_full(it, names) for it in expression[1])
        return all(found) if kind == "and" else any(found)
    if kind == "all":
        return expression[1] not in names or is_full(expression[2], names)
    if kind == "most" or kind == "exactly" and expression[1] == 0:
        return leads_nowhere(expression, names)
    return kind == "top" or kind == "least" and expression[1] == 0


def leads_nowhere(expression, names):
    """Whether the role of a restriction, or the class to which it leads, is surely empty."""
    return expression[-2] not in names or is_empty(expression[-1], names)


def is_local(axiom, names):
    """Whether an axiom holds whenever all but these names are empty."""
    items, keyword = axiom.items, axiom.keyword
    if keyword in ALWAYS_MATTERS:
        return False
    if keyword == "ClassAssertion":
        return is_full(items[0], names)
    if keyword == "SubClassOf":
        return is_empty(items[0], names) or is_full(items[1], names)
    if keyword == "EquivalentClasses":
        return all(is_empty(it, names) for it in items) or all(is_full(it, names) for it in items)
    if keyword == "DisjointClasses":
        return sum(not is_empty(it, names) for it in items) <= 1
    if keyword == "DisjointUnion":
        return all(is_empty(it, names) for it in items)
    if keyword in ("ObjectPropertyDomain", "ObjectPropertyRange"):
        return items[0] not in names or is_full(items[1], names)
    if keyword == "EquivalentObjectProperties":
        return not names.intersection(items)
    return items[0] not in names


def module(axioms, query):
    """The axioms that can matter for a question, a pair of class expressions and an individual or None."""
    sub, sup, individual = query
    names = names_in(sub) | names_in(sup) | ({individual} - {None})
    found, left, is_changed = [], list(axioms), True
    while is_changed:
        new = [it for it in left if not is_local(it, names)]
        left = [it for it in left if is_local(it, names)]
        found += new
        names = names.union(*map(names_of_axiom, new))
        is_changed = bool(new)
    return found
