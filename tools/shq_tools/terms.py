"""Class expressions and axioms, as plain values.

A class expression is a tuple that begins with its kind: `("top",)`, `("bottom",)`, `("name", iri)`, `("not", class)`,
`("and", classes)`, `("or", classes)`, `("some", role, class)`, `("all", role, class)`, and with a number `("least",
n, role, class)`, `("most", n, role, class)`, `("exactly", n, role, class)`. Roles and individuals are IRIs, and
`classes` is a tuple.
"""
from dataclasses import dataclass

TOP = ("top",)
BOTTOM = ("bottom",)


@dataclass(frozen=True)
class Axiom:
    """A numbered axiom: its keyword, its classes, roles and individuals in order, its line, and its number where it
    has one.
    """

    keyword: str
    items: tuple
    line: int
    number: int = 0


def inner_classes(expression):
    """The class expressions directly inside of one."""
    kind = expression[0]
    if kind in ("and", "or"):
        return expression[1]
    return (expression[-1],) if kind in ("not", "some", "all", "least", "most", "exactly") else ()


def counted_roles(expression):
    """The roles over which a class expression has numbers."""
    found, left = set(), [expression]
    while left:
        one = left.pop()
        left += inner_classes(one)
        if one[0] in ("least", "most", "exactly"):
            found.add(one[2])
    return found


def classes_of(axiom):
    """The class expressions that stand in an axiom."""
    return [it for it in axiom.items if isinstance(it, tuple)]


def roles_counted_by(axiom):
    """The roles that an axiom counts."""
    found = set().union(*map(counted_roles, classes_of(axiom)))
    return found | ({axiom.items[0]} if axiom.keyword == "FunctionalObjectProperty" else set())


class RoleBox:
    """Which role is below which, and which are transitive, by the role axioms."""

    def __init__(self, axioms):
        self.above = {}
        self.transitive = set()
        for axiom in axioms:
            self.add(axiom)

    def add(self, axiom):
        if axiom.keyword == "SubObjectPropertyOf":
            self.put(*axiom.items)
        if axiom.keyword == "EquivalentObjectProperties":
            for one, other in zip(axiom.items, axiom.items[1:] + axiom.items[:1]):
                self.put(one, other)
        if axiom.keyword == "TransitiveObjectProperty":
            self.transitive.add(axiom.items[0])

    def put(self, below, above):
        self.above.setdefault(below, set()).add(above)

    def all_above(self, role):
        """The role, and all roles above it."""
        found, left = {role}, [role]
        while left:
            new = self.above.get(left.pop(), set()) - found
            found |= new
            left += new
        return found

    def not_simple(self):
        """The roles that have a transitive role below them."""
        return set().union(*map(self.all_above, self.transitive))
