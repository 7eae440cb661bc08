"""Inverse roles.

An inverse that is needed is a new role, which leads back where its role leads. What is said of a role is said of its
inverse backwards: inclusions, transitivity, and a domain for a range. By definition this follows from the same axiom.
"""
from shq_tools.approximation.owl import base, inverse


class RoleNames:
    """The names of roles and of their inverses."""

    def __init__(self, names):
        self.names = names
        # the new name of the inverse of each role that has one
        self.inverses = {}
        self.meanings = {}

    def need(self, roles):
        """Makes the inverses of some named roles."""
        for role in roles:
            if role not in self.inverses:
                self.inverses[role] = self.names.inverse(role)
                self.meanings[self.inverses[role]] = inverse(role)

    def name(self, role):
        """The name of a role, or of an inverse."""
        return role if isinstance(role, str) else self.inverses[role[1]]

    def meaning(self, name):
        """The role of OWL 2 that a name of the language means."""
        return self.meanings.get(name, name)

    def has_inverse(self, role):
        return base(role) in self.inverses

    def inverses_of(self, role):
        """The name of the inverse of a role, where it has one."""
        return [self.name(inverse(role))] if self.has_inverse(role) else []


def roles_with_inverses(spoken_of, inclusions, asserted, chains=()):
    """The named roles that need an inverse.

    They are those of whose inverse is spoken, those below them of which there are assertions, and all that are above
    one of these: `inclusions` has pairs of roles. A chain into such a role can be gone backwards where each role in it
    has an inverse too; and where all of them have one, there is one for the role into which they lead.
    """
    above, below = {}, {}
    for sub, sup in inclusions:
        above.setdefault(base(sub), set()).add(base(sup))
        below.setdefault(base(sup), set()).add(base(sub))
    found = reached(set(spoken_of) | (reached(spoken_of, below) & asserted), above)
    count = -1
    while count != len(found):
        count = len(found)
        for axiom in chains:
            parts, sup = set(map(base, axiom.items[0][1])), base(axiom.items[1])
            if sup in found or parts <= found:
                found = reached(found | parts | {sup}, above)
    return found


def reached(names, after):
    """The names, and all that are reached from them."""
    found, left = set(names), list(names)
    while left:
        new = after.get(left.pop(), set()) - found
        found |= new
        left += new
    return found
