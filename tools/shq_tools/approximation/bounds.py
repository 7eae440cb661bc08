"""Class expressions of the language around those of OWL 2.

Where a class expression stands as a superclass it may grow: there stands one that contains it. Where it stands as a
subclass it may shrink: there stands one that it contains. A complement turns one into the other.
"""
from shq_tools.approximation.losses import Loss
from shq_tools.approximation.owl import BOTTOM_ROLE, TOP_ROLE
from shq_tools.terms import BOTTOM, TOP
from shq_tools.walk import MOST_NUMBER


class Bounds:
    """Bounds of class expressions, with the names of a translation."""

    def __init__(self, context):
        self.context = context

    def above(self, of):
        """A class expression of the language that contains this one."""
        return self.bound(of, True)

    def below(self, of):
        """A class expression of the language that this one contains."""
        return self.bound(of, False)

    def bound(self, of, grows):
        kind = of[0]
        if kind in ("top", "bottom", "name"):
            return of
        if kind == "not":
            return negated(self.bound(of[1], not grows))
        if kind in ("and", "or"):
            return joined(kind, [self.bound(it, grows) for it in of[1]])
        if kind == "one of":
            return joined("or", [self.context.nominals.class_of(it) for it in of[1]])
        if kind == "value":
            return self.value(of)
        if kind == "self":
            return self.context.selves.class_of(of[1])
        if kind.startswith("data"):
            return self.context.data.bound(of, grows)
        return self.over_roles(of, grows)

    def over_roles(self, of, grows):
        """A bound of a restriction. What fills it grows with it, but under `most`, where it shrinks."""
        kind, role = of[0], of[-2]
        if role in (TOP_ROLE, BOTTOM_ROLE):
            return self.over_special(of, grows)
        if kind in ("some", "all"):
            return self.restriction(kind, role, self.bound(of[2], grows))
        if kind == "exactly":
            return self.exactly(of, grows)
        filler = self.bound(of[3], grows == (kind == "least"))
        return self.number(kind, of[1], self.context.roles.name(role), filler, grows)

    def value(self, of):
        """What leads to an individual: everything by `owl:topObjectProperty`, and nothing by its opposite."""
        _, role, individual = of
        if role in (TOP_ROLE, BOTTOM_ROLE):
            return TOP if role == TOP_ROLE else BOTTOM
        return self.restriction("some", role, self.context.nominals.class_of(individual))

    def restriction(self, kind, role, filler):
        if filler == (BOTTOM if kind == "some" else TOP):
            return filler
        return (kind, self.context.roles.name(role), filler)

    def exactly(self, of, grows):
        """Both numbers, each with the bound that it needs; as it is where both bounds are the same."""
        _, number, role, filler = of
        name, bounds = self.context.roles.name(role), {self.bound(filler, it) for it in (True, False)}
        if len(bounds) == 1 and number <= MOST_NUMBER and name not in self.context.not_simple:
            return ("exactly", number, name, bounds.pop())
        both = ("least", number, role, filler), ("most", number, role, filler)
        return joined("and", [self.over_roles(it, grows) for it in both])

    def number(self, kind, number, role, filler, grows):
        """A bound of a number restriction over a role of the language.

        A role that is not simple cannot be counted, and no number above a limit can be written. At least n says at
        least one, and at most none says at most n. Where that does not follow in the direction that is asked for,
        `owl:Thing` or `owl:Nothing` stands there.
        """
        if kind == "least" and number <= 1:
            return TOP if number == 0 else joined_some(role, filler)
        if kind == "most" and number == 0:
            return negated(joined_some(role, filler))
        if role in self.context.not_simple:
            self.context.lose(Loss.COUNTED)
            if kind == "least":
                return joined_some(role, filler) if grows else BOTTOM
            return TOP if grows else negated(joined_some(role, filler))
        if number > MOST_NUMBER:
            self.context.lose(Loss.BEYOND_LIMITS)
            if grows == (kind == "most"):
                return TOP if grows else BOTTOM
            number = MOST_NUMBER
        return (kind, number, role, filler)

    def over_special(self, of, grows):
        """A bound of a restriction of the role that leads everywhere, or nowhere.

        No pair is in `owl:bottomObjectProperty`, so such a restriction is `owl:Thing` or `owl:Nothing`. Each element
        leads to itself by `owl:topObjectProperty`, so what is in C is in `some C`, and what is in `all C` is in C.
        """
        kind, number = of[0], {"some": 1, "all": 0}.get(of[0], of[1])
        if of[-2] == BOTTOM_ROLE:
            is_all = kind in ("all", "most") or number == 0
            return TOP if is_all else BOTTOM
        if (kind == "least" and number == 0) or (kind == "some" and of[-1] == TOP):
            return TOP
        self.context.lose(Loss.TOP_ROLE)
        if kind in ("some", "least") and number == 1 and not grows:
            return self.bound(of[-1], grows)
        if kind == "all" and grows:
            return self.bound(of[-1], grows)
        return TOP if grows else BOTTOM


def negated(of):
    """The complement of a class expression."""
    if of[0] == "not":
        return of[1]
    return {TOP: BOTTOM, BOTTOM: TOP}.get(of, ("not", of))


def joined(kind, parts):
    """The intersection or union of some class expressions, without those that say nothing there."""
    least, greatest = (TOP, BOTTOM) if kind == "and" else (BOTTOM, TOP)
    if greatest in parts:
        return greatest
    parts = tuple(dict.fromkeys(it for it in parts if it != least))
    if len(parts) > 1:
        return (kind, parts)
    return parts[0] if parts else least


def joined_some(role, filler):
    return BOTTOM if filler == BOTTOM else ("some", role, filler)
