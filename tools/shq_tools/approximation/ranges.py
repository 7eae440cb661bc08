"""What is certain of data ranges: which values they have, which is a part of which, how many values there are."""
from functools import lru_cache

from shq_tools.approximation.literals import INTEGERS, are_different, are_same, canonical, value_of
from shq_tools.approximation.owl import PLAIN_LITERAL, STRING, TOP_RANGE, XSD
from shq_tools.keywords import OWL

NUMBERS = {XSD + "decimal", OWL + "real", OWL + "rational"}
SPACES = {XSD + "boolean": "boolean", STRING: "string", PLAIN_LITERAL: "string"}
# Value spaces of which nothing more is known than that they have no value in common with the others.
OTHERS = ["float", "double", "hexBinary", "base64Binary", "anyURI", "dateTime"]
BOUNDS = {
    XSD + "minInclusive": lambda value, bound: value >= bound,
    XSD + "maxInclusive": lambda value, bound: value <= bound,
    XSD + "minExclusive": lambda value, bound: value > bound,
    XSD + "maxExclusive": lambda value, bound: value < bound,
}


def space_of(datatype):
    """The value space that a datatype is a part of, or None where it is not known."""
    if datatype in INTEGERS or datatype in NUMBERS:
        return "number"
    if datatype in SPACES:
        return SPACES[datatype]
    name = datatype[len(XSD) :] if datatype.startswith(XSD) else ""
    return name if name in OTHERS else None


def normal(of):
    """The range with complements of names alone, intersections and unions without doubles, in a fixed order."""
    kind = of[0]
    if kind == "not":
        inner = normal(of[1])
        return inner[1] if inner[0] == "not" else negated(inner)
    if kind in ("and", "or"):
        parts = []
        for part in map(normal, of[1]):
            parts += part[1] if part[0] == kind else [part]
        parts = sorted(set(parts), key=repr)
        return parts[0] if len(parts) == 1 else (kind, tuple(parts))
    if kind == "values":
        return ("values", tuple(sorted(set(map(canonical, of[1])))))
    return of


def negated(of):
    """The complement of a range in normal form, in normal form."""
    if of[0] in ("and", "or"):
        return normal(("or" if of[0] == "and" else "and", tuple(negated(it) for it in of[1])))
    return of[1] if of[0] == "not" else ("not", of)


@lru_cache(maxsize=1 << 16)
def has(of, literal):
    """Whether a value is in a range: True, False, or None where it is not certain."""
    kind = of[0]
    if of == TOP_RANGE:
        return True
    if kind == "not":
        inner = has(of[1], literal)
        return None if inner is None else not inner
    if kind in ("and", "or"):
        return joined([has(it, literal) for it in of[1]], kind == "and")
    if kind == "values":
        if any(are_same(it, literal) for it in of[1]):
            return True
        return False if all(are_different(it, literal) for it in of[1]) else None
    if kind == "restricted":
        return joined([in_datatype(of[1], literal), *(in_facet(one, bound, literal) for one, bound in of[2])], True)
    return in_datatype(of[1], literal)


def joined(found, is_all):
    """What is certain of all, or of one, of some answers."""
    if (not is_all) in found:
        return not is_all
    return None if None in found else is_all


def in_datatype(datatype, literal):
    value = value_of(literal)
    if value is None:
        return None
    if datatype in INTEGERS:
        least, greatest = INTEGERS[datatype]
        if value.space != "number" or value.of.denominator != 1:
            return False
        return (least is None or value.of >= least) and (greatest is None or value.of <= greatest)
    if datatype == STRING:
        return value.space == "string" and not value.of[1]
    space = space_of(datatype)
    return None if space is None else value.space == space


def in_facet(facet, bound, literal):
    value, limit = value_of(literal), value_of(bound)
    if facet not in BOUNDS or value is None or limit is None or limit.space != "number":
        return None
    return BOUNDS[facet](value.of, limit.of) if value.space == limit.space else False


def parts(of, kind):
    return of[1] if of[0] == kind else (of,)


@lru_cache(maxsize=1 << 16)
def is_part(one, other):
    """Whether all values of a range in normal form are certain to be in another one."""
    if one == other or other == TOP_RANGE or one == negated(TOP_RANGE):
        return True
    if one[0] == "values":
        return all(has(other, it) is True for it in one[1])
    if one[0] == "or":
        return all(is_part(it, other) for it in one[1])
    if other[0] == "and":
        return all(is_part(one, it) for it in other[1])
    if other[0] == "not" and one[0] != "not":
        return are_apart(one, other[1])
    if one[0] == "not" and other[0] == "not":
        return is_part(other[1], one[1])
    if one[0] == "and":
        return any(is_part(it, other) for it in one[1]) or is_empty(one)
    if other[0] == "or":
        return any(is_part(one, it) for it in other[1])
    return is_plain_part(one, other)


@lru_cache(maxsize=1 << 16)
def are_apart(one, other):
    """Whether two ranges in normal form are certain to have no value in common."""
    for this, that in ((one, other), (other, one)):
        if this[0] == "values":
            return all(has(that, it) is False for it in this[1])
        if this[0] == "not" and (this[1] == TOP_RANGE or is_part(that, this[1])):
            return True
        if this[0] == "or":
            return all(are_apart(it, that) for it in this[1])
        if this[0] == "and":
            return any(are_apart(it, that) for it in this[1]) or is_empty(this)
    if one[0] == "not" or other[0] == "not":
        return False
    spaces = space_of(one[1]), space_of(other[1])
    if None not in spaces and spaces[0] != spaces[1]:
        return True
    return None not in (interval(one), interval(other)) and not leaves_any(interval(one), interval(other))


@lru_cache(maxsize=1 << 16)
def is_empty(of):
    """Whether a range in normal form is certain to have no value."""
    if of[0] == "and":
        return any(are_apart(one, other) for at, one in enumerate(of[1]) for other in of[1][at + 1 :])
    if of[0] == "or":
        return all(map(is_empty, of[1]))
    if of[0] == "restricted" and interval(of) is not None:
        return not leaves_any(interval(of), interval(of))
    return of == ("not", TOP_RANGE)


def is_plain_part(one, other):
    """The same of two datatypes or restrictions of them."""
    if not {one[0], other[0]} <= {"datatype", "restricted"}:
        return False
    if other[0] == "datatype":
        # a restriction is a part of its datatype, whatever its facets say
        return one[1] == other[1] or is_datatype_part(one[1], other[1]) or lies_within(one, other)
    return lies_within(one, other)


def is_datatype_part(one, other):
    if one in INTEGERS and other in NUMBERS:
        return True
    if one == XSD + "decimal" and other in (OWL + "rational", OWL + "real"):
        return True
    return (one, other) in {(OWL + "rational", OWL + "real"), (STRING, PLAIN_LITERAL)}


class Interval:
    """Numbers: whether all are integers, the least and the greatest, and whether these are in."""

    def __init__(self, is_integer, least=None, greatest=None):
        self.is_integer = is_integer
        self.least, self.has_least = least, True
        self.greatest, self.has_greatest = greatest, True

    def bound_below(self, number, is_in):
        if self.least is None or number > self.least or (number == self.least and not is_in):
            self.least, self.has_least = number, is_in

    def bound_above(self, number, is_in):
        if self.greatest is None or number < self.greatest or (number == self.greatest and not is_in):
            self.greatest, self.has_greatest = number, is_in


def interval(of):
    """The interval of numbers that a datatype or a restriction is, or None where it is none or more is said of it."""
    if space_of(of[1]) != "number" or of[1] == OWL + "rational":
        return None
    found = Interval(of[1] in INTEGERS, *INTEGERS.get(of[1], (None, None)))
    for facet, literal in of[2] if of[0] == "restricted" else ():
        bound = value_of(literal)
        if facet not in BOUNDS or bound is None or bound.space != "number":
            return None
        if "min" in facet[len(XSD) :]:
            found.bound_below(bound.of, facet.endswith("Inclusive"))
        else:
            found.bound_above(bound.of, facet.endswith("Inclusive"))
    return found


def leaves_any(one, other):
    """Whether there may be a number in both of two intervals."""
    both = Interval(one.is_integer or other.is_integer)
    for it in (one, other):
        if it.least is not None:
            both.bound_below(it.least, it.has_least)
        if it.greatest is not None:
            both.bound_above(it.greatest, it.has_greatest)
    if None in (both.least, both.greatest):
        return True
    if both.is_integer:
        least = -(-both.least // 1)
        least += not both.has_least and least == both.least
        greatest = both.greatest // 1
        greatest -= not both.has_greatest and greatest == both.greatest
        return least <= greatest
    return both.least < both.greatest or (both.least == both.greatest and both.has_least and both.has_greatest)


def lies_within(one, other):
    """Whether the numbers of one datatype or restriction are certain to be among those of another one."""
    inner, outer = interval(one), interval(other)
    if inner is None or outer is None or (outer.is_integer and not inner.is_integer):
        return False
    # a decimal that is no number of this datatype may lie between the bounds
    if not outer.is_integer and not is_number_part(one[1], other[1]):
        return False
    return is_above(inner, outer) and is_below(inner, outer)


def is_number_part(one, other):
    return one == other or is_datatype_part(one, other)


def is_above(inner, outer):
    if outer.least is None:
        return True
    if inner.least is None:
        return False
    return inner.least > outer.least or (inner.least == outer.least and (outer.has_least or not inner.has_least))


def is_below(inner, outer):
    if outer.greatest is None:
        return True
    if inner.greatest is None:
        return False
    same = inner.greatest == outer.greatest
    return inner.greatest < outer.greatest or (same and (outer.has_greatest or not inner.has_greatest))


def has_fewer(of, number):
    """Whether a range in normal form is certain to have fewer values than a number."""
    if of[0] == "values":
        return len(of[1]) < number
    if of == ("datatype", XSD + "boolean"):
        return number > 2
    if of[0] == "and":
        return is_empty(of) or any(has_fewer(it, number) for it in of[1])
    return is_empty(of)
