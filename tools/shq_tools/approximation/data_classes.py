"""Data.

No data value becomes an element: an axiom on `owl:Thing`, or a complement, would speak of it. In place of that each
class expression over data is made of classes of the form *at least n values of p are in D*, which are new names:

- `DataAllValuesFrom(p D)` is *not at least 1 in the complement of D*, and `at most n` is *not at least n + 1*;
- *at least 1 in D or E* is *at least 1 in D, or at least 1 in E*.

Between these classes hold inclusions that are certain whatever the data are. What three ranges say together is lost.
"""
from shq_tools.approximation import ranges
from shq_tools.approximation.bounds import joined, negated
from shq_tools.approximation.literals import value_of
from shq_tools.approximation.losses import Loss
from shq_tools.approximation.owl import BOTTOM_DATA, LIMITED_NUMBER, TOP_DATA, TOP_RANGE
from shq_tools.terms import BOTTOM, TOP, Axiom

# A functional property with more values than these has no axiom that says that they differ.
MOST_VALUES = 200


class DataClasses:
    """The classes *at least n values of p are in D* that were made, by property."""

    def __init__(self, context):
        self.context = context
        self.made = {}
        self.places = {}
        # classes that are made, or met, only to be apart from each other
        self.auxiliary, self.separated = set(), set()
        # of each property the counts and ranges of its classes; those of a single value apart
        self.values, self.others = {}, {}

    def bound(self, of, grows):
        """A class expression of the language for one over data."""
        kind = of[0]
        if kind in ("data some", "data all") and len(of[1]) > 1:
            self.context.lose(Loss.DATA)
            return TOP if grows else BOTTOM
        if kind == "data value":
            return self.least(1, of[1], ("values", (of[2],)))
        if kind == "data some":
            return self.least(1, of[1][0], of[2])
        if kind == "data all":
            return negated(self.least(1, of[1][0], ("not", of[2])))
        _, number, name, inner = of
        if number >= LIMITED_NUMBER:
            self.context.lose(Loss.BEYOND_LIMITS)
            return TOP if grows else BOTTOM
        if kind == "data least":
            return self.least(number, name, inner)
        most = negated(self.least(number + 1, name, inner))
        return most if kind == "data most" else joined("and", [self.least(number, name, inner), most])

    def least(self, number, name, inner):
        """The class expression for *at least so many values of a property are in a range*."""
        self.context.lose(Loss.DATA)
        inner = ranges.normal(inner)
        if number == 0:
            return TOP
        if name == BOTTOM_DATA or ranges.has_fewer(inner, number):
            return BOTTOM
        if name == TOP_DATA and inner == TOP_RANGE:
            return TOP
        if number == 1 and inner[0] == "or":
            return joined("or", [self.least(1, name, it) for it in inner[1]])
        if number == 1 and inner[0] == "values" and len(inner[1]) > 1:
            return joined("or", [self.least(1, name, ("values", (it,))) for it in inner[1]])
        return self.class_of(number, name, inner)

    def class_of(self, number, name, inner):
        key = (name, number, inner)
        if key not in self.made:
            self.made[key] = self.context.names.class_name(expression(number, name, inner))
            self.places[key] = self.context.place
            is_value = number == 1 and inner[0] == "values"
            (self.values if is_value else self.others).setdefault(name, []).append((number, inner))
        return self.made[key]

    def complement_of(self, name, inner):
        """The class *at least 1 in the complement of a range*, where it is made for nothing but to be another one."""
        key = (name, 1, ranges.negated(inner))
        if key not in self.made:
            self.auxiliary |= {key, (name, 1, inner)}
        return self.least(1, name, ("not", inner))

    def relate(self):
        """Writes how the classes of each property stand to each other, behind all else."""
        for name in [*self.others]:
            self.relate_classes(name)
        self.split()

    def relate_classes(self, name):
        """Writes which classes of a property are below which: *at least n in D* is below *at least m in E* where n is
        no less than m and D is a part of E. Those that follow from two others are left out.
        """
        values = self.values.get(name, [])
        atoms = [*self.others[name], *values]
        above = []
        for number, inner in atoms:
            # no value has another one above it but itself
            wide = [number >= least and ranges.is_part(inner, of) for least, of in self.others[name]]
            above.append(sum(1 << at for at, holds in enumerate(wide) if holds))
        for at in range(len(values)):
            above[len(self.others[name]) + at] |= 1 << (len(self.others[name]) + at)
        for one, other in covers(above):
            self.include(name, atoms[one], atoms[other])

    def include(self, name, below, above):
        place = max(self.places[name, *below], self.places[name, *above])
        self.context.define_at(place, Axiom("SubClassOf", (self.made[name, *below], self.made[name, *above]), 0))

    def made_of(self, name, inner):
        """The class expression *at least 1 in a range*, where all of its classes were made, or None."""
        if (name, 1, inner) in self.made:
            return self.made[name, 1, inner]
        if inner[0] == "or" or (inner[0] == "values" and len(inner[1]) > 1):
            parts = inner[1] if inner[0] == "or" else [("values", (it,)) for it in inner[1]]
            found = [self.made_of(name, it) for it in parts]
            return None if None in found else joined("or", found)
        return None

    def split(self):
        """Writes that each value of a property is in a range or in its complement, behind all else."""
        seen = set()
        for (name, number, inner), place in self.places.items():
            if (name, number, inner) in self.auxiliary:
                continue
            whole = self.made.get((name, 1, TOP_RANGE))
            other = self.made_of(name, ranges.negated(inner)) if number == 1 and whole else None
            if other is not None and (name, ranges.negated(inner)) not in seen:
                seen.add((name, inner))
                sup = joined("or", [self.made[name, 1, inner], other])
                self.context.define_at(place, Axiom("SubClassOf", (whole, sup), 0))

    def of_property(self, name):
        """The counts and ranges of the classes of a property."""
        return self.others.get(name, []) + self.values.get(name, [])


def expression(number, name, inner):
    """The class expression that says *at least so many values in a range* in the shortest way."""
    if number > 1:
        return ("data least", number, name, inner)
    if inner[0] == "values" and len(inner[1]) == 1:
        return ("data value", name, inner[1][0])
    return ("data some", (name,), inner)


def of_assertion(context, axiom):
    """`DataPropertyAssertion(p a v)`: a is in *p has value v*."""
    name, individual, literal = axiom.items
    of = context.data.least(1, name, ("values", (literal,)))
    yield Axiom("ClassAssertion", (of, context.individual(individual)), axiom.line)
    for nominal in context.nominals.those_of([individual]):
        yield Axiom("SubClassOf", (nominal, of), axiom.line)


def of_negative_assertion(context, axiom):
    """`NegativeDataPropertyAssertion(p a v)`: a is not in *p has value v*."""
    name, individual, literal = axiom.items
    of = negated(context.data.least(1, name, ("values", (literal,))))
    yield Axiom("ClassAssertion", (of, context.individual(individual)), axiom.line)
    for nominal in context.nominals.those_of([individual]):
        yield Axiom("SubClassOf", (nominal, of), axiom.line)


def inclusions(axiom):
    """The pairs of properties one of which is in the other by an axiom."""
    if axiom.keyword == "SubDataPropertyOf":
        return [axiom.items]
    if axiom.keyword == "EquivalentDataProperties":
        return list(zip(axiom.items, axiom.items[1:] + axiom.items[:1]))
    return []


def of_inclusion(context, sub, sup, line):
    """p in q: *at least n values of p are in D* is below the same of q."""
    if sup == TOP_DATA or sub == BOTTOM_DATA:
        return
    for number, inner in list(context.data.of_property(sub)):
        above = context.data.least(number, sup, inner)
        yield Axiom("SubClassOf", (context.data.made[sub, number, inner], above), line)


def of_domain(context, axiom):
    """`DataPropertyDomain(p C)`: what has a value of p is in C."""
    name, domain = axiom.items
    yield Axiom("SubClassOf", (context.data.least(1, name, TOP_RANGE), context.bounds.above(domain)), axiom.line)


def of_range(context, axiom):
    """`DataPropertyRange(p D)`: nothing has a value of p outside of D."""
    name, inner = axiom.items
    yield Axiom("SubClassOf", (context.data.least(1, name, ("not", inner)), BOTTOM), axiom.line)


def of_functional(context, axiom):
    """`FunctionalDataProperty(p)`: nothing has two values, so none in a range and another one outside of it."""
    name = axiom.items[0]
    yield Axiom("SubClassOf", (context.data.least(2, name, TOP_RANGE), BOTTOM), axiom.line)
    made = context.data.made
    for number, inner in list(context.data.others.get(name, [])):
        if number == 1 and inner != TOP_RANGE and (name, 1, ranges.negated(inner)) not in context.data.separated:
            context.data.separated.add((name, 1, inner))
            sup = negated(context.data.complement_of(name, inner))
            yield Axiom("SubClassOf", (made[name, 1, inner], sup), axiom.line)
    values = [inner for _, inner in context.data.values.get(name, [])]
    if len(values) > MOST_VALUES:
        context.lose(Loss.MANY_VALUES)
        return
    # literals that are certain to have the same value are one, so these differ
    different = [it for it in values if value_of(it[1][0]) is not None]
    if len(different) > 1:
        yield Axiom("DisjointClasses", tuple(made[name, 1, it] for it in different), axiom.line)


def of_disjoint(context, axiom):
    """`DisjointDataProperties(p q ..)`: nothing has the same value of two of them."""
    for at, one in enumerate(axiom.items):
        for other in axiom.items[:at]:
            for number, inner in context.data.values.get(one, []):
                if (other, number, inner) in context.data.made:
                    classes = tuple(context.data.made[it, number, inner] for it in (one, other))
                    yield Axiom("DisjointClasses", classes, axiom.line)


def of_datatype(context, axiom):
    """`DatatypeDefinition(T D)`: *at least n in T* is *at least n in D*."""
    datatype, inner = axiom.items
    context.lose(Loss.DATATYPE)
    for (name, number, given) in list(context.data.made):
        if given == ("datatype", datatype):
            same = context.data.least(number, name, inner)
            yield Axiom("EquivalentClasses", (context.data.made[name, number, given], same), axiom.line)
        if given == ("not", ("datatype", datatype)):
            same = context.data.least(number, name, ("not", inner))
            yield Axiom("EquivalentClasses", (context.data.made[name, number, given], same), axiom.line)


def covers(above):
    """The pairs of numbers of which the second is directly above the first. `above` has of each number, as bits, those
    that are above it or equal to it; of equal ones each is directly above the one before, and the first above the last.
    """
    groups = {}
    for at, bits in enumerate(above):
        groups.setdefault(bits, []).append(at)
    own = {bits: sum(1 << at for at in group) for bits, group in groups.items()}
    found = []
    for bits, group in groups.items():
        if len(group) > 1:
            found += zip(group, group[1:] + group[:1])
        strict = bits & ~own[bits]
        farther = 0
        for other in members(strict):
            farther |= above[other] & ~own[above[other]]
        found += [(group[0], other) for other in members(strict & ~farther) if other == groups[above[other]][0]]
    return found


def members(bits):
    while bits:
        lowest = bits & -bits
        yield lowest.bit_length() - 1
        bits ^= lowest
