"""What role chains and inverse roles say of each `all r C` and `some r D` that the ontology speaks of.

A role that is at the end of a chain, or that has an inverse, is not what its edges alone are. So where it stands in
`all r C` as a superclass, or in `some r D` as a subclass, a new class stands in its place that means just this:

- X is `all r C`. For a chain s t in r, X is below `all s (all t C)`; for r s in r, X is below `all r Y`, and Y below
  C and `all s Y`, where Y is what r leads to from X; for s r in r, X is below `all s X`. The same way round E is
  `some r D`, and `some s (some t D)` is below E, and so on. With roles in a regular order this ends, and loses nothing:
  Kazakov, "RIQ and SROIQ Are Harder than SHOIQ" (2008); Simancik, "Elimination of Complex RIAs without Automata"
  (2012).
- For s the inverse of r, `some s X` is below C, since r leads back; and D is below `all s E`. De Giacomo, "Eliminating
  Converse from Converse PDL" (1996); Ding, Haarslev, Wu, "A new mapping from ALCI to ALC" (2007).

Each row follows from one axiom on a role, on whose line it stands, or from what the new names mean.
"""
from collections import defaultdict

from shq_tools.approximation.bounds import negated
from shq_tools.approximation.owl import inverse
from shq_tools.approximation.role_axioms import is_transitivity
from shq_tools.terms import BOTTOM, TOP, Axiom

# Where roles that are equal are at the front of chains into each other there would be no end of new classes.
MOST_CLASSES = 2000
MOST_NESTED = 16


class Roles:
    """What the role axioms of the language say, each with its place: inclusions, transitive roles, and chains by the
    role in which they are.
    """

    def __init__(self, translator):
        self.below, self.transitive, self.chains = defaultdict(dict), {}, defaultdict(list)
        for place, source in enumerate(translator.sources):
            for row in translator.rows_at(place):
                self.add(row, place)
        names = translator.context.roles
        for axiom in translator.of("SubObjectPropertyOf"):
            if axiom.items[0][0] == "chain" and len(axiom.items[0][1]) > 1 and not is_transitivity(axiom):
                self.add_chain(names, axiom.items[0][1], axiom.items[1], translator.context.place)
        self.irregular = self.leave_out_irregular()
        self.inverses = {**names.inverses, **{new: old for old, new in names.inverses.items()}}
        ends = {role for role, chains in self.chains.items() if chains}
        self.complex = self.all_above(ends)
        self.deep = self.all_above(ends | {it for it in self.transitive if it in self.inverses})

    def add(self, row, place):
        if row.keyword == "SubObjectPropertyOf":
            self.below[row.items[1]].setdefault(row.items[0], place)
        elif row.keyword == "EquivalentObjectProperties":
            for one, other in zip(row.items, row.items[1:] + row.items[:1]):
                self.below[other].setdefault(one, place)
        elif row.keyword == "TransitiveObjectProperty":
            self.transitive.setdefault(row.items[0], place)

    def add_chain(self, names, chain, sup, place):
        self.chains[names.name(sup)].append((tuple(map(names.name, chain)), place))
        if all(map(names.has_inverse, (*chain, sup))):
            backwards = tuple(names.name(inverse(it)) for it in reversed(chain))
            self.chains[names.name(inverse(sup))].append((backwards, place))

    def all_above(self, roles):
        """The roles, and all that have one of them below."""
        found, above = set(roles), defaultdict(set)
        for sup, subs in self.below.items():
            for sub in subs:
                above[sub].add(sup)
        left = list(roles)
        while left:
            new = above[left.pop()] - found
            found |= new
            left += new
        return found

    def is_named(self, role):
        """Whether a new class stands for what is said of a role."""
        return role in self.complex or role in self.inverses

    def leave_out_irregular(self):
        """Leaves out the chains with a role that is above the one they lead into, but at the front or at the end of the
        chain; and returns their places.
        """
        steps = defaultdict(set)
        for sup, subs in self.below.items():
            for sub in subs:
                steps[sub].add(sup)
        for sup, chains in self.chains.items():
            for chain, _ in chains:
                for role in inner_roles(chain, sup):
                    steps[role].add(sup)
        left_out = []
        for sup, chains in list(self.chains.items()):
            regular = [it for it in chains if not any(leads_to(sup, role, steps) for role in inner_roles(it[0], sup))]
            left_out += [place for chain, place in chains if (chain, place) not in regular]
            self.chains[sup] = regular
        return left_out


def inner_roles(chain, sup):
    """The roles of a chain that have to be below the role that it leads into."""
    return chain[1:] if chain[0] == sup else chain[:-1] if chain[-1] == sup else chain


def leads_to(one, other, steps):
    found, left = {one}, [one]
    while left:
        new = steps[left.pop()] - found
        found |= new
        left += new
    return other in found


class FullRows:
    """Makes the new classes, and writes their rows."""

    def __init__(self, context, roles):
        self.context = context
        self.roles = roles
        self.made = {}
        self.nested = 0
        self.is_cut_off = False

    def above(self, of):
        """A class expression as a superclass."""
        kind = of[0]
        if kind == "not":
            return negated(self.below(of[1]))
        if kind in ("and", "or"):
            return (kind, tuple(map(self.above, of[1])))
        if kind == "all":
            return self.all_of(of[1], self.above(of[2]))
        if kind == "most" and of[1] == 0:
            return negated(self.some_of(of[2], self.below(of[3])))
        return (*of[:-1], self.above(of[-1])) if kind in ("some", "least") else of

    def below(self, of):
        """A class expression as a subclass."""
        kind = of[0]
        if kind == "not":
            return negated(self.above(of[1]))
        if kind in ("and", "or"):
            return (kind, tuple(map(self.below, of[1])))
        if kind == "some" or (kind == "least" and of[1] == 1):
            return self.some_of(of[-2], self.below(of[-1]))
        return (kind, of[1], self.below(of[2])) if kind == "all" else of

    def all_of(self, role, filler):
        if filler == TOP or not self.roles.is_named(role):
            return ("all", role, filler)
        return self.class_of("all", role, filler)

    def some_of(self, role, filler):
        if filler == BOTTOM or not self.roles.is_named(role):
            return ("some", role, filler)
        return self.class_of("some", role, filler)

    def class_of(self, kind, role, filler):
        """The class that is `all r C` or `some r D`, or that itself where too many classes were made."""
        key = (kind, role, filler)
        if key not in self.made:
            if len(self.made) >= MOST_CLASSES or self.nested >= MOST_NESTED:
                self.is_cut_off = True
                return key
            self.made[key] = self.context.names.class_name(self.context.meaning(key))
            self.nested += 1
            (self.rows_of_all if kind == "all" else self.rows_of_some)(self.made[key], role, filler)
            self.nested -= 1
        return self.made[key]

    def write(self, place, sub, sup):
        if sub != sup:
            self.context.define_at(place, Axiom("SubClassOf", (sub, sup), 0))

    def rows_of_all(self, of, role, filler):
        """The rows of X, which is `all r C`."""
        here, chains = self.context.place, self.roles.chains.get(role, [])
        inner = filler
        if any(chain[0] == role for chain, _ in chains):
            back = self.context.roles_back(role)
            inner = self.context.names.class_name(self.context.meaning(("some", back, ("all", role, filler))))
            self.write(here, inner, filler)
        self.write(here, of, ("all", role, inner))
        for chain, place in chains:
            if chain[0] == role:
                self.write(place, inner, self.along(chain[1:], inner, self.all_of))
            elif chain[-1] == role:
                self.write(place, of, self.along(chain[:-1], of, self.all_of))
            else:
                self.write(place, of, self.along(chain, inner, self.all_of))
        for sub, place in list(self.roles.below[role].items()):
            if sub in self.roles.deep and sub != role:
                self.write(place, of, self.all_of(sub, inner))
        back = self.roles.inverses.get(role)
        if back:
            self.write(here, ("some", back, of), filler)
        if role in self.roles.transitive:
            place = self.roles.transitive[role]
            self.write(place, of, ("all", role, of))
            if back:
                self.write(place, ("some", back, of), of)

    def rows_of_some(self, of, role, filler):
        """The rows of E, which is `some r D`."""
        here, chains = self.context.place, self.roles.chains.get(role, [])
        inner = filler
        if any(chain[0] == role for chain, _ in chains):
            back = self.context.roles_back(role)
            inner = self.context.names.class_name(self.context.meaning(("all", back, ("some", role, filler))))
            self.write(here, filler, inner)
        self.write(here, ("some", role, inner), of)
        for chain, place in chains:
            if chain[0] == role:
                self.write(place, self.along(chain[1:], inner, self.some_of), inner)
            elif chain[-1] == role:
                self.write(place, self.along(chain[:-1], of, self.some_of), of)
            else:
                self.write(place, self.along(chain, inner, self.some_of), of)
        for sub, place in list(self.roles.below[role].items()):
            if sub in self.roles.deep and sub != role:
                self.write(place, self.some_of(sub, inner), of)
        back = self.roles.inverses.get(role)
        if back:
            self.write(here, filler, ("all", back, of))
        if role in self.roles.transitive:
            place = self.roles.transitive[role]
            self.write(place, ("some", role, of), of)
            if back:
                self.write(place, of, ("all", back, of))

    def along(self, chain, of, step):
        """`all r1 (all r2 .. of)`, or the same with `some`."""
        for role in reversed(chain):
            of = step(role, of)
        return of

    def rewritten(self, axiom):
        """What stands in place of an axiom, or None where it stays."""
        items, line = axiom.items, axiom.line
        if axiom.keyword == "SubClassOf":
            found = [(self.below(items[0]), self.above(items[1]))]
        elif axiom.keyword == "EquivalentClasses":
            found = [(self.below(a), self.above(b)) for a, b in zip(items, items[1:] + items[:1])]
            if all((self.below(it), self.above(it)) == (it, it) for it in items):
                return None
        elif axiom.keyword == "ObjectPropertyDomain" and items[0] in self.roles.complex:
            return [axiom, Axiom("SubClassOf", (self.some_of(items[0], TOP), self.above(items[1])), line)]
        elif axiom.keyword == "ObjectPropertyRange" and items[0] in self.roles.complex:
            return [axiom, Axiom("SubClassOf", (TOP, self.all_of(items[0], self.above(items[1]))), line)]
        else:
            return self.rewritten_item(axiom)
        rows = [Axiom("SubClassOf", it, line) for it in found]
        return None if rows == [Axiom("SubClassOf", items, line)] else rows

    def rewritten_item(self, axiom):
        items, line = axiom.items, axiom.line
        if axiom.keyword == "ClassAssertion":
            items = (self.above(items[0]), items[1])
        elif axiom.keyword in ("ObjectPropertyDomain", "ObjectPropertyRange"):
            items = (items[0], self.above(items[1]))
        elif axiom.keyword == "DisjointClasses":
            items = tuple(map(self.below, items))
        elif axiom.keyword == "DisjointUnion":
            return self.rewritten_union(axiom)
        return None if items == axiom.items else [Axiom(axiom.keyword, items, line)]

    def rewritten_union(self, axiom):
        whole, parts = axiom.items[0], axiom.items[1:]
        below, above = tuple(map(self.below, parts)), tuple(map(self.above, parts))
        if below == parts and above == parts:
            return None
        rows = [Axiom("SubClassOf", (whole, ("or", above)), axiom.line)]
        rows += [Axiom("SubClassOf", (it, whole), axiom.line) for it in below]
        return [*rows, Axiom("DisjointClasses", below, axiom.line)]
