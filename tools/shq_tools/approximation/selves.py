"""Loops.

For a role r of which a loop is spoken there is a new class, of the elements that r leads to themselves. By this
definition it is below `some r` of itself. That the loop leads to the same element cannot be said.
"""
from shq_tools.approximation.losses import Loss
from shq_tools.approximation.owl import BOTTOM_ROLE, TOP_ROLE, base
from shq_tools.terms import BOTTOM, TOP, Axiom


class Selves:
    """The classes of the elements that a role leads to themselves. A role and its inverse have the same one."""

    def __init__(self, context):
        self.context = context
        self.made = {}

    def class_of(self, role):
        if role in (TOP_ROLE, BOTTOM_ROLE):
            return TOP if role == TOP_ROLE else BOTTOM
        self.context.lose(Loss.SELF)
        name = base(role)
        if name not in self.made:
            of = self.made[name] = self.context.names.class_name(("self", name))
            self.context.define(Axiom("SubClassOf", (of, ("some", name, of)), 0))
            for other in self.context.roles.inverses_of(name):
                self.context.define(Axiom("SubClassOf", (of, ("some", other, of)), 0))
        return self.made[name]

    def known(self, role):
        """The class that was made for a role, or None."""
        return self.made.get(base(role))


def of_inclusion(context, sub, sup, line):
    """r in t: a loop of r is a loop of t."""
    one = context.selves.known(sub)
    if one is not None and base(sub) != base(sup):
        yield Axiom("SubClassOf", (one, context.selves.class_of(sup)), line)


def of_chain(context, axiom):
    """r1 .. rn in t: where all of them have a loop, t has one."""
    loops = [context.selves.known(it) for it in axiom.items[0][1]]
    if None not in loops:
        of = tuple(dict.fromkeys(loops))
        sub = of[0] if len(of) == 1 else ("and", of)
        if base(axiom.items[1]) not in {base(it) for it in axiom.items[0][1]}:
            yield Axiom("SubClassOf", (sub, context.selves.class_of(axiom.items[1])), axiom.line)


def of_reflexive(context, axiom):
    """`ReflexiveObjectProperty(r)`: everything has a loop."""
    yield Axiom("SubClassOf", (TOP, context.selves.class_of(axiom.items[0])), axiom.line)


def of_no_loop(context, axiom):
    """`IrreflexiveObjectProperty(r)` and `AsymmetricObjectProperty(r)`: nothing has a loop."""
    of = context.selves.known(axiom.items[0])
    if of is not None:
        yield Axiom("SubClassOf", (of, BOTTOM), axiom.line)


def of_disjoint(context, axiom):
    """`DisjointObjectProperties(r t ..)`: no loop of one is a loop of another one."""
    loops = [it for it in map(context.selves.known, axiom.items) if it is not None]
    if len(loops) > 1:
        yield Axiom("DisjointClasses", tuple(loops), axiom.line)


def of_pair(context, axiom):
    """`ObjectPropertyAssertion(r a a)`: a has a loop of r."""
    role, one, other = axiom.items
    of = context.selves.known(role) if one == other else None
    if of is not None:
        yield Axiom("ClassAssertion", (of, context.individual(one)), axiom.line)
        for nominal in context.nominals.those_of([one]):
            yield Axiom("SubClassOf", (nominal, of), axiom.line)
