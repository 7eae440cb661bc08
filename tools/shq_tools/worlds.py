"""What holds in a model."""
from dataclasses import dataclass, field


class World:
    """A model, and which things are in a class expression."""

    def __init__(self, model):
        self.size = model.size
        self.individuals = model.individuals
        self.classes = {name: set(members) for name, members in model.classes.items()}
        self.after = {}
        for role, pairs in model.roles.items():
            for one, other in pairs:
                self.after.setdefault((role, one), []).append(other)

    def holds(self, expression, thing):
        """Whether a thing is in a class expression."""
        kind = expression[0]
        if kind in ("top", "bottom"):
            return kind == "top"
        if kind == "name":
            return thing in self.classes.get(expression[1], ())
        if kind == "not":
            return not self.holds(expression[1], thing)
        if kind in ("and", "or"):
            found = (self.holds(it, thing) for it in expression[1])
            return all(found) if kind == "and" else any(found)
        return self.holds_by_role(expression, thing)

    def holds_by_role(self, expression, thing):
        kind, role, filler = expression[0], expression[-2], expression[-1]
        after = self.after.get((role, thing), [])
        count = sum(self.holds(filler, it) for it in after)
        if kind in ("some", "all"):
            return count > 0 if kind == "some" else count == len(after)
        number = expression[1]
        return {"least": count >= number, "most": count <= number, "exactly": count == number}[kind]

    def exceptions(self, sub, sup, individual=None):
        """The things that are in one class and not in the other; of an individual, where one is asked about, alone."""
        asked = range(self.size) if individual is None else [self.individuals.get(individual, 0)]
        return [it for it in asked if self.holds(sub, it) and not self.holds(sup, it)]


def called(model, names):
    """What each thing of a model is called: its number, and the individuals that it is."""
    found = {it: [] for it in range(model.size)}
    for individual in names.shown(model.individuals):
        found[model.individuals[individual]].append(names.of(individual))
    return {it: f"thing {it}" + f" ({', '.join(those)})" * bool(those) for it, those in found.items()}


@dataclass
class Thing:
    """A thing of a model: its classes, those that the others do not lead to first, and where its roles lead."""

    number: int
    classes: list = field(default_factory=list)
    classes_above: list = field(default_factory=list)
    roles: dict = field(default_factory=dict)


def things(model, names, told=None):
    """Each thing of a model, with the names of its classes and roles. Where it is told which classes are above others,
    these stand apart.
    """
    found = [Thing(it) for it in range(model.size)]
    members = {it: [] for it in range(model.size)}
    for name, numbers in model.classes.items():
        for number in numbers:
            members[number].append(name)
    for thing in found:
        own = names.shown(members[thing.number])
        specific = told.most_specific(own) if told else own
        thing.classes = list(map(names.of, specific))
        thing.classes_above = [names.of(it) for it in own if it not in specific]
    for role in names.shown(model.roles):
        for one, other in model.roles[role]:
            found[one].roles.setdefault(names.of(role), []).append(other)
    return found


def connected(model, numbers):
    """The things that are connected with some things by roles, in either direction, these among them."""
    beside = {}
    for pairs in model.roles.values():
        for one, other in pairs:
            beside.setdefault(one, set()).add(other)
            beside.setdefault(other, set()).add(one)
    found, left = set(numbers), list(numbers)
    while left:
        new = beside.get(left.pop(), set()) - found
        found |= new
        left += new
    return found
