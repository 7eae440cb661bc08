"""What two ontologies say differently: of superclasses, of contradictory classes, and of the types of individuals."""
from dataclasses import dataclass, field

from shq_tools.manchester import name_text


@dataclass
class Said:
    """What follows from an ontology: whether it is consistent, its contradictory classes, the named superclasses of
    each other class, itself left out, and the named classes of each individual.
    """

    is_consistent: bool = True
    contradictory: frozenset = frozenset()
    superclasses: dict = field(default_factory=dict)
    types: dict = field(default_factory=dict)


def above_each_group(taxonomy):
    """By the first name of each group, the names in it and in all groups above it."""
    groups = {it.names[0]: it for it in taxonomy.groups}
    found = {}
    for first in groups:
        stack = [first]
        while stack:
            group = groups[stack[-1]]
            left = [it for it in group.parents if it and it not in found]
            if left:
                stack += left
                continue
            found[stack.pop()] = set(group.names).union(taxonomy.thing, *(found[it] for it in group.parents if it))
    return found


def said_of(taxonomy, realization):
    """What follows, by the hierarchy and the individuals of an ontology. The second is None where there are none."""
    if not taxonomy.is_consistent:
        return Said(is_consistent=False)
    above = above_each_group(taxonomy)
    of_class = {name: above[it.names[0]] for it in taxonomy.groups for name in it.names}
    of_class.update({it: set(taxonomy.thing) for it in taxonomy.thing})
    superclasses = {name: found - {name} for name, found in of_class.items()}
    types = {}
    for individual, classes in realization.types if realization else []:
        types[individual] = set(taxonomy.thing).union(*(of_class[it] for it in classes))
    return Said(True, frozenset(taxonomy.nothing), superclasses, types)


@dataclass(frozen=True, order=True)
class Statement:
    """Something that follows from the one ontology alone: its kind (`inconsistent`, `contradictory`, `subclass` or
    `type`), what it is about, and the class that this is in.
    """

    kind: str
    about: str = ""
    other: str = ""

    def question(self):
        """The statement as the reasoner asks it."""
        if self.kind == "inconsistent":
            return "SubClassOf(owl:Thing owl:Nothing)"
        if self.kind == "type":
            return f"ClassAssertion(<{self.other}> <{self.about}>)"
        return f"SubClassOf(<{self.about}> {f'<{self.other}>' if self.other else 'owl:Nothing'})"


def statement_text(statement, names):
    """A statement in Manchester syntax."""
    if statement.kind == "inconsistent":
        return "the ontology is inconsistent"
    about = name_text(statement.about, names)
    if statement.kind == "contradictory":
        return f"{about} is contradictory"
    return f"{about} {'Type' if statement.kind == 'type' else 'SubClassOf'} {name_text(statement.other, names)}"


def without_new_names(statements, names):
    """The statements but those on what a translation made new."""
    return [it for it in statements if it.about not in names.left_out and it.other not in names.left_out]


def pairs_of(found):
    return {(one, other) for one, others in found.items() for other in others}


def known_apart(said, one):
    """Whether what an ontology says of a class or an individual is hidden, since everything follows there."""
    return not said.is_consistent or one in said.contradictory


def came(old, new):
    """What follows from the new ontology and not from the old one. What follows of a class that is contradictory there
    is left out, since everything does.
    """
    found = [Statement("inconsistent")] if old.is_consistent and not new.is_consistent else []
    if not old.is_consistent:
        return found
    found += [Statement("contradictory", it) for it in new.contradictory - old.contradictory]
    pairs = pairs_of(new.superclasses) - pairs_of(old.superclasses)
    found += [Statement("subclass", *it) for it in pairs if not known_apart(old, it[0])]
    found += [Statement("type", *it) for it in pairs_of(new.types) - pairs_of(old.types)]
    return sorted(found)


def follows_from_others(statement, statements, said):
    """Whether a statement follows from another one that came, by the superclasses of the same ontology."""
    if statement.kind not in ("subclass", "type"):
        return False
    own = said.types if statement.kind == "type" else said.superclasses
    between = own.get(statement.about, set()) - {statement.other, statement.about}
    for middle in between:
        above = said.superclasses.get(middle, ())
        if statement.other not in above or middle in said.superclasses.get(statement.other, ()):
            continue
        if statement.about in said.superclasses.get(middle, ()):
            continue
        first = Statement(statement.kind, statement.about, middle)
        if first in statements or Statement("subclass", middle, statement.other) in statements:
            return True
    return False


def first_ones(statements, said):
    """The statements that do not follow from others among them."""
    known = set(statements)
    return [it for it in statements if not follows_from_others(it, known, said)]
