"""A taxonomy as a tree of classes."""
from dataclasses import dataclass, field

from shq_tools.answers import Realization, Taxonomy

SHOWN_BEFORE = "(A class with .. stands above with what is below it.)"
# How far below a class its neighbourhood goes.
LEVELS_BELOW = 2


@dataclass
class Branch:
    """A group of equal classes in the tree, by its IRIs. Where it stood before with what is below it, that is not shown
    again.
    """

    classes: list
    depth: int
    below: list = field(default_factory=list)
    is_shown_before: bool = False

    def name(self, names):
        """The names of the classes."""
        return " = ".join(map(names.of, self.classes))


def groups_below(taxonomy):
    """The groups directly below each first name, and below `None` for `owl:Thing`."""
    below = {None: []}
    for group in taxonomy.groups:
        for parent in group.parents or [None]:
            below.setdefault(parent, []).append(group)
    return below


def forest(taxonomy, names):
    """The groups directly below `owl:Thing`, each with those below it, in the order of their names. Classes that lists
    do not show are left out, and what is below them stands in their place.
    """
    below, shown = groups_below(shown_alone(taxonomy, names.shown)), set()
    members = {group.names[0]: names.shown(group.names) for group in taxonomy.groups}
    top = Branch([], 0)
    left = [(top, None)]
    while left:
        branch, first = left.pop()
        children = sorted(below.get(first, []), key=lambda it: names.order(members[it.names[0]][0]))
        if first in shown:
            branch.is_shown_before = bool(children)
            continue
        shown.add(first)
        branch.below = [Branch(members[group.names[0]], branch.depth + 1) for group in children]
        left += reversed([(inner, group.names[0]) for inner, group in zip(branch.below, children)])
    return top.below


def in_order(branches):
    """All branches, each before those below it."""
    left = list(reversed(branches))
    while left:
        branch = left.pop()
        yield branch
        left += reversed(branch.below)


def replaced(taxonomy, groups):
    """The taxonomy with other groups."""
    return Taxonomy(taxonomy.is_consistent, taxonomy.nothing, taxonomy.thing, groups)


def shown_alone(taxonomy, shown):
    """The taxonomy without the groups of which lists show no class; what is below them is directly below those above
    them. `shown` has of some classes those that lists show.
    """
    parents = {group.names[0]: group.parents for group in taxonomy.groups}
    hidden = {group.names[0] for group in taxonomy.groups if not shown(group.names)}
    if not hidden:
        return taxonomy
    kept = [it for it in taxonomy.groups if it.names[0] not in hidden]
    return replaced(taxonomy, [type(it)(it.names, shown_parents(it.parents, parents, hidden)) for it in kept])


def shown_parents(own, parents, hidden):
    """The parents of a group. A hidden one is replaced by those above it; what is above another parent is left out."""
    if hidden.isdisjoint(own):
        return own
    found, met, left = {}, set(own), list(reversed(own))
    while left:
        one = left.pop()
        if one in hidden:
            new = [it for it in parents[one] if it not in met]
            met.update(new)
            left += reversed(new)
        elif one is not None:
            found[one] = None
    farther = set().union(*(above(parents, it) for it in found)) if len(found) > 1 else ()
    return [it for it in found if it not in farther]


def shown_types(realization, taxonomy, shown):
    """The realization with classes alone that lists show: in place of another one stand the nearest ones above it."""
    first_names = {name: group.names[0] for group in taxonomy.groups for name in group.names}
    parents = {group.names[0]: group.parents for group in taxonomy.groups}
    classes = {group.names[0]: shown(group.names) for group in taxonomy.groups}
    hidden = {it for it, those in classes.items() if not those}
    types = []
    for individual, own in realization.types:
        if len(shown(own)) < len(own):
            groups = dict.fromkeys(first_names[it] for it in own if it in first_names)
            own = [classes[it][0] for it in shown_parents(list(groups), parents, hidden)]
        types.append((individual, own))
    return Realization(types)


def above(parents, first):
    """The first names of all groups above a group, by the parents of each group."""
    found, left = set(), [first]
    while left:
        new = [it for it in parents.get(left.pop(), []) if it is not None and it not in found]
        found.update(new)
        left += new
    return found


def around(taxonomy, iri):
    """The taxonomy of the classes above a class and some levels below it, or None where it is in no group."""
    own = next((group for group in taxonomy.groups if iri in group.names), None)
    if own is None:
        return None
    parents = {group.names[0]: group.parents for group in taxonomy.groups}
    below, level, kept = groups_below(taxonomy), [own], {own.names[0]} | above(parents, own.names[0])
    for _ in range(LEVELS_BELOW):
        level = [inner for group in level for inner in below.get(group.names[0], [])]
        kept.update(it.names[0] for it in level)
    groups = [it for it in taxonomy.groups if it.names[0] in kept]
    return replaced(taxonomy, [type(it)(it.names, [up for up in it.parents if up in kept]) for it in groups])
