"""Looks at each axiom of an ontology by itself, and says which are inside of the language."""
from dataclasses import dataclass, field

from shq_tools.documents import document
from shq_tools.keywords import (
    ANNOTATIONS,
    ANONYMOUS,
    NOT_SIMPLE,
    OUTSIDE_AXIOMS,
    OUTSIDE_CLASSES,
    OUTSIDE_ROLE_NAMES,
    OUTSIDE_ROLES,
)
from shq_tools.terms import Axiom, RoleBox, roles_counted_by
from shq_tools.tokens import Refused
from shq_tools.walk import NoLimits, Walk

OUTSIDE_GROUPS = OUTSIDE_AXIOMS | OUTSIDE_CLASSES | OUTSIDE_ROLES


@dataclass
class Looked:
    """One item where an axiom may stand: what in it is outside of the language, by keyword and line, and its first
    fault.

    `axiom` is there where it has a number and neither a fault nor anything outside.
    """

    item: object
    outside: list = field(default_factory=list)
    fault: Refused = None
    axiom: Axiom = None

    @property
    def is_axiom(self):
        """Whether it is an axiom, or means to be one, and no declaration or annotation."""
        return self.item.text != "Declaration" and self.item.text not in ANNOTATIONS

    @property
    def is_inside(self):
        return self.is_axiom and not self.outside and self.fault is None


def is_left_out_role(item, prefixes):
    try:
        return prefixes.iri(item) in OUTSIDE_ROLE_NAMES
    except Refused:
        return False


def outside_within(items, prefixes):
    """What is outside of the language inside of a group at which the reasoner does not look."""
    found = []
    for item in items:
        if item.kind == "group" and item.text in OUTSIDE_GROUPS:
            found.append((item.text, item.line))
        if item.kind == "group":
            found += outside_within(item.items, prefixes)
        elif is_left_out_role(item, prefixes):
            found.append((OUTSIDE_ROLE_NAMES[prefixes.iri(item)], item.line))
    return found


def everything_outside(item, outside, prefixes):
    """What is outside of the language in an axiom, also where the walk met only the group around it."""
    if not outside:
        return []
    own = [(item.text, item.line)] if item.text in OUTSIDE_AXIOMS else []
    behind = [it for it in item.items if not it.is_group("Annotation")]
    nameless = [it for it in outside if it[0] == ANONYMOUS]
    return own + outside_within(behind, prefixes) + nameless


def look_at(item, prefixes):
    """Looks at one item by itself."""
    outside = []
    try:
        axiom = Walk(prefixes, NoLimits(), outside).axiom(item)
    except Refused as fault:
        return Looked(item, everything_outside(item, outside, prefixes), fault)
    return Looked(item, everything_outside(item, outside, prefixes), None, None if outside else axiom)


def mark_not_simple(looked):
    """Marks the axioms that count a role which is not simple by the role axioms inside of the language."""
    not_simple = RoleBox([it.axiom for it in looked if it.axiom]).not_simple()
    for one in looked:
        if one.axiom and roles_counted_by(one.axiom) & not_simple:
            one.outside.append((NOT_SIMPLE, one.item.line))
            one.axiom = None


def survey(data):
    """The document, and what was seen of each of its axioms. Raises `Refused` where the whole text is damaged."""
    read = document(data)
    looked = [look_at(it, read.prefixes) for it in read.axiom_items]
    mark_not_simple(looked)
    return read, looked


def by_keyword(looked):
    """The lines of each construct that is outside of the language, by keyword, the most frequent first."""
    lines = {}
    for one in looked:
        for what, line in one.outside:
            lines.setdefault(what, []).append(line)
    return dict(sorted(lines.items(), key=lambda it: (-len(it[1]), it[0])))
