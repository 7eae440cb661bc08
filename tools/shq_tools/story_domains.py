"""Domains of roles, told in one step.

A refutation takes the domain of a role as a union: either the role leads nowhere, or its class holds. Where the first
is ruled out at once, since the role leads to something, that is told as one step in place of two cases.
"""
from shq_tools.manchester import name_text


def ruled_out_by(split):
    """The step that rules out the first case of a split at once, because a role leads to something; or None."""
    if len(split.cases) < 2 or split.whole is None or split.whole[0] != "or":
        return None
    first = split.cases[0].steps
    is_at_once = len(first) == 2 and first[0].other is not None and first[1].is_contradiction
    return first[0] if is_at_once else None


def domain_behind(split):
    """The step by which a domain says what a split takes apart, or None."""
    return next((it for it in split.because if it.domain), None)


def domain_text(teller, row, split, way):
    """The sentence in place of the two cases."""
    thing, role = row.things[0], name_text(row.domain, teller.names)
    leads = f"{role} leads from {teller.thing(thing)} to {teller.thing(way.other)}"
    rest = split.whole[1][1:]
    held = rest[0] if len(rest) == 1 else ("or", rest)
    return f"By axiom {row.axiom}: {leads}, so {teller.is_text(thing, held)}."


def told_at_once(teller, split, told):
    """What stands in the place of a split: the split itself, or the sentence and what comes behind it."""
    way, row = ruled_out_by(split), domain_behind(split)
    if way is None or row is None:
        return [split]
    told.add(row)
    split.text, rest = domain_text(teller, row, split, way), split.cases[1:]
    if len(rest) > 1:
        split.text = f"{split.text[:-1]}: {len(rest)} cases."
        split.cases = rest
        return [split]
    split.cases = []
    return [split, *rest[0].steps]


def with_domains_told(teller, steps):
    """Tells the domains in some steps, and in all of their cases, in one step each."""
    told, lists = set(), [steps]
    while lists:
        here = lists.pop()
        at = 0
        while at < len(here):
            here[at : at + 1] = told_at_once(teller, here[at], told)
            at += 1
        lists += [case.steps for step in here for case in step.cases]
    return told
