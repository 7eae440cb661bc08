"""Why something is so, for checks and for differences: a reason or a world, in a few lines."""
from dataclasses import dataclass

from shq_tools.answers import Model, SetList, Unread, answer
from shq_tools.approximation.display import shown_names
from shq_tools.approximation.for_people import originals_of
from shq_tools.manchester import axiom_text
from shq_tools.names import Names
from shq_tools.own_answers import own_answer
from shq_tools.worlds import called, things

# How long one reason is looked for.
REASON_SECONDS = 10
MOST_THINGS = 12


@dataclass(frozen=True)
class Why:
    """Why something follows: the axioms of a reason, each of them needed where `is_smallest` says so. Or why it does
    not: a world in which it fails. Neither is there where none was found in time.
    """

    axioms: list = None
    is_smallest: bool = True
    model: Model = None


def names_over(vocabularies, language):
    """The names of things in some ontologies, by the labels of the first ones first. What a translation made new is
    shown by what it means, and is left out of lists.
    """
    labels, iris = {}, {}
    for vocabulary in vocabularies:
        labels = {**vocabulary.labels, **labels}
        iris.update(dict.fromkeys(it for of_kind in vocabulary.names.values() for it in of_kind))
    new = shown_names(iris, Names(labels, language, iris))
    return Names(labels, language, iris, new, new)


def smallest_reason(asker, question, source, own, added):
    """The axioms of a reason with the fewest axioms among those that are found in some seconds, or None."""
    known = asker.known(("explain", question), source, REASON_SECONDS)
    text = known.ended.output.decode("utf-8", "replace")
    try:
        found = answer(own_answer(text, own, added) if added else text)
    except Unread:
        return None
    if not isinstance(found, SetList) or not found.sets:
        return None
    return [found.axioms[it].axiom for it in min(found.sets, key=len)]


def originals_in(source, names):
    """By line, the axioms of the file in place of which a translation has others."""
    return originals_of(source.translation, names) if source.translation else {}


def reason_lines(axioms, names, originals):
    """A line for each axiom of a reason, once for those that stand for one axiom of the file."""
    if not axioms:
        return ["by no axiom at all"] if axioms is not None else []
    own = (f"axiom {it.number}, line {it.line}: {axiom_text(it, names)}" for it in axioms)
    lines = (f"line {it.line}: {originals[it.line]}" if it.line in originals else text for it, text in zip(axioms, own))
    return list(dict.fromkeys(lines))


def why_lines(why, names, originals):
    """The same of whatever was found."""
    if why.model is not None:
        return world_lines(why.model, names)
    lines = reason_lines(why.axioms, names, originals)
    return lines if why.is_smallest else [f"by {len(why.axioms)} axioms, of which some may not be needed:", *lines]


def world_lines(model, names):
    """A line for each thing of a world, up to some."""
    name = called(model, names)
    lines = []
    for thing in things(model, names)[:MOST_THINGS]:
        led = [f"{role} {name[it]}" for role, those in thing.roles.items() for it in those]
        said = [*thing.classes, *thing.classes_above, *led]
        lines.append(f"{name[thing.number]}: {', '.join(said) or 'in no named class'}")
    left = model.size - MOST_THINGS
    return lines + [f"and {left} more"] * (left > 0)
