"""An answer as plain text for people."""
from shq_tools.answers import Audit, Instances, Model, Plain, Realization, Reasons, Refutation, SetList, Taxonomy
from shq_tools.reading import audited
from shq_tools.trees_of_classes import SHOWN_BEFORE, forest, in_order
from shq_tools.wording import (
    AS_A_WHOLE,
    ONE_EACH,
    ending,
    family_heading,
    left_out_text,
    plain_lines,
    rest_heading,
    set_heading,
    shown_mark,
    unrelated_text,
    verdict,
)

INDENT = "  "


def axiom_lines(reading, axioms):
    """Axioms as a numbered list."""
    return [f"{INDENT}{at}. {reading.axiom_line(it)}" for at, it in enumerate(axioms, 1)]


def reason_list_lines(reading):
    """The reasons of a list; those that share most axioms show these once."""
    lines = []
    for family in reading.families():
        if len(family.numbers) == 1:
            (number,), (axioms,) = family.numbers, family.rest
            lines += ["", set_heading("justifications", number), *axiom_lines(reading, axioms)] * bool(axioms)
            continue
        lines += ["", family_heading(family.numbers), *axiom_lines(reading, family.shared)]
        for number, axioms in zip(family.numbers, family.rest):
            lines += ["", rest_heading(number), *axiom_lines(reading, axioms)]
    return lines


def repair_list_lines(reading):
    """The repairs of a list; where each is one axiom, they are one list."""
    answer = reading.answer
    sets = [reading.one_for_each(answer.axioms[it].axiom for it in one) for one in answer.sets if one]
    if len(sets) > 1 and all(len(it) == 1 for it in sets):
        return ["", ONE_EACH, *axiom_lines(reading, [it for one in sets for it in one])]
    lines = []
    for number, axioms in enumerate(sets, 1):
        lines += ["", set_heading("repairs", number), *axiom_lines(reading, axioms)]
    return lines


def list_lines(reading):
    """The sets of axioms, each as a numbered list."""
    is_reasons = reading.answer.kind == "justifications"
    return reason_list_lines(reading) if is_reasons else repair_list_lines(reading)


def audit_lines(reading):
    """The reasons of an audit, and then its repairs."""
    return [line for one in audited(reading) for line in list_lines(one)]


def realization_lines(reading):
    """Each individual and its most specific classes."""
    return ["", *(f"{INDENT}{one}: {classes}" for one, classes in reading.types())] if reading.answer.types else []


def instance_lines(reading):
    """The individuals of a class expression."""
    names = [INDENT + reading.names.of(it) for it in reading.names.shown(reading.answer.names)]
    return ["", *names] if names else []


def reason_lines(reading):
    """Why each individual is in a class expression."""
    lines = []
    for title, axioms in reading.reasons():
        lines += ["", title, *axiom_lines(reading, axioms)]
    return lines


def taxonomy_lines(reading):
    """The taxonomy as an indented tree."""
    answer, names = reading.answer, reading.names
    lines = [AS_A_WHOLE, *reading.caveat.behind("consistent")] if answer.is_consistent and answer.nothing else []
    titles = {"Contradictory, so without any member": answer.nothing, "Everything is in": answer.thing}
    for title, members in titles.items():
        if names.shown(members):
            lines += ["", f"{title}:", *(INDENT + names.of(it) for it in names.shown(members))]
    branches = forest(answer, names)
    if branches:
        lines += ["", "Thing"]
    for branch in in_order(branches):
        lines.append(INDENT * branch.depth + branch.name(names) + (" .." if branch.is_shown_before else ""))
    return lines + ["", SHOWN_BEFORE] * any(it.is_shown_before for it in in_order(branches))


def thing_lines(thing, called, mark):
    """A thing of a world, its classes, and where its roles lead."""
    above = f", and so {', '.join(thing.classes_above)}" if thing.classes_above else ""
    classes = ", ".join(thing.classes) or "in no named class"
    lines = [f"{INDENT}{called[thing.number]}: {classes}{above}{mark}"]
    for role, others in thing.roles.items():
        lines.append(f"{INDENT}{INDENT}{role} {', '.join(called[it] for it in others)}")
    return lines


def model_lines(reading):
    """The things of a world that have to do with the statement, and how many others there are."""
    lines, shown, called = [ending(reading.answer)], reading.exceptions(), reading.called()
    near, others = reading.things()
    for thing in near:
        mark = f" ({shown_mark(reading.answer)})" if thing.number in shown else ""
        lines += thing_lines(thing, called, mark)
    return lines + [f"({unrelated_text(len(others))}: --all shows them too.)"] * bool(others)


def step_lines(steps):
    """The sentences of a story, those of a case further in."""
    lines = []
    left = [(step, 1) for step in reversed(steps)]
    while left:
        item, depth = left.pop()
        if isinstance(item, str):
            lines.append(INDENT * depth + item)
            continue
        lines.append(INDENT * depth + item.text)
        for number, case in reversed(list(enumerate(item.cases, 1))):
            left += [(step, depth + 2) for step in reversed(case.steps)]
            left.append((f"Case {number}: {case.title}.", depth + 1))
    return lines


def refutation_lines(reading):
    """A refutation as sentences."""
    story = reading.story()
    used = [INDENT + reading.axiom_line(it) for it in reading.used_axioms(story)]
    lines = ["", "The axioms that are used:", *used] if used else []
    lines += ["", reading.supposition(story), *step_lines(story.steps), ending(reading.answer)]
    return lines + [left_out_text(story)] * bool(story.left_out)


TELLS = {
    SetList: list_lines,
    Audit: audit_lines,
    Realization: realization_lines,
    Instances: instance_lines,
    Reasons: reason_lines,
    Taxonomy: taxonomy_lines,
    Model: model_lines,
    Refutation: refutation_lines,
}


def lines_above(reading):
    """What stands above an answer: what it is worth for the whole ontology, and the question as it was written."""
    above = [*reading.caveat.lines, ""] if reading.caveat.lines else []
    return above + [f"Asked: {reading.written}", ""] * bool(reading.written)


def heading_of(reading):
    """The line that an answer begins with."""
    return plain_lines(reading.answer)[0] if isinstance(reading.answer, Plain) else reading.heading()


def lines_below(reading):
    """What an answer says behind its heading."""
    answer = reading.answer
    if isinstance(answer, Plain):
        return plain_lines(answer)[1:]
    return [*reading.caveat.behind(verdict(answer)), *TELLS[type(answer)](reading)]


def lines_of(reading):
    """The lines of an answer."""
    return [*lines_above(reading), heading_of(reading), *lines_below(reading)]
