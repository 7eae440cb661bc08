"""Whether an answer can be to a statement: an answer has no statement in it, so one that is named must fit."""
from shq_tools.answers import OF_CLASSES, Model, Reasons, Refutation, SetList
from shq_tools.locality import module
from shq_tools.normal_forms import complement, normal
from shq_tools.terms import BOTTOM, TOP


def is_of_class(query):
    """Whether a statement says that a class has no member."""
    return query[1] == BOTTOM and query[2] is None


def refutation_fits(reading):
    """Whether a refutation supposes no more than that the statement fails, or None where that cannot be told."""
    story = reading.story()
    if not reading.axioms:
        return None
    sub, sup, individual = reading.query
    thing = len(reading.individuals) if individual is None else reading.individuals.index(individual)
    return set(story.supposed) <= {normal(sub), complement(sup)} and (not story.asked or thing in story.asked)


def model_fits(reading):
    return bool(reading.exceptions())


def list_fits(reading):
    """No where an axiom of a reason cannot matter for the statement. That all of them do is not told by this."""
    listed = reading.answer.axioms
    if reading.answer.kind == "repairs":
        return None
    sets = [[listed[it].axiom for it in one] for one in reading.answer.sets]
    return None if all(of_one_module(one, reading.query) for one in sets) else False


def reasons_fit(reading):
    """The same of the reasons for which individuals are in a class."""
    for individual, found in reading.answer.instances:
        query = (TOP, reading.asked_class(), individual)
        if not all(of_one_module([found.axioms[it].axiom for it in one], query) for one in found.sets):
            return False
    return None


def of_one_module(axioms, query):
    return len(module(axioms, query)) == len(axioms)


CHECKS = {Refutation: refutation_fits, Model: model_fits, SetList: list_fits, Reasons: reasons_fit}


def fits(reading):
    """Whether an answer is to the statement of its reading: yes, no, or None where it cannot be told."""
    answer = reading.answer
    if isinstance(answer, (Model, Refutation)) and answer.verdict in OF_CLASSES and not is_of_class(reading.query):
        return False
    return CHECKS.get(type(answer), lambda _: None)(reading)
