"""What is printed of an answer, by the options of its job, and the status that they give it. This is read in only where
an answer is not printed as it is.
"""
from shq_tools import json_view
from shq_tools.answers import Realization, Taxonomy, Unread, answer
from shq_tools.answering import CONTRADICTORY, seconds_of
from shq_tools.approximation.new_names import not_new
from shq_tools.budgets import known_with, known_within
from shq_tools.messages import say
from shq_tools.own_answers import own_answer
from shq_tools.statuses import Status
from shq_tools.trees_of_classes import shown_types

# The jobs that list sets of axioms.
LISTING_JOBS = ("explain", "repair", "why")
# The options by which an answer is told for people.
FOR_PEOPLE = ("--html", "--markdown")


def own_text(question, known):
    """The answer as text, without the axioms that were put in for the question."""
    text = known.ended.output.decode("utf-8", "replace")
    if question.added and question.words[0] in LISTING_JOBS:
        return own_answer(text, question.own_axioms, len(question.added))
    return text


def read_as(kind, text):
    """The answer of a text, where it is of a kind, or None."""
    try:
        found = answer(text)
    except Unread:
        return None
    return found if isinstance(found, kind) else None


def hierarchy_for(question, source):
    """What the program answers to `classify` within what the question itself may take."""
    seconds = seconds_of(question)
    if seconds is not None:
        return known_within(("classify",), source, seconds)
    return known_with(("classify", *question.words[1:]), source)


def old_types(question, source, text):
    """The answer of `realize` with classes of the file alone. In place of a class that a translation made stand the
    nearest classes of the file above it. They are found in the hierarchy, which is asked for too.
    """
    found = read_as(Realization, text)
    if found is None or all(classes == not_new(classes) for _, classes in found.types):
        return text
    hierarchy = read_as(Taxonomy, hierarchy_for(question, source).ended.output.decode("utf-8", "replace"))
    return realization_text(shown_types(found, hierarchy, not_new)) if hierarchy else text


def realization_text(found):
    """The text of a realization, as the program prints it."""
    lines = (f"individual <{one}> types{''.join(f' <{it}>' for it in classes)}" for one, classes in found.types)
    return "\n".join(["consistent", *lines, ""])


def shown(question, source, known, **more):
    """What is printed of an answer, as bytes. What more is told of it stands in its object of JSON alone."""
    text = own_text(question, known)
    if question.words[0] == "realize" and source and source.translation:
        text = old_types(question, source, text)
    if "--json" in question.options:
        return json_view.text_of(json_view.object_of(question, source, text, known.status, **more)).encode("utf-8")
    if any(it in question.options for it in FOR_PEOPLE):
        return told_for_people(question, source, text).encode("utf-8", "replace")
    return text.encode("utf-8")


def told_for_people(question, source, text):
    """An answer as a page, or as text for a pull request."""
    # what makes pages is read in for pages alone
    from shq_tools.page import page_of
    from shq_tools.reading_answers import markdown_of, reading_for

    shows = page_of if "--html" in question.options else markdown_of
    return shows(reading_for(question, source, text))


def refusal_shown(question, message, status):
    """What is printed of a question that is not asked, as bytes."""
    if "--json" not in question.options:
        return b""
    found = {**json_view.head_of(question, status), "complete": json_view.is_complete(status)}
    return json_view.text_of({**found, "verdict": "not asked", "message": message}).encode("utf-8")


def contradictory_in(text):
    """What is contradictory in the answer of `classify`, in words, or None."""
    found = read_as(Taxonomy, text)
    if found is None:
        return None
    if not found.is_consistent:
        return "the ontology is inconsistent"
    count = len(found.nothing)
    return f"{count:,} class{' is' if count == 1 else 'es are'} contradictory" if count else None


def status_of(question, known):
    """The status of an answer, where the words say that some answers are failures."""
    if question.options.get("--fail-on") != CONTRADICTORY or known.status != Status.DONE:
        return known.status
    fault = contradictory_in(own_text(question, known))
    if fault is None:
        return known.status
    say(fault)
    return Status.FAILED
