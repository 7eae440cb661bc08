"""A script that is asked of the program, and its answers told."""
from shq_tools import scripts, sessions
from shq_tools.answering import answered_at_once, hint_for, is_whole_needed, told
from shq_tools.budgets import FIRST, known_with
from shq_tools.hints import steps_in
from shq_tools.statuses import Status


def known_behind(question, source, seconds):
    """The answers to a script that stands behind the ontology, by one run that needs nothing but the program. Answers
    None where that is not enough.
    """
    if question.script is not None or is_whole_needed(question):
        return None
    words = question.words if seconds is None else (*question.words, "budget", str(FIRST))
    known = known_with(words, source, seconds)
    if known is None or known.signal or known.status != Status.UNDECIDED and known.ended.output:
        return known
    is_done = known.status == Status.UNDECIDED and seconds is None
    return known if is_done or not known.ended.output and not scripts.may_stand_apart(question) else None


def known_by_lines(question, source, seconds):
    """What is known of a script, line by line, and its lines. Raises `OSError` where it cannot be read."""
    found = scripts.given_or_none(question, source)
    if found is None:
        return None, []
    steps = steps_in(question.words)
    return sessions.known_of(found.text, found.lines, seconds, steps, found.is_apart), found.lines


def script_answered(question, source, seconds):
    """Asks the lines of a script, and returns the status. Raises `OSError` where the script cannot be read."""
    known, lines = known_behind(question, source, seconds), []
    if known is None:
        known, lines = known_by_lines(question, source, seconds)
    if known is None:
        return answered_at_once(question, source, None)
    return told(question, source, known, hint_for(question, known, seconds), **sessions.told_lines(lines))
