"""A question that is asked of the program, and its answer told."""
from shq_tools.budgets import SECONDS, Known, known_with, known_within
from shq_tools.hints import hint_on_budget, hint_on_seconds
from shq_tools.messages import say
from shq_tools.output import written
from shq_tools.running import Ended, end_by, run_through
from shq_tools.statuses import Status
from shq_tools.words import BadWords

READ_FAULT = b"read fault\n"
CONTRADICTORY = "contradictory"
# The options with which an answer has to be there as a whole before any of it is printed.
WHOLE_OPTIONS = ("--json", "--html", "--markdown", "--fail-on")


def seconds_of(question):
    """For how many seconds a question may be asked, or None where its words have a budget. Raises `BadWords`."""
    text = question.options.get("--seconds")
    has_budget = question.words[-2:-1] == ("budget",)
    if text is None:
        return None if has_budget or not question.command.has_budget else SECONDS
    if has_budget:
        raise BadWords("--seconds and a budget do not go together")
    return seconds_in(text)


def seconds_in(text):
    """The seconds that a word allows. Raises `BadWords`."""
    try:
        seconds = float(text)
    except ValueError:
        seconds = 0
    if not 0 < seconds < float("inf"):
        raise BadWords(f"--seconds needs a number above 0, and not {text}")
    return seconds


def check_options(question):
    """Raises `BadWords` where an option has a value that it may not have."""
    value = question.options.get("--fail-on", CONTRADICTORY)
    if value != CONTRADICTORY:
        raise BadWords(f"--fail-on can be {CONTRADICTORY}, and not {value}")


def is_whole_needed(question):
    """Whether something else is printed than what the program prints, or the status is another one."""
    return bool(question.added) or any(it in question.options for it in WHOLE_OPTIONS)


def told(question, source, known, hint, **more):
    """Prints what is known, with a hint where that is undecided, and returns the status."""
    output, status = known.ended.output, known.status
    if is_whole_needed(question):
        # most answers are printed as they are
        from shq_tools import views

        output, status = views.shown(question, source, known, **more), views.status_of(question, known)
    if not written(output):
        return Status.WRITE_FAULT
    if known.signal:
        say(f"ended by signal {known.signal}; this is what was known then")
        end_by(known.signal)
    if known.status == Status.UNDECIDED:
        say(hint)
    return status


def hint_for(question, known, seconds):
    """How to allow more."""
    return hint_on_budget(question) if seconds is None else hint_on_seconds(question, known, seconds)


def passed_through(question, source):
    """Asks once, and lets the answer through as it comes; returns the status."""
    status = run_through(question.words, source)
    if status == Status.UNDECIDED:
        say(hint_on_budget(question))
    return status


def answered_at_once(question, source, seconds):
    """Asks one question, and returns the status."""
    if seconds is None and not is_whole_needed(question):
        return passed_through(question, source)
    known = known_with(question.words, source) if seconds is None else known_within(question.words, source, seconds)
    return told(question, source, known, hint_for(question, known, seconds))


def answered(question, source):
    """Asks the program, and returns its status. Raises `BadWords`."""
    check_options(question)
    seconds = seconds_of(question)
    if question.words[0] != "session":
        return answered_at_once(question, source, seconds)
    # what a session needs is read in for sessions alone
    from shq_tools.session_answering import script_answered

    try:
        return script_answered(question, source, seconds)
    except OSError as error:
        return read_fault(question, question.script, error)


def read_fault(question, name, error):
    """Says that a file, or standard input, cannot be read, and returns the status."""
    say(f"{name or 'standard input'}: {error.strerror}")
    return told(question, None, Known(Ended(Status.READ_FAULT, READ_FAULT), 0), "")
