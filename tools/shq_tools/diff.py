"""`./shq diff`: what follows from one ontology and not from another, and why."""
import sys
from dataclasses import dataclass, field

from shq_tools.answering import seconds_in
from shq_tools.answers import Realization, Taxonomy, Unread, answer
from shq_tools.asker import Asker, at_once_in
from shq_tools.budgets import SECONDS
from shq_tools.commands import COMMANDS, JSON
from shq_tools.differences import Said, came, first_ones, said_of, statement_text, without_new_names
from shq_tools.json_of_tools import object_of_changes, print_object
from shq_tools.messages import say, say_plainly
from shq_tools.names import Names
from shq_tools.preparing import Unprepared, prepared
from shq_tools.shown_reasons import names_over, originals_in, reason_lines, smallest_reason
from shq_tools.sources import Source, source_of
from shq_tools.statuses import Status
from shq_tools.tokens import Refused
from shq_tools.vocabulary import Vocabulary, vocabulary_of
from shq_tools.words import Asked, BadWords, without_options

MOST_REASONS = 20


class Unanswered(Exception):
    """A file of which the program said something else than what follows from it."""

    def __init__(self, name, said, status):
        super().__init__(f"{name}: {said}")
        self.status = status


@dataclass
class Side:
    """One of the two files: what is read, its names, and what follows from it."""

    name: str
    source: Source
    vocabulary: Vocabulary
    said: Said = None


def side_of(name, options):
    """A file, read. Raises `OSError`, `Unprepared` and `Unanswered`."""
    _, source = prepared(Asked(("diff", name, name), name, options), source_of(name))
    try:
        return Side(name, source, vocabulary_of(source.data))
    except Refused as refused:
        raise Unanswered(name, refused, Status(refused_status(refused))) from refused


def refused_status(refused):
    return {"bad text": Status.BAD_TEXT, "outside": Status.OUTSIDE, "limit": Status.LIMIT}[refused.sort]


def answered(asker, side, job, kind):
    """What the program answers to a job. Raises `Unanswered` where that is of another kind."""
    known = asker.known((job,), side.source)
    text = known.ended.output.decode("utf-8", "replace")
    try:
        found = answer(text)
    except Unread:
        found = None
    if not isinstance(found, kind):
        raise Unanswered(side.name, f"{job} is {text.strip()[:200] or 'without an answer'}", known.status)
    return found


def what_follows(asker, side):
    """What follows from a file. Raises `Unanswered`."""
    taxonomy = answered(asker, side, "classify", Taxonomy)
    has_types = taxonomy.is_consistent and side.vocabulary.names["individuals"]
    return said_of(taxonomy, answered(asker, side, "realize", Realization) if has_types else None)


def tell(sign, statements, names, reasons, originals):
    """Prints statements, each with its reason where it has one."""
    for statement in statements:
        print(f"{sign} {statement_text(statement, names)}")
        for line in reason_lines(reasons.get(statement), names, originals):
            print(f"    {line}")
    sys.stdout.flush()


def reasons_for(asker, side, statements, most):
    """The axioms of a reason for each of the first statements, or None where none was found in time."""
    first = statements[:most]
    return dict(zip(first, asker.all(lambda it: smallest_reason(asker, it.question(), side.source, 0, 0), first)))


@dataclass
class Changes:
    """Statements that follow from one of the files alone: those to tell, and how many are left out since they follow
    from these. The axioms of a reason, for the first ones of those that came.
    """

    statements: list
    left_out: int
    reasons: dict = field(default_factory=dict)

    @property
    def count(self):
        return len(self.statements) + self.left_out


def changes_of(statements, side, is_all):
    """The statements to tell."""
    found = statements if is_all else first_ones(statements, side.said)
    return Changes(found, len(statements) - len(found))


def most_reasons(options):
    """For how many statements a reason is told. Raises `BadWords`."""
    text = options.get("--reasons", str(MOST_REASONS))
    if not text.isascii() or not text.isdigit():
        raise BadWords(f"--reasons needs a number, and not {text}")
    return int(text)


@dataclass
class Task:
    """Two files to compare, by their names; what is read of the new one, what things are called, what came and went."""

    old: str
    new: str
    options: dict
    source: Source = None
    names: Names = None
    came: Changes = None
    went: Changes = None

    @property
    def is_json(self):
        return JSON.name in self.options


def compared(task):
    """Compares two files, and returns the status. Raises `BadWords`, `OSError`, `Unprepared` and `Unanswered`."""
    options = task.options
    seconds = seconds_in(options["--seconds"]) if "--seconds" in options else SECONDS
    at_once, most = at_once_in(options.get("-j")), most_reasons(options)
    old, new = side_of(task.old, options), side_of(task.new, options)
    task.source = new.source
    task.names = names = names_over([new.vocabulary, old.vocabulary], options.get("--language", ""))
    with Asker(seconds, at_once) as asker:
        for side, said in zip((old, new), asker.all(lambda it: what_follows(asker, it), (old, new))):
            side.said = said
        asker.progress.stop()
        if asker.signals.got:
            return not_compared(task, "it was ended by a signal", Status.UNDECIDED)
        went, come = (without_new_names(it, names) for it in (came(new.said, old.said), came(old.said, new.said)))
        task.went, task.came = (changes_of(it, side, "--all" in options) for it, side in ((went, old), (come, new)))
        tell_gone(task)
        task.came.reasons = reasons_for(asker, new, task.came.statements, most)
        return tell_come(task)


def tell_gone(task):
    """Prints what went, where no object is made of it all."""
    if not task.is_json:
        tell("-", task.went.statements, task.names, {}, {})


def tell_come(task):
    """Prints what came, or all as an object, and returns the status."""
    status = Status.FAILED if task.came.count or task.went.count else Status.DONE
    if task.is_json:
        print_object(object_of_changes(task, status))
    else:
        originals = originals_in(task.source, task.names)
        tell("+", task.came.statements, task.names, task.came.reasons, originals)
    tell_counts(task.came, task.went)
    return status


def tell_counts(come, went):
    """Says how much came and went."""
    left = come.left_out + went.left_out
    more = f"; {left:,} that follow from these are left out (--all)" if left else ""
    said = f"{come.count:,} came, {went.count:,} went{more}"
    say(said if come.count or went.count else "nothing came and nothing went")


def not_compared(task, fault, status):
    """Says why nothing is compared, and returns the status."""
    if task.is_json:
        print_object(object_of_changes(task, status, fault))
    return status


def main(given):
    """Compares two files, and returns the status."""
    sys.stdout.reconfigure(encoding="utf-8", errors="backslashreplace")
    command = COMMANDS["diff"]
    task = Task(None, None, {JSON.name: ""} if JSON.name in given else {})
    try:
        words, options = without_options(command, list(given))
        if len(words) != 2 or any(it.startswith("-") for it in words):
            raise BadWords("diff needs two files")
        task = Task(*words, options)
        return compared(task)
    except BadWords as fault:
        say(str(fault))
        say_plainly(command.usage())
        return not_compared(task, fault, Status.BAD_WORDS)
    except (Unprepared, Unanswered) as fault:
        say(str(fault))
        return not_compared(task, fault, fault.status)
    except OSError as error:
        if error.filename is None or not task.is_json:
            raise
        say(f"{error.filename}: {error.strerror}")
        return not_compared(task, f"{error.filename}: {error.strerror}", Status.READ_FAULT)
