"""The command `./shq`: hands its words to the program, or to a script of this folder.

Standard output and the exit status are those of the program. What is said besides goes to standard error: a usage
line where the words are wrong, how to allow more where an answer is undecided, and on a terminal the seconds that
passed. `commands` has the table of all commands and options.
"""
import sys

from shq_tools import program, unproved
from shq_tools.answering import answered, is_whole_needed, read_fault
from shq_tools.commands import COMMANDS, JSON, command_in, complaints_on, help_text, usage_for
from shq_tools.messages import say, say_plainly
from shq_tools.output import guarded, written
from shq_tools.places import TOOLS
from shq_tools.preparing import Unprepared, prepared
from shq_tools.running import run_through
from shq_tools.sources import source_of
from shq_tools.statuses import Status
from shq_tools.versions import version_text
from shq_tools.words import BadWords, asked

HELP_WORDS = ("--help", "-h")
BAD_WORDS = b"bad words\n"


def words_not_asked(given, complaints, status, plain=b""):
    """Prints that nothing is asked, as an object where the words want one, and returns the status."""
    output = plain
    if JSON.name in given:
        from shq_tools import json_view

        told = json_view.of_words(given, "; ".join(complaints), status)
        output = json_view.text_of(told).encode("utf-8")
    return status if not output or written(output) else Status.WRITE_FAULT


def not_asked(question, fault):
    """Says why a question is not asked, and returns the status."""
    say(str(fault))
    if not is_whole_needed(question):
        return fault.status
    from shq_tools.views import refusal_shown

    return fault.status if written(refusal_shown(question, str(fault), fault.status)) else Status.WRITE_FAULT


def ask_on_file(question):
    """Asks about an ontology, and returns the status."""
    if question.file is None and sys.stdin and sys.stdin.isatty():
        say("reading what is typed, up to Ctrl-D; a file can be given as the last word")
    try:
        source = source_of(question.file)
    except OSError as error:
        return read_fault(question, question.file, error)
    try:
        return answered(*prepared(question, source))
    except Unprepared as fault:
        return not_asked(question, fault)


def ask_without_file(question):
    """Asks what needs no ontology, or lets the program say that the words are bad, and returns the status. Raises
    `BadWords` where that is to be said in another form than the program's.
    """
    command = question.command
    if command and not command.files and command.is_job:
        return answered(question, None)
    if JSON.name in question.given:
        raise BadWords()
    return run_through(question.words)


def complain_of_words(given, complaints):
    """Says what is wrong with the words of a job."""
    for complaint in complaints:
        say(complaint)
    say_plainly(usage_for(given))


def ask(given):
    """Asks the program, and returns its status."""
    if not program.is_ready():
        return words_not_asked(given, [program.NOT_THERE], Status.NOT_BUILT)
    complaints = []
    try:
        question = asked(given)
        status = ask_on_file(question) if question.is_whole else ask_without_file(question)
    except BadWords as fault:
        complaints = [it for it in [str(fault), *complaints_on(given)] if it]
        status = words_not_asked(given, complaints or [usage_for(given)], Status.BAD_WORDS, BAD_WORDS)
    if status == Status.BAD_WORDS:
        complain_of_words(given, complaints or complaints_on(given))
    return status


def run_script(command, words):
    """Runs a script of this folder, and returns its status."""
    try:
        return guarded(command.run, words)
    except Unprepared as fault:
        say(str(fault))
        return fault.status


def print_help(words):
    """Prints what a command is for, or what all are, and returns 0."""
    command = command_in(words)
    text = help_text(command) if command else (TOOLS / "usage.txt").read_text(encoding="utf-8")
    return Status.DONE if written(text.encode("utf-8")) else Status.WRITE_FAULT


def main(given):
    """Does what the words of ./shq ask, and returns the exit status."""
    words = list(given)
    if words[:1] == ["help"] or any(it in HELP_WORDS for it in words):
        return print_help(words)
    if words[:1] == ["--version"]:
        return Status.DONE if written(version_text().encode("utf-8")) else Status.WRITE_FAULT
    if unproved.OPTION in words:
        return guarded(unproved.main, words)
    command = COMMANDS.get(words[0]) if words else None
    if command is None or command.is_job:
        return ask(words)
    if command.needs_program and not program.is_ready():
        return Status.NOT_BUILT
    return run_script(command, words[1:])
