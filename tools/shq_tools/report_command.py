"""`./shq report`: one page, or text for a pull request, on a whole ontology."""
import argparse
import sys

from shq_tools.approximation.command import BadStrength, strength_of, with_value
from shq_tools.asker import Asker
from shq_tools.budgets import SECONDS
from shq_tools.converting import ontology_data_of
from shq_tools.input_files import STATUSES
from shq_tools.messages import say
from shq_tools.names import has_language, languages
from shq_tools.report import given_of, given_of_translation, report_on
from shq_tools.report_markdown import markdown_of_report
from shq_tools.report_page import page_of_report
from shq_tools.report_words import title_of
from shq_tools.statuses import Status, status_of
from shq_tools.tokens import Refused
from shq_tools.wording import refusal_text


def words_of(words):
    """The words of the command, taken apart."""
    parser = argparse.ArgumentParser(prog="./shq report", description=__doc__, allow_abbrev=False)
    parser.add_argument("-o", "--output", metavar="PAGE", help="where it is written, in place of standard output")
    parser.add_argument("--markdown", action="store_true", help="text for a pull request, in place of a page")
    parser.add_argument("--language", metavar="TAG", default="", help="the language of the labels, as en")
    parser.add_argument("--seconds", metavar="N", type=float, default=SECONDS,
                        help=f"how long the hierarchy may take, then all reasons together, then what the full "
                             f"translation adds ({SECONDS} without it)")
    parser.add_argument("-j", "--jobs", metavar="N", type=int, default=None, help="how many questions at once")
    parser.add_argument("--fail-on", choices=["contradictory"], help="end with 1 where something is contradictory")
    parser.add_argument("--approximate", metavar="full", nargs="?", const="",
                        help="translate what is outside of the language, and say what is lost")
    parser.add_argument("file", nargs="?", metavar="FILE", help="the ontology, in place of standard input")
    given = parser.parse_args(with_value(words))
    if given.seconds <= 0 or given.jobs is not None and given.jobs < 1:
        parser.error("--seconds and --jobs need numbers above 0")
    return given


def given_by(words, data):
    """The ontology as the program is asked about it. Raises `Refused` and `BadStrength`."""
    file = words.file or ""
    if words.approximate is None:
        return given_of(data, file, words.language)
    return given_of_translation(data, strength_of(words.approximate), file, words.language)


def refused(text):
    """Says why there is no report."""
    say(f"there is no report, since the ontology is not read: {refusal_text(text)}")


def written_to(path, text):
    """Writes the page into a file, or to standard output, and returns whether that went well."""
    if path is None:
        sys.stdout.write(text)
        # a signal that came ends this script before anything is flushed by itself
        sys.stdout.flush()
        return True
    try:
        with open(path, "w", encoding="utf-8", errors="replace") as file:
            file.write(text)
    except OSError as error:
        say(f"{path}: {error.strerror}")
        return False
    return True


def complain_of_language(given):
    labels, language = given.names.labels, given.names.language
    if labels and language and not has_language(labels, language):
        say(f"no label is in the language {language}; there are labels in {', '.join(languages(labels))}")


def status_behind(words, report):
    """How the command ends once the page is written."""
    if report.is_undecided:
        return Status.UNDECIDED
    return Status.FAILED if words.fail_on and report.is_contradictory else Status.DONE


def told(words, report):
    """Writes the report, and returns the status."""
    if report.refusal:
        refused(report.refusal)
        return status_of(report.refusal)
    text = markdown_of_report(report) if words.markdown else page_of_report(report)
    if not written_to(words.output, text):
        return Status.WRITE_FAULT
    say(title_of(report))
    return status_behind(words, report)


def main(given_words):
    """Writes the report, and returns 0; with `--fail-on contradictory` 1 where something is contradictory."""
    words = words_of(given_words)
    data = ontology_data_of([words.file] if words.file else [])
    sys.stdout.reconfigure(encoding="utf-8", errors="replace")
    try:
        given = given_by(words, data)
    except BadStrength as fault:
        say(str(fault))
        return Status.BAD_WORDS
    except Refused as fault:
        refused(str(fault))
        return STATUSES[fault.sort]
    complain_of_language(given)
    with Asker(words.seconds, words.jobs) as asker:
        report = report_on(given, asker)
        asker.progress.stop()
        return told(words, report)
