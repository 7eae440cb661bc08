"""`./shq verify`: asks whether each check of a file holds, and says why where it does not."""
import os
import sys
import time
from dataclasses import dataclass, field, replace

from shq_tools.answering import seconds_in
from shq_tools.answers import Model, Unread, answer
from shq_tools.asker import Asker, at_once_in
from shq_tools.budgets import SECONDS
from shq_tools.checks import Check, checks_in
from shq_tools.commands import COMMANDS, JSON
from shq_tools.json_of_tools import object_of_checks, print_object
from shq_tools.junit import junit_of
from shq_tools.messages import say, say_plainly
from shq_tools.names import Names
from shq_tools.preparing import Unprepared, prepared
from shq_tools.questions import Put, with_axioms
from shq_tools.shown_reasons import Why, names_over, originals_in, smallest_reason, why_lines
from shq_tools.sources import Source, source_of
from shq_tools.statuses import Status, status_of
from shq_tools.tokens import Refused
from shq_tools.vocabulary import Vocabulary, vocabulary_of
from shq_tools.words import Asked, BadWords, without_options

# Follows from an ontology from which everything does, and from no other one.
EVERYTHING = "SubClassOf(owl:Thing owl:Nothing)"
WORDING = {
    "entailed": "it follows",
    "not entailed": "it does not follow",
    "satisfiable": "it can have a member",
    "unsatisfiable": "it can have no member",
}


@dataclass(frozen=True)
class Result:
    """What came of a check: how it was asked, the verdict or another first line of an answer, why it is so, the seconds
    that it took, and lines that tell why.
    """

    check: Check
    put: Put
    verdict: str
    why: Why
    seconds: float
    details: tuple = ()

    @property
    def is_ok(self):
        return self.verdict == self.check.wanted

    @property
    def is_failure(self):
        """Whether the opposite is known, and not only that nothing is."""
        return self.verdict == self.check.opposite

    @property
    def what(self):
        return WORDING.get(self.verdict, self.verdict)

    def lines(self):
        if self.is_ok:
            return [f"ok      line {self.check.number}: {self.check.line}"]
        head = "FAILED " if self.is_failure else "unknown"
        first = f"{head} line {self.check.number}: {self.check.line}, but {self.what}"
        return [first, *(f"          {it}" for it in self.details)]


@dataclass
class Verifier:
    """Asks the questions of checks about one ontology."""

    asker: Asker
    source: Source
    vocabulary: Vocabulary
    names: Names
    originals: dict

    def asked_on(self, put):
        """What the program reads for a question."""
        return replace(self.source, data=with_axioms(self.source.data, put.added)) if put.added else self.source

    def tell_whether_inconsistent(self):
        """Says where everything follows, since nothing can meet all axioms."""
        known = self.asker.known(("entails", EVERYTHING), self.source)
        if known.ended.output.startswith(b"entailed"):
            say("the ontology is inconsistent, so everything follows from it")

    def result(self, pair):
        """What comes of a check."""
        check, put = pair
        begun = time.monotonic()
        source = self.asked_on(put)
        known = self.asker.known((check.job, put.text), source)
        text = known.ended.output.decode("utf-8", "replace")
        verdict = text.partition("\n")[0]
        why = self.why(check, put, source, text) if verdict == check.opposite else Why()
        details = tuple(why_lines(why, self.names, self.originals))
        return Result(check, put, verdict, why, time.monotonic() - begun, details)

    def why(self, check, put, source, text):
        """A reason why something follows, or a world in which it does not."""
        try:
            found = answer(text)
        except Unread:
            return Why()
        if isinstance(found, Model):
            return Why(model=found)
        question = f"SubClassOf({put.text} owl:Nothing)" if check.slot == "CLASS" else put.text
        reason = smallest_reason(self.asker, question, source, self.vocabulary.axiom_count, len(put.added))
        if reason is not None:
            return Why(reason)
        # no reason was found in time, but the certificate names axioms that suffice
        used = [it for it in found.axioms if it <= self.vocabulary.axiom_count]
        return Why([self.vocabulary.axioms[it - 1] for it in used], is_smallest=False)


def status_over(results):
    """The status of some results: a failure comes first, then what is not known."""
    if any(it.is_failure for it in results):
        return Status.FAILED
    left = [it.verdict for it in results if not it.is_ok]
    return status_of(left[0]) if left else Status.DONE


def write_junit(path, name, results):
    """Writes a report, and returns whether that went well."""
    try:
        with open(path, "w", encoding="utf-8", errors="replace") as file:
            file.write(junit_of(name, results))
    except OSError as error:
        say(f"{path}: {error.strerror}")
        return False
    return True


def read_checks(name):
    """The text of a file of checks. Raises `OSError`."""
    return source_of(None if name == "-" else name).data.decode("utf-8", "replace")


class Faulty(Exception):
    """Lines that are no checks, or name what the ontology does not have."""

    def __init__(self, faults):
        super().__init__("; ".join(f"line {it.number}: {it.text}" for it in faults))
        self.faults = faults


@dataclass
class Task:
    """A file and its checks by their names, what is read of the file and what things in it are called, and how many
    checks there are; and what came of them, of fewer where a signal ended it.
    """

    file: str
    checks: str
    options: dict
    source: Source = None
    names: Names = None
    count: int = 0
    results: list = field(default_factory=list)

    @property
    def is_json(self):
        return JSON.name in self.options


def pairs_in(task, vocabulary):
    """The checks, each with its question. Raises `Faulty`."""
    pairs, faults = checks_in(read_checks(task.checks), vocabulary, "--any-names" in task.options)
    if faults:
        raise Faulty(faults)
    return pairs


def tell(task, result):
    """Notes a result, and prints it where no object is made of all of them."""
    if not task.is_json:
        print("\n".join(result.lines()), flush=True)
    task.results.append(result)


def verified(task):
    """Asks the checks of a task, and returns the status. Raises `BadWords`, `OSError`, `Unprepared`, `Refused` and
    `Faulty`.
    """
    options = task.options
    seconds = seconds_in(options["--seconds"]) if "--seconds" in options else SECONDS
    at_once = at_once_in(options.get("-j"))
    _, task.source = prepared(Asked(("verify", task.file, task.checks), task.file, options), source_of(task.file))
    vocabulary = vocabulary_of(task.source.data)
    pairs = pairs_in(task, vocabulary)
    task.count, task.names = len(pairs), names_over([vocabulary], options.get("--language", ""))
    originals = originals_in(task.source, task.names)
    with Asker(seconds, at_once) as asker:
        verifier = Verifier(asker, task.source, vocabulary, task.names, originals)
        for result in asker.all(verifier.result, pairs):
            asker.progress.stop()
            tell(task, result)
        if any(it.is_failure for it in task.results):
            verifier.tell_whether_inconsistent()
        tell_counts(task.results)
        return reported(task)


def tell_counts(results):
    """Says how many checks failed, and of how many it is not known."""
    say(
        f"{len(results):,} checks, {sum(it.is_failure for it in results):,} failed, "
        f"{sum(not it.is_ok and not it.is_failure for it in results):,} not known"
    )


def reported(task):
    """Writes what is made of all results together, and returns the status."""
    results, report = task.results, task.options.get("--junit")
    status = status_over(results)
    if status == Status.DONE and len(results) < task.count:
        status = Status.UNDECIDED
    if report and not write_junit(report, os.path.basename(task.checks), results):
        status = Status.WRITE_FAULT
    if task.is_json:
        print_object(object_of_checks(task, status))
    return status


def not_verified(task, fault, status):
    """Says why nothing is asked, and returns the status."""
    if task.is_json:
        print_object(object_of_checks(task, status, fault))
    return status


def main(given):
    """Verifies the checks of a file, and returns the status."""
    sys.stdout.reconfigure(encoding="utf-8", errors="backslashreplace")
    command = COMMANDS["verify"]
    task = Task(None, None, {JSON.name: ""} if JSON.name in given else {})
    try:
        words, options = without_options(command, list(given))
        if len(words) != 2 or any(it.startswith("-") and it != "-" for it in words):
            raise BadWords("verify needs a file and a file of checks")
        task = Task(*words, options)
        return verified(task)
    except BadWords as fault:
        say(str(fault))
        say_plainly(command.usage())
        return not_verified(task, fault, Status.BAD_WORDS)
    except Faulty as fault:
        for one in fault.faults:
            say(f"{task.checks}, line {one.number}: {one.text}")
        return not_verified(task, fault, fault.faults[0].status)
    except Unprepared as fault:
        say(str(fault))
        return not_verified(task, fault, fault.status)
    except Refused as refused:
        if not task.is_json:
            print(refused)
        return not_verified(task, refused, status_of(str(refused)))
    except OSError as error:
        if error.filename is None or not task.is_json:
            raise
        say(f"{error.filename}: {error.strerror}")
        return not_verified(task, f"{error.filename}: {error.strerror}", Status.READ_FAULT)
