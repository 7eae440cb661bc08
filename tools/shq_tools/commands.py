"""The commands of `./shq`, in one table: their words, their options, and what runs them.

To add a command, put a row into `COMMANDS`; to add an option, make an `Option` and name it in the rows that take it
(`JOB_OPTIONS` for each job of the program that reads an ontology). The usage lines, `./shq COMMAND --help`, and
whatever else lists commands are made from here: `COMMANDS` and `GENERAL_OPTIONS` are all there is.

A row with a `runner`, as `shq_tools.cut:main`, is a script of this folder: the call gets the words behind the
command's name, and its answer is the exit status. A row without one is a job of the program.

An option with `prepares`, as `shq_tools.approximation.command:prepared`, changes what a job reads before the program is
asked: see `preparing` for what that call gets and returns.
"""
import difflib
import importlib
from dataclasses import dataclass


@dataclass(frozen=True)
class Option:
    """An option: its name with its dashes, what stands behind it (nothing for a switch), and what it is for.

    Where the value may be left out, it is given by an equals sign alone, as in `--approximate=full`.
    """

    name: str
    value: str = ""
    text: str = ""
    may_lack_value: bool = False
    prepares: str = ""

    def usage(self):
        if not self.value:
            return self.name
        return f"{self.name}[={self.value}]" if self.may_lack_value else f"{self.name} {self.value}"


@dataclass(frozen=True)
class Command:
    """A command: what it is for, the words that it needs, those that it may have behind them, and its options."""

    name: str
    text: str
    operands: tuple = ()
    files: tuple = ("FILE",)
    options: tuple = ()
    runner: str = ""
    has_budget: bool = False
    needs_program: bool = True

    @property
    def is_job(self):
        """Whether it is a job of the program."""
        return not self.runner

    def usage(self):
        """The usage line."""
        words = ["usage: ./shq", self.name, *self.operands]
        words += ["[budget STEPS]"] * self.has_budget
        words += [f"[{it}]" for it in self.files]
        return " ".join(words)

    def option(self, name):
        """The option of this name, or None."""
        return next((it for it in self.options if it.name == name), None)

    def run(self, words):
        """Runs a script of this folder, and returns its status."""
        return called(self.runner)(words)


def called(place):
    """The call that stands at a place, as `shq_tools.cut:main`."""
    module, _, name = place.partition(":")
    return getattr(importlib.import_module(module), name)


BUDGET = Option("--budget", "STEPS", "one run with a budget of so many steps, from 1 to 4,294,967,295")
SECONDS = Option("--seconds", "N", "stop after N seconds (60 without it), with growing budgets; not with --budget")

APPROXIMATE = Option(
    "--approximate",
    "full",
    "translate what is outside of the language first, and say what is lost",
    may_lack_value=True,
    prepares="shq_tools.approximation.command:prepared",
)
STRICT = Option("--strict", "", "end with status 10 if the file lacks a name of the question")

TIMED = (BUDGET, SECONDS)
JSON = Option("--json", "", "the answer as one object of JSON, of the form of docs/answer.schema.json")
LANGUAGE = Option("--language", "TAG", "the language of the names in that object or page, as en")
FAIL_ON = Option("--fail-on", "contradictory", "end with status 1 if a class, or the whole ontology, is contradictory")

HTML = Option("--html", "", "the answer as a page")
MARKDOWN = Option("--markdown", "", "the answer as text for a pull request or an issue")

# The options of each job that reads an ontology, of those that check a certificate, of those that ask a question, and
# of those that ask about the whole ontology.
JOB_OPTIONS = (APPROXIMATE, JSON, HTML, MARKDOWN, LANGUAGE)
CHECK_OPTIONS = (STRICT, *JOB_OPTIONS)
ASK_OPTIONS = (*TIMED, STRICT, *JOB_OPTIONS)
WHOLE_OPTIONS = (*TIMED, *JOB_OPTIONS)

JOBS = (
    Command("check", "whether the certificate after the ontology is right", ("AXIOM",), options=CHECK_OPTIONS),
    Command(
        "audit", "whether the audit after the ontology is right, and lacks nothing", ("AXIOM",), options=CHECK_OPTIONS
    ),
    Command("entails", "whether AXIOM follows, with a certificate", ("AXIOM",), options=ASK_OPTIONS, has_budget=True),
    Command(
        "sat", "whether CLASS can have a member, with a certificate", ("CLASS",), options=ASK_OPTIONS, has_budget=True
    ),
    Command(
        "classify",
        "the hierarchy of all classes, and which of them are contradictory",
        options=(*WHOLE_OPTIONS, FAIL_ON),
        has_budget=True,
    ),
    Command("realize", "the most specific classes of each individual", options=WHOLE_OPTIONS, has_budget=True),
    Command("instances", "the individuals in CLASS", ("CLASS",), options=ASK_OPTIONS, has_budget=True),
    Command(
        "why", "the individuals in CLASS, each with every reason", ("CLASS",), options=ASK_OPTIONS, has_budget=True
    ),
    Command(
        "explain",
        "every reason why AXIOM follows: each smallest set of axioms from which it does",
        ("AXIOM",),
        options=ASK_OPTIONS,
        has_budget=True,
    ),
    Command(
        "repair",
        "every repair: each smallest set of axioms without which AXIOM does not follow",
        ("AXIOM",),
        options=ASK_OPTIONS,
        has_budget=True,
    ),
    Command(
        "evidence",
        "all reasons and repairs as an audit, with what shows each",
        ("AXIOM",),
        options=ASK_OPTIONS,
        has_budget=True,
    ),
    Command(
        "session",
        "an answer to each line of a script, which follows the ontology or is in SCRIPT",
        files=("FILE", "SCRIPT"),
        options=WHOLE_OPTIONS,
        has_budget=True,
    ),
    Command(
        "workload",
        "counts the reasons and repairs of a query in an ontology that the program makes",
        ("N",),
        files=(),
        options=(*TIMED, JSON, HTML, MARKDOWN),
        has_budget=True,
    ),
)

OF_TRANSLATION = Option("--approximate", "full", "the answer is to the translation of the file for --labels",
                        may_lack_value=True)

READ_OPTIONS = (
    OF_TRANSLATION,
    Option("--labels", "FILE", "the ontology, or another file that has the labels"),
    Option("--language", "TAG", "the language of the labels, as en"),
    Option("--query", "AXIOM", "the statement, or the class, that was asked about"),
    Option("--about", "CLASS", "of a taxonomy only the classes above this class, and two levels below it"),
    Option("--all", "", "of a world (an interpretation) also what has nothing to do with the statement"),
    Option("--dot", "", "a picture for Graphviz"),
    Option("--html", "", "one page"),
    Option("--markdown", "", "text for a pull request or an issue"),
    Option("--pipe-status", "", "end with the status that belongs to the answer"),
)
REPORT_OPTIONS = (
    APPROXIMATE,
    Option("-o", "PAGE", "the file to write, in place of standard output"),
    Option("--markdown", "", "text for a pull request or an issue, in place of a page"),
    Option("--language", "TAG", "the language of the labels, as en"),
    Option("--seconds", "N", "the seconds that the hierarchy may take, and all reasons together (60 without it)"),
    Option("-j", "N", "how many questions are asked at once"),
    Option("--fail-on", "contradictory", "end with status 1 if a class, or the whole ontology, is contradictory"),
)

AT_ONCE = Option("-j", "N", "ask so many questions at once (without it, as many as there are processors)")
EACH_SECONDS = Option("--seconds", "N", "stop each question after so many seconds (60 without it)")
VERIFY_OPTIONS = (
    EACH_SECONDS,
    AT_ONCE,
    Option("--junit", "REPORT", "write the result of each check to this file too, in the form of JUnit"),
    Option("--any-names", "", "ask also about names that the file does not have"),
    JSON,
    LANGUAGE,
    APPROXIMATE,
)

DIFF_OPTIONS = (
    EACH_SECONDS,
    AT_ONCE,
    Option("--all", "", "list also what follows from other listed lines"),
    Option("--reasons", "N", "give a reason for the first N statements that follow from NEW alone (20 without it)"),
    JSON,
    LANGUAGE,
    APPROXIMATE,
)

TOOLS = (
    Command(
        "profile",
        "lists everything that is outside of the language",
        runner="shq_tools.profile:main",
        needs_program=False,
    ),
    Command(
        "cut",
        "writes the ontology without the axioms that are outside of the language",
        runner="shq_tools.cut:main",
        needs_program=False,
    ),
    Command(
        "approximate",
        "translates the ontology into the language, and says what is lost",
        options=(Option("--full", "", "write also what chains and inverses of roles say of each `all r C`"),),
        runner="shq_tools.approximation.command:main",
        needs_program=False,
    ),
    Command(
        "convert",
        "writes a file of another syntax in functional-style syntax, by the OWL API",
        runner="shq_tools.converting:main",
        needs_program=False,
    ),
    Command(
        "report",
        "one page on a whole ontology: what is contradictory and why, the hierarchy, individuals",
        options=REPORT_OPTIONS,
        runner="shq_tools.report_command:main",
    ),
    Command(
        "verify",
        "says of each line of CHECKS whether it holds: what must follow, and what must not",
        ("FILE", "CHECKS"),
        files=(),
        options=VERIFY_OPTIONS,
        runner="shq_tools.verify:main",
    ),
    Command(
        "diff",
        "says what follows from NEW and not from OLD, and the other way round",
        ("OLD", "NEW"),
        files=(),
        options=DIFF_OPTIONS,
        runner="shq_tools.diff:main",
    ),
    Command(
        "read",
        "shows an answer for people",
        options=READ_OPTIONS,
        runner="shq_tools.reading_answers:main",
        needs_program=False,
    ),
)

GENERAL_OPTIONS = (
    Option("--help", "", "the commands; with a command, what it does and its options"),
    Option("--version", "", "the version, and by which kit and when the program was proved"),
    Option("--unproved", "", "with a job: run the sources in a trial, before anything is proved, for a first look"),
)

COMMANDS = {it.name: it for it in JOBS + TOOLS}
USAGE = f"usage: ./shq {'|'.join(COMMANDS)} ..  (./shq --help says more)"


def command_in(words):
    """The first word that names a command, as the command, or None."""
    return next((COMMANDS[it] for it in words if it in COMMANDS), None)


def nearest(text, names):
    """A question whether the nearest of some names was meant, or nothing."""
    near = difflib.get_close_matches(text, names, n=1)
    return f"; is it {near[0]} that is meant?" if near else ""


def complaints_on(words):
    """What to say of words that name no command, or no option of theirs."""
    command = command_in(words)
    options = [it.partition("=")[0] for it in words if it.startswith("--")]
    if command is not None:
        names = [it.name for it in command.options]
        return [f"{command.name} has no option {it}{nearest(it, names)}" for it in options if it not in names]
    plain = [it for it in words if not it.startswith("-")]
    return [f"there is no command {it}{nearest(it, list(COMMANDS))}" for it in plain[:1]]


def usage_for(words):
    """The usage line that fits the words best."""
    command = command_in(words)
    return command.usage() if command else USAGE


def help_text(command):
    """What `./shq COMMAND --help` prints."""
    lines = [command.usage(), "", f"  {command.text}"]
    if command.options:
        width = max(len(it.usage()) for it in command.options)
        lines += ["", "options:", *(f"  {it.usage():<{width}}  {it.text}" for it in command.options)]
    return "\n".join([*lines, "", "./shq --help has all commands, answers and statuses.", ""])
