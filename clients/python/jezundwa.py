"""Asks the reasoner from Python: `Ontology("organs.ofn").explain("SubClassOf(:Heart :Organ)")`.

It needs the standard library alone, and `shq`: the one that the environment variable JEZUNDWA_SHQ names, that of the
checkout in which this file lies, or the one on the PATH. It reads what `shq JOB --json` prints. It is not proved.
"""
import json
import os
import shutil
import subprocess
import tempfile
from dataclasses import dataclass, field
from pathlib import Path

# The system refuses a word of a command line of 128 KiB; a longer statement is handed over in a file.
LONGEST_WORD = 100_000


class Failed(Exception):
    """There is no answer; `answer` has what was printed, as an object of `docs/answer.schema.json`, or is empty."""

    def __init__(self, message, answer=None):
        super().__init__(message)
        self.answer = answer or {}


class Refused(Failed):
    """The ontology or the statement is damaged, outside of the language, or beyond a limit."""


class Undecided(Failed):
    """The steps or the seconds did not suffice; `answer` has what is known."""


@dataclass(frozen=True)
class Axiom:
    """An axiom of the ontology: its number, its line in the file, and its text with whole IRIs."""

    number: int
    line: int
    text: str


@dataclass
class Ontology:
    """An ontology in a file. `options` are words for `shq`, as "--approximate" or "--seconds", "10"."""

    path: str
    options: tuple = ()
    shq: str = field(default_factory=lambda: find_shq())

    def explain(self, statement):
        """Every reason why a statement follows: a list of lists of axioms."""
        return self._sets("explain", statement)

    def repair(self, statement):
        """Every way to stop it: a list of lists of axioms to remove."""
        return self._sets("repair", statement)

    def entails(self, statement):
        """Whether a statement follows."""
        return self.ask("entails", statement)["verdict"] == "entailed"

    def is_satisfiable(self, expression):
        """Whether a class expression can have a member."""
        return self.ask("sat", expression)["verdict"] == "satisfiable"

    def is_consistent(self):
        return self.ask("classify")["verdict"] == "consistent"

    def contradictory(self):
        """The classes that cannot have a member, by their IRIs."""
        return self.ask("classify").get("contradictory", [])

    def types(self):
        """Of each individual the most specific classes, by their IRIs."""
        return {one["individual"]: one["classes"] for one in self.ask("realize").get("types", [])}

    def instances(self, expression):
        """The individuals in a class expression, by their IRIs."""
        return self.ask("instances", expression)["individuals"]

    def ask(self, job, *words):
        """The whole answer of a job, as an object of `docs/answer.schema.json`."""
        with tempfile.TemporaryDirectory() as folder:
            command = [self.shq, job, *(_word(word, folder) for word in words), str(self.path), "--json", *self.options]
            run = subprocess.run(command, capture_output=True, stdin=subprocess.DEVNULL, check=False)
        try:
            answer = json.loads(run.stdout)
        except ValueError:
            raise Failed(run.stderr.decode("utf-8", "replace").strip() or f"shq ended with {run.returncode}") from None
        if answer["verdict"] == "refused":
            refused = answer["refused"]
            raise Refused(f"{refused['why']} {refused['what']}, line {refused['where']}", answer)
        if not answer["complete"]:
            raise Undecided(f"{job}: {answer['verdict']}", answer)
        if answer["status"]["number"] != 0:
            raise Failed(answer.get("message") or answer["status"]["name"], answer)
        return answer

    def _sets(self, job, statement):
        answer = self.ask(job, statement)
        axioms = {one["number"]: Axiom(**one) for one in answer["axioms"]}
        return [[axioms[number] for number in numbers] for numbers in answer["sets"]]


def _word(text, folder):
    """A word of the command line, or the name of a file that has it."""
    if len(text.encode()) <= LONGEST_WORD:
        return text
    file = Path(folder, "statement.txt")
    file.write_text(text, encoding="utf-8")
    return f"@{file}"


def find_shq():
    checkout = Path(__file__).resolve().parents[2] / "shq"
    own = str(checkout) if os.access(checkout, os.X_OK) else None
    found = os.environ.get("JEZUNDWA_SHQ") or own or shutil.which("shq")
    if not found:
        raise Failed("shq is not on the PATH, and JEZUNDWA_SHQ does not name it")
    return found
