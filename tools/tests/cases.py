"""The cases of `job_cases`, for tests that find in another way what they say."""
import re
from dataclasses import dataclass

from shq_tools.places import CRATES

FOLDER = CRATES / "job_cases"


@dataclass
class Case:
    """A case: its lines of axioms, the text that is asked about, the lines behind the document, and the answer's."""

    name: str
    axioms: list
    asked: str
    script: list
    told: list


def document_of(axioms):
    """A document with these axioms, which stand on line 3 and after it."""
    lines = ["Prefix(:=<http://e.org/>)", "Ontology(", *axioms, ")"]
    return "".join(it + "\n" for it in lines).encode("utf-8")


def answers():
    """The lines of each answer of a run that is done, by the name of the case."""
    found = {}
    for line in (FOLDER / "stdout").read_text("utf-8").splitlines():
        name, _, said = line.partition(": Done; ")
        found[name] = said.removesuffix(" (unended)").split(" | ")
    return found


def behind(key, lines):
    """What stands behind a key on the lines that begin with it."""
    return [it.partition(" ")[2] for it in lines if it.partition(" ")[0] == key]


def cases(names):
    """The cases whose names are of this form."""
    blocks, told = {}, answers()
    text = re.sub(r"(?m)^#.*\n", "", (FOLDER / "stdin").read_text("utf-8"))
    for block in re.split(r"\n\n+", text.strip()):
        first, *lines = block.splitlines()
        kind, _, name = first.partition(" ")
        if lines and lines[0].startswith("like "):
            lines = blocks[lines[0].removeprefix("like ")] + lines[1:]
        blocks[name] = lines
        if kind == "case" and re.fullmatch(names, name):
            asked = behind("ask", lines)[-1].partition(" ")[2]
            yield Case(name, behind("axioms", lines), asked, behind("certificate", lines), told[name])
