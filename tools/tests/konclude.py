"""Konclude, another reasoner: Debian's package konclude."""
import shutil
import subprocess
import tempfile
import unittest
import xml.etree.ElementTree as ElementTree
from pathlib import Path

COMMAND = shutil.which("Konclude")
needs_konclude = unittest.skipUnless(COMMAND, "Debian's package konclude is not installed")
# It may wait for itself for ever, the more so with one worker.
SECONDS, TRIALS = 60, 3
OWL = "{http://www.w3.org/2002/07/owl#}"
THING, NOTHING = (f"http://www.w3.org/2002/07/owl#{it}" for it in ("Thing", "Nothing"))


class NoAnswer(Exception):
    """Konclude did not answer in time."""


def asked(job, data, trials, limit):
    """What Konclude says of an ontology, as the root of its XML. The job is classification or realization."""
    with tempfile.TemporaryDirectory() as room:
        given, found = Path(room) / "ontology.ofn", Path(room) / "answer.xml"
        given.write_bytes(data)
        command = [COMMAND, job, "-w", "2", "-i", str(given), "-o", str(found)]
        for _ in range(trials):
            try:
                subprocess.run(command, capture_output=True, timeout=limit, check=False)
            except subprocess.TimeoutExpired:
                continue
            if found.exists():
                return ElementTree.parse(found).getroot()
    raise NoAnswer


def pairs(data, trials=TRIALS, limit=SECONDS):
    """The pairs of names of classes of an ontology of which the first is below the second, by Konclude."""
    above = {}
    for group in asked("classification", data, trials, limit):
        names = names_in(group)
        if group.tag == OWL + "SubClassOf":
            above.setdefault(names[0], set()).add(names[1])
        if group.tag == OWL + "EquivalentClasses":
            for one, other in zip(names, names[1:] + names[:1]):
                above.setdefault(one, set()).add(other)
    return {(one, other) for one in above for other in reached(one, above) if one != other and other != THING}


def types(data, trials=TRIALS, limit=SECONDS):
    """The pairs of an individual and a class in which it is, by Konclude."""
    found = [names_in(it) for it in asked("realization", data, trials, limit) if it.tag == OWL + "ClassAssertion"]
    return {(individual, of) for of, individual in found if of != THING}


def names_in(group):
    """The IRIs of the names that an axiom of an answer has."""
    return [it.get("IRI") or it.get("abbreviatedIRI", "").replace("owl:", OWL[1:-1]) for it in group]


def reached(one, above):
    found, left = {one}, [one]
    while left:
        new = above.get(left.pop(), set()) - found
        found |= new
        left += new
    return found
