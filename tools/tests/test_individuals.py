"""A taxonomy of an ontology with many individuals: what it is, and what it costs."""
import math
import resource
import subprocess
import tempfile
import unittest
from functools import lru_cache, partial
from pathlib import Path

from shq_tools.places import PROGRAM, TOP
from tests.program import needs_program, run_program

ONTOLOGIES = TOP / "bench" / "whole-ontologies"
AMPLE = ["budget", "4294967295"]
NOTHING = "SubClassOf(owl:Thing owl:Nothing)"
# A taxonomy of the kinship ontology needs over 200 searches. Where each of them follows up all that is said of 400
# people, it takes over 200 times as long as the question whether the ontology is consistent; where one does it for all,
# some five times.
MOST_QUESTIONS = 25


@lru_cache(maxsize=None)
def kinship(people):
    """An ontology of kinship with so many people."""
    name = "kinship-%d-people" % people
    with tempfile.TemporaryDirectory() as folder:
        subprocess.run([ONTOLOGIES, "--print", folder, name], check=True)
        return (Path(folder) / (name + ".ofn")).read_bytes()


def without_people(document):
    """The same without what is said of the people."""
    lines = document.split(b"\n")
    return b"\n".join(it for it in lines if not it.startswith((b"ClassAssertion(", b"ObjectPropertyAssertion(")))


def seconds(words, document):
    """How long a processor works for a run that is done."""
    begun = resource.getrusage(resource.RUSAGE_CHILDREN)
    _, status = run_program(words, document)
    ended = resource.getrusage(resource.RUSAGE_CHILDREN)
    assert status == 0, status
    return ended.ru_utime + ended.ru_stime - begun.ru_utime - begun.ru_stime


def ends_within(most, words, document):
    """Whether a run is done before a processor has worked for so many seconds."""
    limits = (math.ceil(most), math.ceil(most))
    limited = partial(resource.setrlimit, resource.RLIMIT_CPU, limits)
    ran = subprocess.run([PROGRAM, *words], input=document, stdout=subprocess.PIPE, preexec_fn=limited, check=False)
    return ran.returncode == 0


@needs_program
class Taxonomies(unittest.TestCase):
    def test_people_change_no_taxonomy(self):
        """A consistent ontology has the same subsumptions without its individuals, as no class names one."""
        document = kinship(20)
        self.assertIn(b"ObjectPropertyAssertion(", document)
        words = ["classify", *AMPLE]
        self.assertEqual(run_program(words, document), run_program(words, without_people(document)))

    def test_what_is_said_of_people_is_followed_up_once(self):
        document = kinship(400)
        question = seconds(["entails", NOTHING, *AMPLE], document)
        self.assertTrue(ends_within(question * MOST_QUESTIONS, ["classify", *AMPLE], document))


if __name__ == "__main__":
    unittest.main()
