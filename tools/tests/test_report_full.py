"""What a report on the light form of a translation says of the full form behind it."""
import tempfile
import unittest
import unittest.mock
from pathlib import Path

from shq_tools import report
from shq_tools.places import PROGRAM
from tests.fakes import HEAD
from tests.owl_grammar import document
from tests.program import needs_program
from tests.test_answers import page_text
from tests.test_report import called

# A brother of a parent is an uncle, so a child is lucky, and happy. No child that is sad can be.
FAMILY = [
    "SubObjectPropertyOf(ObjectPropertyChain(:hasParent :hasBrother) :hasUncle)",
    "SubClassOf(ObjectSomeValuesFrom(:hasUncle :Doctor) :Lucky)",
    "SubClassOf(:Lucky :Happy)",
    "SubClassOf(:Child ObjectSomeValuesFrom(:hasParent ObjectSomeValuesFrom(:hasBrother :Doctor)))",
    "ClassAssertion(:Child :ann)",
]
SAD = ["SubClassOf(:Sad ObjectComplementOf(:Happy))", "SubClassOf(:SadChild ObjectIntersectionOf(:Child :Sad))"]
# What it adds is that :A is below :B, and nothing leads to an :A.
INVERSE = ["InverseObjectProperties(:r :s)", "SubClassOf(:A ObjectSomeValuesFrom(:s :B))"]
# Classifies the light form, which has no class for `some r D`, and is not done with the full one.
SLOW_IN_FULL = HEAD + r"""
if grep -q 'urn:owl2-as-shq:ObjectSomeValuesFrom'; then exec sleep 60; fi
printf 'consistent\nnothing\nthing\nclass <http://e.org/Child> under owl:Thing\n'
"""
# The same, but it refuses the full one.
REFUSING_FULL = SLOW_IN_FULL.replace("exec sleep 60", "echo limit axioms line 4; exit 5")


def told(axioms, *words, program=None):
    """What the report prints as Markdown, says, and ends with."""
    data = document(axioms).encode("utf-8")
    if program is None:
        return called(["--approximate", "--markdown", *words], data, PROGRAM)
    with tempfile.TemporaryDirectory() as room:
        path = Path(room) / "program"
        path.write_text(program, encoding="utf-8")
        path.chmod(0o755)
        return called(["--approximate", "--markdown", *words], data, path)


@needs_program
class WithProgram(unittest.TestCase):
    def test_what_the_full_form_adds(self):
        text, _, status = told(FAMILY, "--fail-on", "contradictory")
        self.assertEqual(status, 0)
        # the types of ann, and the other superclass, follow from the one that is told
        self.assertIn("By the full form of the translation 1 statement more follows from the whole file. 3 that", text)
        told_lines = text.partition("### What the full form adds")[2].splitlines()
        self.assertIn("Child SubClassOf Lucky", told_lines)
        self.assertIn("  line 5: hasParent o hasBrother SubPropertyOf hasUncle", told_lines)
        self.assertNotIn("Child SubClassOf Happy", told_lines)

    def test_a_contradiction_of_the_full_form_alone(self):
        text, said, status = told(FAMILY + SAD, "--fail-on", "contradictory")
        self.assertEqual(status, 1)
        self.assertIn("1 of 6 classes is contradictory, by the full form of the translation alone", said)
        self.assertIn("more is contradictory: SadChild is contradictory.", text)
        self.assertIn("By the light form of the translation no class is contradictory.", text)
        self.assertNotIn("each can have a member", text)

    def test_an_inconsistency_of_the_full_form_alone(self):
        text, said, status = told([*FAMILY, "ClassAssertion(ObjectComplementOf(:Lucky) :ann)"])
        self.assertEqual(status, 0)
        self.assertIn("By the full form of the translation the ontology is contradictory as a whole", said)
        self.assertIn("more is contradictory: the ontology is inconsistent.", text)

    def test_a_page(self):
        page, _, status = called(["--approximate"], document(FAMILY).encode("utf-8"), PROGRAM)
        self.assertEqual(status, 0)
        self.assertIn('<h2 id="added">What the full form adds</h2>', page)
        self.assertIn("<summary>Child SubClassOf Lucky</summary>", page)
        self.assertIn("line 5: hasParent o hasBrother SubPropertyOf hasUncle", page_text(page))

    def test_nothing_is_added(self):
        self.assertIn("The full form of the translation adds nothing", told(INVERSE)[0])

    def test_where_the_full_form_can_add_nothing_it_is_not_tried(self):
        self.assertNotIn("full form", told(["SubClassOf(:A ObjectHasValue(:r :a))"])[0])
        full = called(["--approximate=full", "--markdown"], document(FAMILY).encode("utf-8"), PROGRAM)[0]
        self.assertNotIn("What the full form adds", full)


class InTime(unittest.TestCase):
    AXIOMS = FAMILY[:-1]

    def test_a_light_form_that_took_long(self):
        with unittest.mock.patch.object(report, "FEW_SECONDS", 0):
            text = told(self.AXIOMS, program=SLOW_IN_FULL)[0]
        self.assertIn("was not tried, since the light one took over 10 seconds.", text)

    def test_a_full_form_that_takes_long(self):
        text, _, status = told(self.AXIOMS, "--seconds", "2", program=SLOW_IN_FULL)
        self.assertEqual(status, 0)
        self.assertIn("The full form of the translation was not classified within 2 seconds.", text)

    def test_a_full_form_that_is_refused(self):
        text, _, status = told(self.AXIOMS, program=REFUSING_FULL)
        self.assertEqual(status, 0)
        self.assertIn("The full form of the translation is not read: Line 4 of the ontology passes the limit", text)


if __name__ == "__main__":
    unittest.main()
