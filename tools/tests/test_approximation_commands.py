"""`./shq approximate`, `--approximate`, and answers to translations as they are read."""
import subprocess
import sys
import unittest

from shq_tools.approximation.text import approximation
from shq_tools.approximation.translation import Strength
from shq_tools.approximation.writing import axiom_text
from shq_tools.documents import axioms_of, document
from shq_tools.places import TOOLS
from shq_tools.reading_answers import asked_reading, known_of_translation
from shq_tools.text_view import lines_of
from tests.fakes import shq
from tests.owl_grammar import document as ontology

PENGUINS = ontology([
    "SubClassOf(:Penguin ObjectHasValue(:livesIn :antarctic))",
    "SubClassOf(:Lost ObjectIntersectionOf(:Penguin ObjectHasValue(:livesIn :arctic)))",
    "FunctionalObjectProperty(:livesIn)",
    "DifferentIndividuals(:arctic :antarctic)",
    "InverseObjectProperties(:livesIn :homeOf)",
])
# What the program answers to `explain "SubClassOf(:Lost owl:Nothing)"` on the translation, with the axioms left out.
NUMBERS = "2 4 5 7"


class Commands(unittest.TestCase):
    def test_approximate_writes_the_translation(self):
        output, said, status = shq("approximate", data=PENGUINS.encode("utf-8"))
        self.assertEqual((output, status), (approximation(PENGUINS.encode("utf-8")).data.decode("utf-8"), 0))
        self.assertIn("translated: of 5 axioms, 2 as they are, 3 by others, 0 left out", said)
        self.assertIn("classes of individuals", said)
        self.assertIn('"not entailed", "consistent"', said)

    def test_a_job_gets_the_translation(self):
        data = PENGUINS.encode("utf-8")
        for words, strength in (("--approximate",), Strength.LIGHT), (("--approximate=full",), Strength.FULL):
            output, said, status = shq("classify", *words, "--budget", 7, data=data)
            expected = "words: classify budget 7\n" + approximation(data, strength).data.decode("utf-8")
            self.assertEqual((output, status), (expected, 0))
            self.assertIn("shq: translated", said)

    def test_another_value_is_refused(self):
        output, said, status = shq("classify", "--approximate=more", data=b"Ontology()")
        self.assertEqual((output, status), ("", 2))
        self.assertIn("--approximate has the value full", said)

    def test_nothing_lost_is_said(self):
        _, said, _ = shq("approximate", data=ontology(["SubClassOf(:A ObjectUnionOf(:B))"]).encode("utf-8"))
        self.assertIn("nothing is lost, so each answer holds of the whole file", said)

    def test_an_import_is_told_loudly(self):
        _, said, _ = shq("approximate", data=b"Ontology(Import(<http://e.org/x>))")
        self.assertIn("ATTENTION: the file imports other ontologies, and nothing is fetched", said)

    def test_a_damaged_text_is_left_as_it_is(self):
        output, said, status = shq("approximate", data=b"Ontology((")
        self.assertEqual((output, status), ("Ontology((", 3))
        self.assertIn("bad text balance", said)

    def test_a_closed_pipe_and_a_full_disk(self):
        command = f"{sys.executable} -B {TOOLS}/ask approximate"
        for words, status in ((f"{command} > /dev/full", 7), (f"{command} >&-", 7)):
            ran = subprocess.run(words, input=PENGUINS.encode("utf-8"), shell=True, capture_output=True, check=False)
            self.assertEqual(ran.returncode, status, ran.stderr)

    def test_annotations_are_left_out_of_a_file_that_is_too_long(self):
        long = 'AnnotationAssertion(rdfs:comment :A "' + "x" * 999_000 + '\n")'
        data = ontology([long] * 17 + ["SubClassOf(:A ObjectOneOf(:a))", "SubClassOf(:A :B)"]).encode("utf-8")
        found = approximation(data)
        self.assertLess(len(found.data), 2_000)
        self.assertEqual(found.data.count(b"\n"), data.count(b"\n"))
        self.assertFalse(found.has_annotations)

    def test_limits_are_told_with_the_counts(self):
        data = ontology([f"SubClassOf(:A{it} ObjectHasValue(:r :a{it}))" for it in range(10_001)]).encode("utf-8")
        self.assertEqual(approximation(data).beyond, [("axioms", 20_002, 20_000), ("classes", 20_002, 20_000)])


class Reading(unittest.TestCase):
    def reading(self, text, statement=None):
        known = known_of_translation(PENGUINS.encode("utf-8"), Strength.LIGHT)
        return lines_of(asked_reading(text, known, statement))

    def reason(self):
        axioms = approximation(PENGUINS.encode("utf-8")).data.decode("utf-8")
        numbered = {it.number: it for it in axioms_of(document(axioms.encode("utf-8")))}
        lines = [f"axiom {it} line {numbered[it].line} {axiom_text(numbered[it])}" for it in map(int, NUMBERS.split())]
        return "\n".join(["justifications 1", NUMBERS, *lines, ""])

    def test_a_reason_has_the_axioms_of_the_file(self):
        lines = self.reading(self.reason(), "SubClassOf(:Lost owl:Nothing)")
        self.assertIn("  1. line 6: Lost SubClassOf Penguin and (livesIn value arctic)", lines)
        self.assertIn("  2. line 5: Penguin SubClassOf livesIn value antarctic", lines)
        self.assertEqual(sum("line 5" in it for it in lines if it.startswith("  ") and ". " in it), 1)

    def test_what_is_lost_stands_at_the_top(self):
        lines = self.reading("consistent\nnothing\nthing\n")
        self.assertEqual(lines[0], "translated: of 5 axioms, 2 as they are, 3 by others, 0 left out")
        self.assertTrue(any(it.startswith("  inverse roles") for it in lines))
        self.assertIn("This holds of the translation alone: the whole file may say more.", lines)

    def test_new_names_are_in_no_list(self):
        new = "urn:owl2-as-shq:ObjectOneOf(%3Chttp://e.org/arctic%3E)"
        text = f"consistent\nnothing\nthing\nclass <{new}> under owl:Thing\nclass <http://e.org/Lost> under <{new}>\n"
        told = "\n".join(self.reading(text))
        self.assertNotIn("urn:", told)
        self.assertIn("Lost", told)


if __name__ == "__main__":
    unittest.main()
