"""The Python client against the program, and against scripts that answer badly in its place."""
import os
import stat
import tempfile
import unittest
from pathlib import Path

import jezundwa

EXAMPLES = Path(__file__).resolve().parents[3] / "examples"
ORGANS = EXAMPLES / "anatomy" / "ontology.ofn"
PREFIX = "http://example.org/anatomy#"
DOCUMENT = """Prefix(:=<urn:t#>)
Ontology(
SubClassOf(:A :caf\u00e9)
SubClassOf(:caf\u00e9 ObjectComplementOf(:A))
ClassAssertion(:caf\u00e9 :x)
SubClassOf(:B ObjectHasValue(:r :x))
SubClassOf(ObjectHasValue(:r :x) :C)
)
"""


class JezundwaTest(unittest.TestCase):
    def setUp(self):
        folder = tempfile.TemporaryDirectory()
        self.addCleanup(folder.cleanup)
        self.folder = Path(folder.name)

    def file(self, text):
        path = self.folder / "ontology.ofn"
        path.write_text(text, encoding="utf-8")
        return path

    def script(self, commands):
        path = self.folder / "shq"
        path.write_text("#!/bin/sh\n" + commands + "\n", encoding="utf-8")
        path.chmod(path.stat().st_mode | stat.S_IXUSR)
        return str(path)

    def test_all_reasons_and_repairs(self):
        organs = jezundwa.Ontology(ORGANS)
        reasons = organs.explain("SubClassOf(:Heart :Organ)")
        self.assertEqual([[18, 19], [20, 23]], [[axiom.line for axiom in reason] for reason in reasons])
        lines = ORGANS.read_text(encoding="utf-8").split("\n")
        self.assertEqual("SubClassOf(:Heart :MuscularOrgan)", lines[reasons[0][0].line - 1])
        self.assertEqual(f"SubClassOf(<{PREFIX}Heart> <{PREFIX}MuscularOrgan>)", reasons[0][0].text)
        self.assertEqual([[18, 20], [18, 23], [19, 20], [19, 23]],
                         [[axiom.line for axiom in repair] for repair in organs.repair("SubClassOf(:Heart :Organ)")])
        self.assertEqual([], organs.explain("SubClassOf(:Organ :Heart)"))

    def test_what_follows(self):
        organs = jezundwa.Ontology(ORGANS)
        self.assertTrue(organs.entails("SubClassOf(:Heart :Organ)"))
        self.assertFalse(organs.entails("SubClassOf(:Organ :Heart)"))
        self.assertTrue(organs.is_satisfiable(":Heart"))
        self.assertFalse(organs.is_satisfiable("ObjectIntersectionOf(:Heart ObjectComplementOf(:Organ))"))

    def test_classes_and_individuals(self):
        inside = [line for line in DOCUMENT.split("\n") if "ObjectHasValue" not in line]
        ontology = jezundwa.Ontology(self.file("\n".join(inside)))
        self.assertTrue(ontology.is_consistent())
        self.assertEqual(["urn:t#A"], ontology.contradictory())
        self.assertEqual({"urn:t#x": ["urn:t#caf\u00e9"]}, ontology.types())
        self.assertEqual(["urn:t#x"], ontology.instances("ObjectComplementOf(:A)"))

    def test_an_inconsistent_ontology(self):
        ontology = jezundwa.Ontology(self.file("Ontology(SubClassOf(owl:Thing owl:Nothing))"))
        self.assertFalse(ontology.is_consistent())
        self.assertEqual([], ontology.contradictory())

    def test_what_is_outside_is_refused_or_translated(self):
        path = self.file(DOCUMENT)
        with self.assertRaises(jezundwa.Refused) as refused:
            jezundwa.Ontology(path).entails("SubClassOf(:B :C)")
        self.assertEqual("outside ObjectHasValue, line 6", str(refused.exception))
        translated = jezundwa.Ontology(path, ("--approximate",))
        self.assertTrue(translated.entails("SubClassOf(:B :C)"))
        self.assertEqual([6, 7], [axiom.line for axiom in translated.explain("SubClassOf(:B :C)")[0]])

    def test_a_spent_budget_says_what_is_known(self):
        with self.assertRaises(jezundwa.Undecided) as spent:
            jezundwa.Ontology(ORGANS, ("--budget", "2")).explain("SubClassOf(:Heart :Organ)")
        self.assertEqual([], spent.exception.answer["sets"])

    def test_a_statement_longer_than_a_word(self):
        parts = [f"ObjectSomeValuesFrom(:r :B{'b' * 5_000}{number})" for number in range(30)]
        ontology = jezundwa.Ontology(self.file(f"Prefix(:=<urn:t#>)\nOntology(\nSubClassOf(:A {parts[7]})\n)"))
        statement = f"SubClassOf(:A ObjectUnionOf({' '.join(parts)}))"
        self.assertGreater(len(statement), 131_072)
        self.assertEqual([[3]], [[axiom.line for axiom in reason] for reason in ontology.explain(statement)])

    def test_programs_that_fail(self):
        for commands, message in (("echo broken >&2; exit 3", "broken"), ("exit 4", "shq ended with 4"),
                                  ("kill -9 $$", "shq ended with -9")):
            with self.assertRaises(jezundwa.Failed) as failed:
                jezundwa.Ontology(ORGANS, shq=self.script(commands)).is_consistent()
            self.assertEqual(message, str(failed.exception))

    def test_shq_is_found(self):
        os.environ["JEZUNDWA_SHQ"] = self.script("exit 4")
        self.addCleanup(os.environ.pop, "JEZUNDWA_SHQ")
        self.assertEqual(os.environ["JEZUNDWA_SHQ"], jezundwa.Ontology(ORGANS).shq)


if __name__ == "__main__":
    unittest.main()
