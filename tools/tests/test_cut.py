"""`profile` and `cut`."""
import random
import unittest

from shq_tools.cut import cut
from shq_tools.documents import refusal
from shq_tools.profile import profile_text
from shq_tools.survey import by_keyword, survey
from shq_tools.tokens import Refused
from tests import generated
from tests.program import needs_program, refusal_by_program


def line_ends(data):
    return [at for at, byte in enumerate(data) if byte in b"\r\n"]


class Cut(unittest.TestCase):
    def assert_is_cut(self, data):
        rest, _ = cut(data)
        self.assertEqual(len(rest), len(data))
        self.assertEqual(line_ends(rest), line_ends(data))
        self.assertNotIn("outside", str(refusal(rest)))
        self.assertEqual(cut(rest)[0], rest)

    def test_each_construct_in_each_place(self):
        for axiom in generated.outside_axioms(random.Random(2)):
            with self.subTest(axiom=axiom):
                data = generated.document(["SubClassOf(:A :B)", axiom]).encode("utf-8")
                rest, _ = cut(data)
                self.assertIsNone(refusal(rest))
                self.assertEqual(len(survey(rest)[1]), 1)

    def test_counted_roles(self):
        for axiom in generated.COUNTED_AXIOMS:
            with self.subTest(axiom=axiom):
                data = generated.document([axiom, *generated.ROLE_BOX]).encode("utf-8")
                self.assertEqual(list(by_keyword(survey(data)[1])), ["not-simple"])
                self.assert_is_cut(data)

    def test_a_role_axiom_that_is_left_out_makes_no_role_compound(self):
        axioms = ["TransitiveObjectProperty(:t)", "SubObjectPropertyOf(ObjectInverseOf(:t) :r)"]
        axioms.append("FunctionalObjectProperty(:r)")
        rest, _ = cut(generated.document(axioms).encode("utf-8"))
        self.assertIn(b"FunctionalObjectProperty(:r)", rest)
        self.assertIsNone(refusal(rest))

    def test_mixed_documents(self):
        for seed in range(60):
            with self.subTest(seed=seed):
                self.assert_is_cut(generated.mixed_document(seed).encode("utf-8"))

    def test_what_is_inside_stays(self):
        data = generated.document(generated.inside_axioms(random.Random(3), 200)).encode("utf-8")
        self.assertEqual(cut(data)[0], data)

    def test_a_damaged_axiom_is_left_to_the_reasoner(self):
        data = generated.document(["SubClassOf(:A x:B)", "HasKey(:A () ())"]).encode("utf-8")
        rest, _ = cut(data)
        self.assertIn(b"SubClassOf(:A x:B)", rest)
        self.assertNotIn(b"HasKey", rest)

    def test_a_damaged_text_is_refused(self):
        with self.assertRaises(Refused):
            cut(b"Ontology(\n")

    def test_what_stands_behind_the_document_stays(self):
        self.assertEqual(cut(b"Ontology(Import(<x>))\n# \xff\n")[0], b"Ontology(" + b" " * 11 + b")\n# \xff\n")


class Profile(unittest.TestCase):
    def test_lists_every_construct(self):
        axioms = ["SubClassOf(:A ObjectOneOf(:i))", "ClassAssertion(ObjectHasSelf(ObjectInverseOf(:r)) _:i)"]
        axioms.append("SubClassOf(:A :B)")
        lines = profile_text(generated.document(axioms).encode("utf-8"))
        self.assertEqual(lines[0], "3 axioms, 1 of them inside of the language")
        found = [it.split()[0] for it in lines[3:-1]]
        self.assertEqual(found, ["ObjectHasSelf", "ObjectInverseOf", "ObjectOneOf", "_:"])
        self.assertEqual(lines[-1], "the reasoner's answer: outside ObjectOneOf line 3")

    def test_agrees_with_the_first_refusal(self):
        for seed in range(40):
            with self.subTest(seed=seed):
                data = generated.mixed_document(seed).encode("utf-8")
                lines = [line for one in survey(data)[1] for _, line in one.outside]
                self.assertIn(refusal(data).line, lines)

    def test_damage_is_listed(self):
        lines = profile_text(generated.document(["SubClassOf(:A x:B)"]).encode("utf-8"))
        self.assertIn("  bad text prefix       1  line 3", lines)


@needs_program
class AgreesWithProgram(unittest.TestCase):
    def test_what_is_cut_is_never_outside(self):
        for seed in range(60):
            with self.subTest(seed=seed):
                data = generated.mixed_document(seed).encode("utf-8")
                self.assertIsNone(refusal_by_program(cut(data)[0]))

    def test_each_construct_in_each_place(self):
        axioms = generated.outside_axioms(random.Random(4)) + generated.COUNTED_AXIOMS + generated.ROLE_BOX
        data = generated.document(axioms).encode("utf-8")
        self.assertIsNone(refusal_by_program(cut(data)[0]))

    def test_damaged_documents(self):
        for seed in range(100):
            with self.subTest(seed=seed):
                data = generated.damaged(generated.mixed_document(seed, 6), seed)
                try:
                    rest, _ = cut(data)
                except Refused as refused:
                    self.assertEqual(refusal_by_program(data), str(refused))
                else:
                    self.assertNotIn("outside", str(refusal_by_program(rest)))
