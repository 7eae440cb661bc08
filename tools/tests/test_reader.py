"""The reader of this folder against known answers, and against the program."""
import random
import unittest

from shq_tools.documents import axioms_of, document, ontology_of, refusal
from shq_tools.tokens import Refused, tokens
from tests import generated
from tests.program import needs_program, refusal_by_program


def said(text):
    found = refusal(text if isinstance(text, bytes) else text.encode("utf-8"))
    return None if found is None else str(found)


def of(*axioms):
    return "Prefix(:=<http://e.org/>)\nOntology(\n" + "".join(it + "\n" for it in axioms) + ")\n"


class Tokens(unittest.TestCase):
    def test_kinds(self):
        found, _, end = tokens(b'\xef\xbb\xbfOntology(<i> "a\\"" @en ^^ = n:1) rest')
        kinds = "name open iri string tag carets equals name close".split()
        self.assertEqual([it.kind for it in found], kinds)
        self.assertEqual(found[3].text, 'a\\"')
        self.assertEqual(end, len('\ufeffOntology(<i> "a\\"" @en ^^ = n:1)'))

    def test_a_name_may_hold_what_is_no_sign(self):
        found, _, _ = tokens("é:x/y?z,".encode("utf-8"))
        self.assertEqual([it.text for it in found], ["é:x/y?z,"])

    def test_a_literal_of_a_type_named_ontology_is_no_document(self):
        found, _, _ = tokens(b'"a"^^Ontology() Ontology() x')
        self.assertEqual(len(found), 8)

    def test_first_faults(self):
        cases = {
            b"a \x01": "bad text token line 1",
            b'\n"a\\n"': "bad text token line 2",
            b"\n\n<a b>": "bad text token line 3",
            b'"a\n\n': "bad text token line 1",
            b'"a\n\xff': "bad text utf8 line 2",
            b"# \xff": "bad text utf8 line 1",
            b"a @": "bad text token line 1",
            b"a @\xff": "bad text utf8 line 1",
            b"a ^x": "bad text token line 1",
            b"\xed\xa0\x80": "bad text utf8 line 1",
        }
        for data, answer in cases.items():
            with self.subTest(data=data):
                with self.assertRaises(Refused) as refused:
                    tokens(data)
                self.assertEqual(str(refused.exception), answer)


class Documents(unittest.TestCase):
    def test_refusals(self):
        transitive, functional = "TransitiveObjectProperty(:{})", "FunctionalObjectProperty(:{})"
        below = "SubObjectPropertyOf(:R :S)"
        first_two = of("SubClassOf(:A :B)", "SubClassOf(:B :C)")
        cases = {
            first_two: None,
            first_two[:-2]: "bad text balance line 5",
            of() + "x\n": "bad text shape line 4",
            of() + "# x \xff\n": None,
            "": "bad text shape line 1",
            "Prefix(owl:=<http://e.org/>)\nOntology()": "bad text clash line 1",
            "Prefix(owl:=<http://www.w3.org/2002/07/owl#>)\nOntology()": None,
            "Prefix(a::=<x>)\nOntology()": "bad text shape line 1",
            of("SubClassOf(:A ObjectMinCardinality(100 :R :B))"): None,
            of("SubClassOf(:A ObjectMinCardinality(101 :R :B))"): "limit number line 3",
            of("SubClassOf(:A ObjectMinCardinality(" + "9" * 5000 + " :R :B))"): "limit number line 3",
            of("SubClassOf(:A " + "ObjectComplementOf(" * 62 + ":B" + ")" * 63): None,
            of("SubClassOf(:A " + "ObjectComplementOf(" * 63 + ":B" + ")" * 64): "limit nesting line 3",
            of("DisjointClasses(" + " ".join(f":A{i}" for i in range(1000)) + ")"): None,
            of("DisjointClasses(" + " ".join(f":A{i}" for i in range(1001)) + ")"): "limit parts line 3",
            of(*["SubClassOf(:A :B)"] * 20_001): "limit axioms line 20003",
            of(*(f"Declaration(ObjectProperty(:r{i}))" for i in range(1001))): "limit roles line 1003",
            of("SubClassOf(:A x:B)"): "bad text prefix line 3",
            of("SubClassOf(:A ObjectInverseOf(:r))"): "bad text shape line 3",
            of("SubClassOf(:A ObjectSomeValuesFrom(ObjectInverseOf(:r) :B))"): "outside ObjectInverseOf line 3",
            of("Import(<http://e.org/x>)"): "outside Import line 3",
            of("ClassAssertion(:A :a)", "ObjectPropertyAssertion(:r :a :b)", "SameIndividual(:a :b :c)"): None,
            of("DifferentIndividuals(:a :a)", "Declaration(NamedIndividual(:d))"): None,
            of("ClassAssertion(:A)"): "bad text shape line 3",
            of("ClassAssertion(:A ObjectOneOf(:a))"): "bad text shape line 3",
            of("ClassAssertion(:A \"a\")"): "bad text shape line 3",
            of("ClassAssertion(:A _:a)"): "outside _: line 3",
            of("ObjectPropertyAssertion(:r :a x:b)"): "bad text prefix line 3",
            of("SameIndividual(:a)"): "bad text shape line 3",
            of("Declaration(NamedIndividual(_:a))"): "outside _: line 3",
            of("NegativeObjectPropertyAssertion(:r :a :b)"): "outside NegativeObjectPropertyAssertion line 3",
            of("DifferentIndividuals(" + " ".join(f":a{i}" for i in range(1000)) + ")"): None,
            of("DifferentIndividuals(" + " ".join(f":a{i}" for i in range(1001)) + ")"): "limit parts line 3",
            of(*(f"Declaration(NamedIndividual(:a{i}))" for i in range(20_000))): None,
            of(*(f"Declaration(NamedIndividual(:a{i}))" for i in range(20_001))): "limit individuals line 20003",
            of("Declaration(ObjectProperty(owl:topObjectProperty))"): None,
            of(transitive.format("R"), below, functional.format("S")): "outside not-simple line 5",
            of(functional.format("R"), below, transitive.format("S")): None,
        }
        for text, answer in cases.items():
            with self.subTest(text=text[:120]):
                self.assertEqual(said(text), answer)

    def test_longest_text(self):
        text = of().encode("utf-8")
        self.assertIsNone(refusal(text + b" " * ((1 << 24) - len(text))))
        self.assertEqual(str(refusal(text + b" " * ((1 << 24) - len(text) + 1))), "limit text")

    def test_axioms_have_numbers_lines_and_terms(self):
        read = document(of("Declaration(Class(:A))", "SubClassOf(:A ObjectMinCardinality(02 :r))").encode("utf-8"))
        (axiom,) = axioms_of(read)
        self.assertEqual((axiom.number, axiom.line), (1, 4))
        self.assertEqual(axiom.items, (("name", "http://e.org/A"), ("least", 2, "http://e.org/r", ("top",))))

    def test_individuals_stand_in_the_order_in_which_they_are_met(self):
        text = of("ObjectPropertyAssertion(:r :b :a)", "Declaration(NamedIndividual(:c))", "ClassAssertion(:A :b)")
        axioms, individuals = ontology_of(document(text.encode("utf-8")))
        self.assertEqual(axioms[0].items, ("http://e.org/r", "http://e.org/b", "http://e.org/a"))
        self.assertEqual(individuals, ["http://e.org/b", "http://e.org/a", "http://e.org/c"])


@needs_program
class AgreesWithProgram(unittest.TestCase):
    def test_each_construct_in_each_place(self):
        for axiom in generated.outside_axioms(random.Random(1)):
            with self.subTest(axiom=axiom):
                data = generated.document([axiom]).encode("utf-8")
                self.assertEqual(said(data), refusal_by_program(data))

    def test_damaged_documents(self):
        for seed in range(150):
            with self.subTest(seed=seed):
                data = generated.damaged(generated.mixed_document(seed, 6), seed)
                self.assertEqual(said(data), refusal_by_program(data))
