"""Budgets from one step on, up to the first that is enough: what is told grows, and some of it is told before all is."""
import re
import unittest

from tests.cases import document_of
from tests.program import needs_program, run_program

DONE, UNDECIDED = 0, 8
# More than any of the questions here takes.
AMPLE = 2_000

WAYS = [
    "SubClassOf(:A :B1)",
    "SubClassOf(:B1 :D)",
    "SubClassOf(:A :B2)",
    "SubClassOf(:B2 :D)",
    "SubClassOf(:A :B3)",
    "SubClassOf(:B3 :D)",
    "SubClassOf(:D :C)",
]
LISTS = [
    (WAYS, "explain", "SubClassOf(:A :C)", "partial justifications "),
    (WAYS, "repair", "SubClassOf(:A :C)", "partial repairs "),
]

THREE = ["SubClassOf(:A :B)", "ClassAssertion(:A :x)", "ClassAssertion(:B :y)", "Declaration(NamedIndividual(:z))"]
TWO_WAYS = [
    "ClassAssertion(:A :x)",
    "ClassAssertion(ObjectIntersectionOf(:B :C) :x)",
    "SubClassOf(:A :D)",
    "SubClassOf(:B :D)",
]
BESIDE = ["ObjectPropertyAssertion(:R :x :y)", "ClassAssertion(:A :y)", "SubClassOf(:A :B)"]
FORK = [
    "SubClassOf(:A ObjectSomeValuesFrom(:R :B))",
    "SubClassOf(:A ObjectSomeValuesFrom(:R :C))",
    "SubClassOf(:A ObjectMaxCardinality(1 :R))",
    "DisjointClasses(:B :C)",
]
THREE_OF_THREE = ["SubClassOf(:A ObjectMinCardinality(3 :R :A))", "SubClassOf(:A ObjectMaxCardinality(3 :R))"]
UNION = ["SubClassOf(:A ObjectUnionOf(:B :C))", "SubClassOf(:B :D)", "SubClassOf(:C :D)"]

# What is told whole, or not at all.
QUESTIONS = [
    (["SubClassOf(:A :B)", "SubClassOf(:B :C)"], ["entails", "SubClassOf(:A :C)"]),
    (["SubClassOf(:A ObjectSomeValuesFrom(:R :A))"], ["sat", ":A"]),
    (THREE_OF_THREE, ["sat", ":A"]),
    (FORK, ["sat", ":A"]),
    (UNION, ["entails", "SubClassOf(:A :D)"]),
    (THREE, ["realize"]),
    (THREE, ["instances", ":B"]),
    (THREE, ["why", ":B"]),
    (THREE, ["why", "owl:Nothing"]),
    (TWO_WAYS, ["realize"]),
    (TWO_WAYS, ["why", ":D"]),
    (BESIDE, ["instances", "ObjectSomeValuesFrom(:R :B)"]),
    (BESIDE, ["why", "owl:Thing"]),
    (["SubClassOf(owl:Thing owl:Nothing)", "Declaration(NamedIndividual(:x))"], ["realize"]),
]


def answers(axioms, words):
    """The answers with one step, two, and so on, up to the first that is done."""
    data = document_of(axioms)
    for budget in range(1, AMPLE):
        text, status = run_program([*words, "budget", str(budget)], data)
        yield text, status
        if status != UNDECIDED:
            return


def sets_in(text):
    """The sets of a list, in its order."""
    return [line for line in text.splitlines() if re.match(r"\d", line)]


def is_among(part, whole):
    """Whether the items of the one stand among those of the other in the same order."""
    rest = iter(whole)
    return all(any(item == other for other in rest) for item in part)


@needs_program
class Budgets(unittest.TestCase):
    def test_an_answer_is_told_whole_or_not_at_all(self):
        for axioms, words in QUESTIONS:
            with self.subTest(words=words, axioms=axioms):
                whole = run_program(words, document_of(axioms))
                *spent, last = answers(axioms, words)
                self.assertEqual(last, whole)
                self.assertEqual(whole[1], DONE)
                self.assertTrue(all(it == ("undecided\n", UNDECIDED) for it in spent))

    def test_a_list_grows_with_the_budget(self):
        for axioms, job, asked, front in LISTS:
            with self.subTest(job=job):
                whole = run_program([job, asked], document_of(axioms))
                *spent, last = answers(axioms, [job, asked])
                self.assertEqual(last, whole)
                self.assertEqual(whole[1], DONE)
                lists = [sets_in(text) for text, _ in spent] + [sets_in(last[0])]
                for text, status in spent:
                    self.assertEqual(status, UNDECIDED)
                    self.assertTrue(text.startswith(front) and text.endswith("\nundecided\n"), text)
                for before, after in zip(lists, lists[1:]):
                    self.assertTrue(is_among(before, after), (before, after))
                self.assertTrue(any(lists[:-1]), "some set is told before all are")

    def test_bytes_of_a_script_that_are_no_text(self):
        data = b"Ontology()\nask \xff\nask SubClassOf(owl:Nothing owl:Thing)\n"
        self.assertEqual(run_program(["session"], data), ("bad line\nyes empty\n", DONE))


if __name__ == "__main__":
    unittest.main()
