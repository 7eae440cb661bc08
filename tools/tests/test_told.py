"""How answers are told: reasons in the order of the argument, statements that fit, domains, and worlds."""
import unittest

from shq_tools.arguments import families, in_order_of_argument
from shq_tools.locality import module
from shq_tools.ontology_facts import ontology_in
from shq_tools.places import EXAMPLES
from shq_tools.reading_answers import query_of
from shq_tools.told import ToldClasses, links_between
from shq_tools.wording import reason_numbers
from tests.program import needs_program, run_program
from tests.test_answers import E, LISTS, TAXONOMY, shown

# The reason why there is no :Pump, over a part of a part of it; the axioms stand in no order.
PUMP = """Prefix(:=<http://e.org/>)
Ontology(
TransitiveObjectProperty(:has)
SubObjectPropertyOf(:hasDirect :has)
SubClassOf(:Pump :Safe)
SubClassOf(:Case :Iron)
SubClassOf(:Safe ObjectAllValuesFrom(:has ObjectComplementOf(:Iron)))
SubClassOf(:Battery ObjectSomeValuesFrom(:hasDirect :Case))
SubClassOf(:Pump ObjectSomeValuesFrom(:hasDirect :Battery))
)
"""
DOMAINS = """Prefix(:=<http://e.org/>)
Ontology(
SubClassOf(:A ObjectSomeValuesFrom(:s :B))
SubObjectPropertyOf(:s :r)
ObjectPropertyDomain(:r :D)
SubClassOf(:D :E)
)
"""
DOMAIN_TOLD = """entailed
refutation
axioms 1 2 3 4
concept 1 name <http://e.org/B>
concept 2 some <http://e.org/s> 1
concept 3 bottom
concept 4 all <http://e.org/r> 3
concept 5 name <http://e.org/D>
concept 6 or 4 5
concept 7 name <http://e.org/E>
start
row 0 1 1 1
some 0 1 2
row 0 3 1
or 0 6
all 0 1 4
bottom 1
row 0 4 1 1
clash 0 7
end
"""
HOUSES = """Prefix(:=<http://e.org/>)
Ontology(
SubClassOf(:Villa :House)
SubClassOf(:House :Building)
EquivalentClasses(:Home ObjectIntersectionOf(:House ObjectSomeValuesFrom(:of :Person)))
ClassAssertion(:Person :i)
)
"""
WORLD = """not entailed
model 4
class <http://e.org/Building> 0 1
class <http://e.org/House> 0 1
class <http://e.org/Villa> 0
class <http://e.org/Person> 2 3
role <http://e.org/of> 0,2
individual <http://e.org/i> 3
end
"""


def axioms_of(text):
    return list(ontology_in(text.encode("utf-8")).axioms.values())


def query(text, prefix=E):
    ontology = ontology_in(f"Prefix(:=<{prefix}>)\nOntology()".encode())
    return query_of(text, ontology.prefixes)


class Arguments(unittest.TestCase):
    def test_a_reason_goes_from_the_class_to_the_contradiction(self):
        for asked in (query("SubClassOf(:Pump owl:Nothing)"), None):
            found = [it.number for it in in_order_of_argument(axioms_of(PUMP), asked)]
            at = {number: place for place, number in enumerate(found)}
            self.assertEqual(sorted(found), list(range(1, 8)))
            self.assertIn(found[0], (3, 7))
            # from the pump to the battery, to the case, to iron; and from the pump to what is safe
            self.assertEqual([at[6], at[4]], [at[7] + 1, at[7] + 2])
            self.assertEqual(at[5], at[3] + 1)
            # roles come behind the axioms that speak of them
            self.assertGreater(at[2], at[7])
            self.assertGreater(at[1], min(at[2], at[5]))

    def test_every_axiom_is_there_once_whatever_it_says(self):
        kinds = ["DisjointClasses(:A :B :C)", "DisjointUnion(:A :B :C)", "FunctionalObjectProperty(:r)"]
        kinds += ["EquivalentClasses(:A ObjectUnionOf(:B :C))", "ObjectPropertyDomain(:r :A)", "SameIndividual(:i :j)"]
        kinds += ["ObjectPropertyRange(:r :A)", "ObjectPropertyAssertion(:r :i :j)", "DifferentIndividuals(:i :j)"]
        kinds += ["EquivalentObjectProperties(:r :s)", "ClassAssertion(:A :i)", "SubClassOf(owl:Thing :B)"]
        axioms = axioms_of("Prefix(:=<http://e.org/>)\nOntology(\n" + "\n".join(kinds) + "\n)")
        for asked in (None, query("SubClassOf(:A :B)"), query("ClassAssertion(:B :i)"), query("owl:Thing")):
            found = in_order_of_argument(axioms, asked)
            self.assertEqual(sorted(it.number for it in found), list(range(1, len(kinds) + 1)))

    def test_an_individual_comes_before_its_class(self):
        text = "Prefix(:=<http://e.org/>)\nOntology(\nSubClassOf(:A :B)\nClassAssertion(:A :i)\n)"
        found = in_order_of_argument(axioms_of(text), query("ClassAssertion(:B :i)"))
        self.assertEqual([it.number for it in found], [2, 1])


class Families(unittest.TestCase):
    def test_reasons_that_share_most_axioms_are_one_family(self):
        sets = [[1, 2, 3, 7], [1, 2, 3, 8], [5, 6], [1, 2, 3, 9, 10]]
        found = [([place for place, _ in it.members], sorted(it.shared)) for it in families(sets)]
        self.assertEqual(found, [([1, 2, 4], [1, 2, 3]), ([3], [5, 6])])

    def test_what_is_shared_stands_once(self):
        names = [f"axiom {at} line {at + 3} SubClassOf(<{E}A{at}> <{E}A{at + 1}>)" for at in range(1, 6)]
        said = shown("justifications 2\n1 2 3 4\n1 2 3 5\n" + "\n".join(names) + "\n")[0]
        self.assertEqual(said.count("A1 SubClassOf A2"), 1)
        wanted = ["Shared by reasons 1 and 2", "Reason 1: these, and besides", "  1. axiom 4, line 7: A4 SubClassOf A5"]
        for line in (*wanted, "Reason 2: these, and besides", "  1. axiom 5, line 8: A5 SubClassOf A6"):
            self.assertIn(line, said.splitlines())
        page = shown("justifications 2\n1 2 3 4\n1 2 3 5\n" + "\n".join(names) + "\n", b"", "--html")[0]
        self.assertEqual(page.count("line 4</span>"), 1)

    def test_reasons_are_named_by_their_numbers(self):
        cases = {(1, 2): "1 and 2", (1, 2, 3): "1 to 3", (1, 3, 4, 5, 9): "1, 3 to 5 and 9", (2, 5, 6): "2, 5 and 6"}
        for numbers, text in cases.items():
            self.assertEqual(reason_numbers(numbers), f"reasons {text}")

    def test_long_lists_take_no_time_that_grows_with_their_square(self):
        found = families([[at, at + 1] for at in range(0, 40_000, 2)])
        self.assertEqual(len(found), 20_000)


class Fitting(unittest.TestCase):
    """A statement that is named for an answer to another one is refused."""

    def refused(self, text, labels, statement):
        said, complaint, status = shown(text, labels, "--query", statement)
        self.assertEqual((said, status), ("", 2))
        self.assertIn("another statement", complaint)

    def test_refutations(self):
        ontology = DOMAINS.encode()
        said, complaint, status = shown(DOMAIN_TOLD, ontology, "--query", "SubClassOf(:A :E)")
        self.assertEqual((complaint, status), ("", 0))
        self.assertIn("The statement follows. (A SubClassOf E)", said)
        for other in ("SubClassOf(:E :A)", "SubClassOf(:A :D)", "SubClassOf(:B :E)", "SubClassOf(:Pizza :Food)"):
            self.refused(DOMAIN_TOLD, ontology, other)

    def test_without_the_ontology_nothing_is_claimed(self):
        said, complaint, status = shown(DOMAIN_TOLD, b"", "--query", f"SubClassOf(<{E}Pizza> <{E}Food>)")
        self.assertEqual(status, 0)
        self.assertIn("cannot be told", complaint)
        self.assertNotIn("(Pizza SubClassOf Food)", said)

    def test_models(self):
        ontology = HOUSES.encode()
        self.assertEqual(shown(WORLD, ontology, "--query", "SubClassOf(:House :Villa)")[2], 0)
        self.refused(WORLD, ontology, "SubClassOf(:Villa :House)")
        satisfiable = WORLD.replace("not entailed", "satisfiable")
        self.assertEqual(shown(satisfiable, ontology, "--query", ":House")[2], 0)
        self.refused(satisfiable, ontology, "SubClassOf(:House :Villa)")

    def test_lists(self):
        prefixes = b"Prefix(:=<http://e.org/>)\nOntology()"
        self.refused(LISTS, prefixes, "SubClassOf(:Pizza :Food)")
        reason = "justifications 1\n1\n" + "\n".join(LISTS.splitlines()[3:4]) + "\n"
        self.assertEqual(shown(reason, prefixes, "--query", "SubClassOf(:A :B)")[2], 0)

    def test_answers_to_no_statement(self):
        said, complaint, status = shown(TAXONOMY, b"", "--query", f"SubClassOf(<{E}A> <{E}B>)")
        self.assertEqual((said, status), ("", 2))
        self.assertIn("no single statement", complaint)

    def test_modules(self):
        found = module(axioms_of(PUMP), query("SubClassOf(:Battery :Iron)"))
        self.assertEqual(sorted(it.number for it in found), [1, 2, 4, 6])
        self.assertEqual(module(axioms_of(PUMP), query("SubClassOf(:Other :Iron)")), [])


class Domains(unittest.TestCase):
    def test_a_domain_is_told_in_one_step(self):
        said = shown(DOMAIN_TOLD, DOMAINS.encode(), "--query", "SubClassOf(:A :E)")[0]
        at = said.splitlines().index("Suppose there is a thing 0 that is A and not E.")
        wanted = [
            "  By axiom 1: thing 0 is A, so it is in (s some B).",
            "  Since thing 0 is in (s some B), s leads from it to a thing 1, which is B.",
            "  By axiom 3: r leads from thing 0 to thing 1, so thing 0 is D.",
            "  By axiom 4: thing 0 is D, so it is E.",
            "  Thing 0 is E, and is not E: a contradiction.",
            "So there is no such thing.",
        ]
        self.assertEqual(said.splitlines()[at + 1 :], wanted)
        self.assertIn("axiom 2, line 4: s SubPropertyOf r", said)

    def test_a_domain_that_is_a_union_has_its_own_cases_alone(self):
        ontology = DOMAINS.replace("Domain(:r :D)", "Domain(:r ObjectUnionOf(:D :F))")
        ontology = ontology.replace("SubClassOf(:D :E)", "SubClassOf(:D :E)\nSubClassOf(:F :E)")
        refutation = DOMAIN_TOLD.replace("axioms 1 2 3 4", "axioms 1 2 3 4 5")
        refutation = refutation.replace("or 4 5\n", "or 4 5 8\n").replace("concept 6", f"concept 8 name <{E}F>\nconcept 6")
        refutation = refutation.replace("clash 0 7\n", "clash 0 7\nrow 0 5 1 1\nclash 0 7\n")
        said = shown(refutation, ontology.encode(), "--query", "SubClassOf(:A :E)")[0]
        self.assertIn("so thing 0 is D or F: 2 cases.\n    Case 1: thing 0 is D.\n", said)
        self.assertNotIn("only Nothing", said)


class ToldWorlds(unittest.TestCase):
    def test_superclasses_and_what_is_unrelated_stand_apart(self):
        said, complaint, status = shown(WORLD, HOUSES.encode(), "--query", "SubClassOf(:Villa :Home)")
        self.assertEqual((complaint, status), ("", 0))
        self.assertIn("  thing 0: Villa, and so Building, House (it shows that the statement fails)\n    of thing 2", said)
        self.assertIn("(2 other things that no role connects with them: --all shows them too.)", said)
        self.assertNotIn("thing 3 (i)", said)
        everything = shown(WORLD, HOUSES.encode(), "--query", "SubClassOf(:Villa :Home)", "--all")[0]
        self.assertIn("  thing 3 (i): Person\n", everything)
        self.assertNotIn("other things", everything)

    def test_pages_fold_what_is_unrelated(self):
        page = shown(WORLD, HOUSES.encode(), "--query", "SubClassOf(:Villa :Home)", "--html")[0]
        self.assertIn("<details><summary>2 other things", page)
        self.assertIn("and so <span", page)

    def test_equal_classes_do_not_push_each_other_out(self):
        text = "Prefix(:=<http://e.org/>)\nOntology(\nEquivalentClasses(:A :B)\nSubClassOf(:B :C)\n)"
        found = ToldClasses(axioms_of(text)).most_specific([E + it for it in "ABC"])
        self.assertEqual(found, [E + "A", E + "B"])


class Links(unittest.TestCase):
    def test_how_one_class_leads_to_another(self):
        kinds = ["SubClassOf(:A ObjectIntersectionOf(:X ObjectSomeValuesFrom(:r :B)))", "SubClassOf(:A :C)"]
        kinds += ["SubClassOf(:C ObjectAllValuesFrom(:r :B))", "EquivalentClasses(:B ObjectMinCardinality(2 :r :C))"]
        kinds += ["SubClassOf(:D ObjectUnionOf(:A :B))", "SubClassOf(:D ObjectMinCardinality(0 :r :A))"]
        axioms = axioms_of("Prefix(:=<http://e.org/>)\nOntology(\n" + "\n".join(kinds) + "\n)")
        found = links_between(axioms, [E + it for it in "ABCD"])
        targets = {iri.removeprefix(E): [it.target.removeprefix(E) for it in those] for iri, those in found.items()}
        self.assertEqual(targets, {"A": ["B", "C"], "B": ["C"], "C": [], "D": []})


class PicturesOfTaxonomies(unittest.TestCase):
    def test_they_go_from_left_to_right(self):
        self.assertIn("rankdir=RL;", shown(TAXONOMY, b"", "--dot")[0])

    def test_a_neighbourhood_is_drawn_alone(self):
        prefixes = b"Prefix(:=<http://e.org/>)\nOntology()"
        graph = shown(TAXONOMY, prefixes, "--dot", "--about", ":D")[0]
        labels = [line for line in graph.splitlines() if "[label=" in line and "->" not in line]
        self.assertEqual(len([it for it in labels if "contradictory" not in it]), 1 + 4)
        self.assertNotIn('label="C"', graph)
        self.assertIn('label="D", fillcolor="#e4f3e4"', graph)


@needs_program
class WithProgram(unittest.TestCase):
    def test_answers_fit_their_own_statements_and_no_other(self):
        ontology = (EXAMPLES / "anatomy" / "ontology.ofn").read_bytes()
        asked = [":Heart :Organ", ":Organ :Heart", ":Heart :HollowOrgan", ":Lung :HollowOrgan"]
        answers = {it: run_program(["entails", f"SubClassOf({it})"], ontology)[0] for it in asked}
        for pair, text in answers.items():
            self.assertEqual(shown(text, ontology, "--query", f"SubClassOf({pair})")[1:], ("", 0), pair)
        self.assertEqual(shown(answers[":Heart :Organ"], ontology, "--query", "SubClassOf(:Lung :HollowOrgan)")[2], 2)
        self.assertEqual(shown(answers[":Heart :Organ"], ontology, "--query", "SubClassOf(:Heart :HollowOrgan)")[2], 2)
        self.assertEqual(shown(answers[":Organ :Heart"], ontology, "--query", "SubClassOf(:Heart :Organ)")[2], 2)

    def test_reasons_fit_their_statement(self):
        ontology = (EXAMPLES / "anatomy" / "ontology.ofn").read_bytes()
        said = run_program(["explain", "SubClassOf(:Heart :Organ)"], ontology)[0]
        self.assertEqual(shown(said, ontology, "--query", "SubClassOf(:Heart :Organ)")[2], 0)
        self.assertEqual(shown(said, ontology, "--query", "SubClassOf(:Chamber :Organ)")[2], 2)
        told = run_program(["why", ":MrSafeDevice"], (EXAMPLES / "ward" / "ontology.ofn").read_bytes())[0]
        self.assertIn("instance ", told)

    def test_audits(self):
        ontology = (EXAMPLES / "anatomy" / "ontology.ofn").read_bytes()
        audit = (EXAMPLES / "anatomy" / "audit.txt").read_text(encoding="utf-8")
        for text in (audit, run_program(["evidence", "SubClassOf(:Heart :Organ)"], ontology)[0]):
            said, complaint, status = shown(text, ontology)
            self.assertEqual((complaint, status), ("", 0))
            self.assertIn("It follows. There are 2 reasons and 4 ways to stop it, each with a certificate.", said)
            self.assertIn("'heart (\"cor\")' SubClassOf MuscularOrgan", said)
            self.assertIn("(--labels names no file that has it)", shown(text)[0])
            self.assertEqual(shown(text[: len(text) // 2], ontology)[2], 3)
