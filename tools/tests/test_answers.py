"""The reader of answers, the names, and the ways to show them."""
import io
import subprocess
import sys
import unittest
from contextlib import redirect_stderr, redirect_stdout
from html.parser import HTMLParser

from shq_tools.answers import Instances, Model, Plain, Realization, Reasons, Refutation, SetList, Taxonomy, Unread
from shq_tools.answers import answer
from shq_tools.drawing import quoted, wrapped
from shq_tools.manchester import axiom_text, class_text
from shq_tools.names import Names, labels_in
from shq_tools.normal_forms import complement, facts, normal, row
from shq_tools.places import EXAMPLES, TOOLS
from shq_tools.ontology_facts import ontology_from
from shq_tools.reading_answers import query_of, read, reading_of, words_of
from shq_tools.terms import TOP, Axiom
from shq_tools.worlds import World
from tests.program import needs_program, run_program

ANATOMY = (EXAMPLES / "anatomy" / "ontology.ofn").read_bytes()
HEART = (EXAMPLES / "anatomy" / "heart.txt").read_text(encoding="utf-8")
E = "http://e.org/"
LISTS = """justifications 2
1
2 3
axiom 1 line 4 SubClassOf(<http://e.org/A> <http://e.org/B>)
axiom 2 line 5 SubClassOf(<http://e.org/A> ObjectMaxCardinality(2 <http://e.org/r> owl:Thing))
axiom 3 line 9 TransitiveObjectProperty(<http://e.org/s>)
"""
TAXONOMY = """consistent
nothing <http://e.org/N>
thing
class <http://e.org/A> <http://e.org/B> under owl:Thing
class <http://e.org/C> under <http://e.org/A>
class <http://e.org/D> under <http://e.org/A>
class <http://e.org/F> under <http://e.org/C> <http://e.org/D>
class <http://e.org/G> under <http://e.org/F>
"""
MODEL = """satisfiable
model 2
class <http://e.org/A> 0
class <http://e.org/B> 0 1
role <http://e.org/r> 0,1 1,1
end
"""
REALIZATION = """consistent
individual <http://e.org/x> types <http://e.org/A> <http://e.org/B>
individual <http://e.org/z> types owl:Thing
"""
REASONS = """instance <http://e.org/x> justifications 2
1 2
3
instance <http://e.org/y> justifications 1
empty
axiom 1 line 3 SubClassOf(<http://e.org/A> <http://e.org/B>)
axiom 2 line 4 ClassAssertion(<http://e.org/A> <http://e.org/x>)
axiom 3 line 5 ClassAssertion(<http://e.org/B> <http://e.org/x>)
"""
REASONS_TOLD = """2 individuals are in the class:

x, reason 1
  1. axiom 2, line 4: x Type A
  2. axiom 1, line 3: A SubClassOf B

x, reason 2
  1. axiom 3, line 5: x Type B

y, by no axiom at all
"""
INSTANCES = "instances 2\n<http://e.org/x>\n<http://e.org/y>\n"
SCRIPTED = "axiom 3\nyes 1 3\nbad text prefix query\nbad line\nno\n"
SPENT = "The time or the steps that were allowed are spent. 0 reasons found so far; there may be more."
# A refutation with cases: axioms 1 to 3 of CASES_ONTOLOGY say that A is B or C, that B is D, and that C is D.
CASES_ONTOLOGY = b"""Prefix(:=<http://e.org/>)
Ontology(
SubClassOf(:A ObjectUnionOf(:B :C))
SubClassOf(:B :D)
SubClassOf(:C :D)
SubClassOf(:A ObjectMinCardinality(2 :r :B))
SubClassOf(:A ObjectMaxCardinality(1 :r))
)
"""
# Axioms 1 to 4 say that whatever r leads to from i is one thing, that r leads from it to j and to k, and that j is B.
FACTS_ONTOLOGY = b"""Prefix(:=<http://e.org/>)
Ontology(
ClassAssertion(ObjectMaxCardinality(1 :r) :i)
ObjectPropertyAssertion(:r :i :j)
ObjectPropertyAssertion(:r :i :k)
ClassAssertion(:B :j)
DifferentIndividuals(:j :k)
)
"""
FACTS = """entailed
refutation
axioms 1 2 3 4
concept 1 top
concept 2 most 1 <http://e.org/r> 1
concept 3 name <http://e.org/B>
start
fact 1 1
fact 2 1
fact 3 1
fact 4 1
pair 1 2
clash 1 3
most 0 2 1 2
end
"""
FACTS_TOLD = [
    "Suppose k is not B.",
    "  By axiom 1: i is in (r max 1).",
    "  By axiom 2: r leads from i to j.",
    "  By axiom 3: r leads from i to k.",
    "  By axiom 4: j is B.",
    "  Either j and k are the same, or they are different.",
    "    Case 1: j and k are the same.",
    "      j is B, and is not B: a contradiction.",
    "    Case 2: j and k are different.",
    "      i is in (r max 1), but j and k are 2 different ones: a contradiction.",
    "So there is no such thing.",
]
CASES = """entailed
refutation
axioms 1 2 3
concept 1 name <http://e.org/B>
concept 2 name <http://e.org/C>
concept 3 or 1 2
concept 4 name <http://e.org/D>
start
row 0 1 1 1
or 0 3
row 0 2 1 1
clash 0 4
row 0 3 1 1
clash 0 4
end
"""
NUMBERS = """unsatisfiable
refutation
axioms 4 5
concept 1 name <http://e.org/B>
concept 2 least 2 <http://e.org/r> 1
concept 3 top
concept 4 most 1 <http://e.org/r> 3
start
row 0 4 1 1
row 0 5 1 1
least 0 1 2
most 0 4 1 2
end
"""


def shown(text, labels=b"", *words):
    """What `read` prints, says and returns."""
    said, complaint = io.StringIO(), io.StringIO()
    with redirect_stdout(said), redirect_stderr(complaint):
        status = read(words_of(list(words)), text, labels)
    return said.getvalue(), complaint.getvalue(), status


class PageReader(HTMLParser):
    """Checks that every element of a page is closed."""

    EMPTY = {"meta", "br", "input"}

    def __init__(self):
        super().__init__()
        self.open = []
        self.text = []

    def handle_starttag(self, tag, attrs):
        if tag not in self.EMPTY:
            self.open.append(tag)

    def handle_endtag(self, tag):
        assert self.open.pop() == tag, tag

    def handle_data(self, data):
        if not {"style", "script"} & set(self.open):
            self.text.append(data)


def page_text(page):
    reader = PageReader()
    reader.feed(page)
    assert not reader.open
    return "".join(reader.text)


class Answers(unittest.TestCase):
    def test_kinds(self):
        kinds = {LISTS: SetList, TAXONOMY: Taxonomy, MODEL: Model, HEART: Refutation, "undecided\n": Plain}
        kinds |= {REALIZATION: Realization, "consistent\n": Realization, REASONS: Reasons, SCRIPTED: Plain}
        kinds |= {INSTANCES: Instances, "instances 0\n": Instances}
        kinds |= {"inconsistent\n": Taxonomy, "repairs 1\nempty\n": SetList, "bad words\n": Plain}
        for text, kind in kinds.items():
            with self.subTest(text=text[:30]):
                self.assertIsInstance(answer(text), kind)

    def test_partial_lists(self):
        found = answer("partial repairs 1\n1\naxiom 1 line 4 FunctionalObjectProperty(<r>)\nundecided\n")
        self.assertTrue(found.is_partial)
        self.assertEqual(found.sets, [[1]])
        self.assertEqual(found.axioms[1].axiom, Axiom("FunctionalObjectProperty", ("r",), 4, 1))

    def test_what_is_damaged_is_unread(self):
        damaged = ["", LISTS[:-60], LISTS.replace("2 3\n", "2 x\n")]
        damaged += [MODEL.replace("end\n", ""), HEART.replace("end", "")]
        damaged += [TAXONOMY.replace("class <http://e.org/C>", "<http://e.org/C>"), MODEL.replace("model 2", "model")]
        damaged += [INSTANCES.replace("2", "3"), REALIZATION.replace("types <", "<"), REASONS.replace("1 2\n", "1 4\n")]
        damaged += [REASONS.replace("justifications 2", "justifications 1"), REASONS.replace("empty\n", "")]
        for text in damaged:
            with self.subTest(text=text[:40]):
                with self.assertRaises(Unread):
                    found = answer(text)
                    if isinstance(found, Plain):
                        raise Unread


class Naming(unittest.TestCase):
    def test_labels(self):
        labels = labels_in(
            b'Prefix(:=<http://e.org/>) Prefix(l:=<http://www.w3.org/2000/01/rdf-schema#>) Ontology('
            b'AnnotationAssertion(l:label :A "one \\"a\\" \\\\"@en)'
            b'AnnotationAssertion(Annotation(:x "y") l:label :A "ein A"@de-AT)'
            b'AnnotationAssertion(:other :A "no") AnnotationAssertion(rdfs:label <http://e.org/B> "bee"^^xsd:string))'
        )
        self.assertEqual(labels, {E + "A": {"en": 'one "a" \\', "de-at": "ein A"}, E + "B": {"": "bee"}})
        for language, name in (("", 'one "a" \\'), ("de", "ein A"), ("fr", "A"), ("DE-at", "ein A")):
            self.assertEqual(Names(labels, language).of(E + "A"), name)

    def test_names_without_labels(self):
        names = Names()
        cases = {"http://e.org/o#Name": "Name", "http://e.org/x/CL_1": "CL_1", "urn:a": "a", E: E}
        for iri, name in cases.items():
            self.assertEqual(names.of(iri), name)

    def test_two_things_never_have_one_name(self):
        labels = {it: {"": "same"} for it in (E + "A", E + "B", "http://f.org/B")}
        found = {E + "A": "same (A)", E + "B": f"same ({E}B)", "http://f.org/B": "same (http://f.org/B)"}
        for asked in (list(labels), list(reversed(labels))):
            names = Names(labels)
            self.assertEqual({it: names.of(it) for it in asked}, found)

    def test_a_name_does_not_depend_on_what_is_asked_first(self):
        asked, known = ["http://f.org/B", E + "B"], [E + "B", "http://f.org/B"]
        found = [{it: Names(known=known).of(it) for it in order} for order in (asked, asked[::-1])]
        self.assertEqual(found[0], found[1])
        self.assertEqual(found[0][E + "B"], f"B ({E}B)")

    def test_names_are_in_one_language(self):
        labels = {E + "A": {"de": "ein A", "en": "an A"}, E + "B": {"en": "a B"}, E + "C": {"de": "ein C"}}
        labels[E + "D"] = {"en": "a D"}
        self.assertEqual([Names(labels).of(E + it) for it in "ABD"], ["an A", "a B", "a D"])
        self.assertEqual([Names(labels, "de").of(E + it) for it in "ABC"], ["ein A", "B", "ein C"])

    def test_a_language_that_no_label_has_is_said(self):
        labels = b'Ontology(AnnotationAssertion(rdfs:label <http://e.org/A> "a"@en))'
        said, complaint, status = shown(INSTANCES, labels, "--language", "fr")
        self.assertEqual(status, 0)
        self.assertIn("no label is in the language fr; there are labels in en", complaint)

    def test_numbers_in_names_are_sorted_by_size(self):
        names = Names()
        found = names.shown(E + it for it in ("Error10", "Error2", "error1", "Error", "Error02b"))
        self.assertEqual([it.removeprefix(E) for it in found], ["Error", "error1", "Error2", "Error02b", "Error10"])

    def test_names_of_their_own_form(self):
        names = Names(written={E + "N": "{a}"}, left_out=[E + "N"])
        self.assertEqual(class_text(("some", E + "r", ("name", E + "N")), names), "r some {a}")
        self.assertEqual(names.shown([E + "N", E + "A"]), [E + "A"])


class Manchester(unittest.TestCase):
    def test_classes(self):
        names = Names({E + "A": {"": "an A"}, E + "B": {"": "some"}})
        a, b, c = (("name", E + it) for it in "ABC")
        cases = {
            ("and", (a, ("or", (b, c)))): "'an A' and ('some' or C)",
            ("not", ("some", E + "r", a)): "not (r some 'an A')",
            ("all", E + "r", ("not", c)): "r only (not C)",
            ("least", 2, E + "r", TOP): "r min 2",
            ("exactly", 3, E + "r", ("and", (a, c))): "r exactly 3 ('an A' and C)",
            ("bottom",): "Nothing",
        }
        for expression, text in cases.items():
            self.assertEqual(class_text(expression, names), text)

    def test_axioms(self):
        a, b, c = (("name", it) for it in "ABC")
        cases = {
            ("SubClassOf", (a, b)): "A SubClassOf B",
            ("EquivalentClasses", (a, b)): "A EquivalentTo B",
            ("EquivalentClasses", (a, b, c)): "EquivalentClasses: A, B, C",
            ("DisjointClasses", (a, b)): "DisjointClasses: A, B",
            ("DisjointUnion", (a, b, c)): "A DisjointUnionOf B, C",
            ("SubObjectPropertyOf", ("r", "s")): "r SubPropertyOf s",
            ("EquivalentObjectProperties", ("r", "s")): "r EquivalentTo s",
            ("ObjectPropertyDomain", ("r", a)): "r Domain A",
            ("ObjectPropertyRange", ("r", a)): "r Range A",
            ("FunctionalObjectProperty", ("r",)): "Functional: r",
            ("TransitiveObjectProperty", ("r",)): "Transitive: r",
            ("ClassAssertion", (("not", a), "i")): "i Type not A",
            ("ObjectPropertyAssertion", ("r", "i", "j")): "i r j",
            ("SameIndividual", ("i", "j")): "i SameAs j",
            ("DifferentIndividuals", ("i", "j", "k")): "DifferentIndividuals: i, j, k",
        }
        for (keyword, items), text in cases.items():
            self.assertEqual(axiom_text(Axiom(keyword, items, 1), Names()), text)


class NormalForms(unittest.TestCase):
    def test_forms(self):
        a, b = ("name", "A"), ("name", "B")
        cases = [
            (("not", ("and", (a, ("not", b)))), ("or", (("not", a), b))),
            (("and", (a, ("and", (b, TOP)))), ("and", (a, b))),
            (("least", 1, "r", a), ("some", "r", a)),
            (("least", 0, "r", a), TOP),
            (("most", 0, "r", a), ("all", "r", ("not", a))),
            (("exactly", 2, "r", a), ("and", (("least", 2, "r", a), ("most", 2, "r", a)))),
            (("not", ("most", 2, "r", a)), ("least", 3, "r", a)),
            (("not", ("exactly", 0, "r", a)), ("some", "r", a)),
            (("or", (("bottom",), a)), a),
        ]
        for expression, form in cases:
            with self.subTest(expression=expression):
                self.assertEqual(normal(expression), form)
                self.assertEqual(normal(("not", complement(expression))), form)

    def test_rows(self):
        a, b, c = (("name", it) for it in "ABC")
        axiom = Axiom("SubClassOf", (("and", (a, b)), c), 1)
        self.assertEqual(row(axiom, 1, [2]), ([b], ("or", (("not", a), c))))
        self.assertEqual(row(Axiom("DisjointClasses", (a, b, c), 1), 2, [1]), ([a], ("not", c)))
        self.assertEqual(row(Axiom("EquivalentClasses", (a, b), 1), 2, [1]), ([b], a))


    def test_facts(self):
        a = ("name", "A")
        self.assertEqual(facts(Axiom("ClassAssertion", (("not", ("not", a)), "i"), 1)), [("is", "i", a)])
        self.assertEqual(facts(Axiom("ObjectPropertyAssertion", ("r", "i", "j"), 1)), [("leads", "r", "i", "j")])
        same = facts(Axiom("SameIndividual", ("i", "j", "k"), 1))
        self.assertEqual(same, [("same", "i", "j"), ("same", "j", "k")])
        apart = facts(Axiom("DifferentIndividuals", ("i", "j", "k"), 1))
        self.assertEqual(apart, [("apart", "i", "j"), ("apart", "i", "k"), ("apart", "j", "k")])
        self.assertEqual(facts(Axiom("SubClassOf", (a, a), 1)), [])


class Worlds(unittest.TestCase):
    def test_one_individual_is_asked_about(self):
        world = World(answer(MODEL.replace("end", f"individual <{E}i> 1\nindividual <{E}j> 0\nend")))
        a = ("name", E + "A")
        self.assertEqual(world.exceptions(TOP, a, E + "i"), [1])
        self.assertEqual(world.exceptions(TOP, a, E + "j"), [])

    def test_exceptions(self):
        world = World(answer(MODEL))
        a, b = ("name", E + "A"), ("name", E + "B")
        self.assertEqual(world.exceptions(b, a), [1])
        cases = {
            ("some", E + "r", a): [],
            ("all", E + "r", b): [0, 1],
            ("least", 1, E + "r", b): [0, 1],
            ("most", 0, E + "r", a): [0, 1],
            ("exactly", 1, E + "r", ("not", a)): [0, 1],
            ("and", (a, ("or", (b, TOP)))): [0],
        }
        for expression, members in cases.items():
            self.assertEqual([it for it in (0, 1) if world.holds(expression, it)], members)


class Shown(unittest.TestCase):
    def test_lists(self):
        said, _, status = shown(LISTS)
        self.assertEqual(status, 0)
        wanted = "It follows. There are 2 reasons:\n\nReason 1\n  1. axiom 1, line 4: A SubClassOf B\n"
        wanted += "\nReason 2\n  1. axiom 2, line 5: A SubClassOf r max 2\n  2. axiom 3, line 9: Transitive: s\n"
        self.assertEqual(said, wanted)
        self.assertIn("Repair 2: remove\n", shown(LISTS.replace("justifications", "repairs"))[0])

    def test_lists_of_nothing(self):
        cases = {
            "justifications 0": "It does not follow: there is no reason.",
            "justifications 1\nempty": "It follows from no axiom at all.",
            "repairs 0": "It follows from no axiom at all, so nothing stops it.",
            "repairs 1\nempty": "It does not follow, so nothing has to be removed.",
            "partial justifications 0\nundecided": SPENT,
        }
        for text, sentence in cases.items():
            self.assertEqual(shown(text + "\n")[0], sentence + "\n")

    def test_taxonomy(self):
        lines = shown(TAXONOMY)[0].splitlines()
        tree = ["Thing", "  A = B", "    C", "      F", "        G", "    D", "      F .."]
        self.assertEqual(lines[0], "1 of 7 classes is contradictory.")
        self.assertEqual(lines[3:5], ["Contradictory, so without any member:", "  N"])
        self.assertEqual(lines[6:-2], tree)

    def test_headings_of_taxonomies(self):
        cases = {
            TAXONOMY.replace(" <http://e.org/N>", ""): "The ontology is consistent, and none of its 6 classes is",
            "consistent\nnothing\nthing\nclass <A> under owl:Thing\n": "The ontology is consistent.",
            "consistent\nnothing <A> <B>\nthing\n": "2 of 2 classes are contradictory.",
            "inconsistent\n": "The ontology is contradictory as a whole",
        }
        for text, begins in cases.items():
            self.assertTrue(shown(text)[0].startswith(begins), text)

    def test_the_neighbourhood_of_a_class(self):
        said, complaint, status = shown(TAXONOMY, b"Prefix(:=<http://e.org/>)\nOntology()", "--about", ":C")
        self.assertEqual((complaint, status), ("", 0))
        self.assertEqual(said.splitlines()[7:], ["  A = B", "    C", "      F", "        G"])
        self.assertIn("no place in the hierarchy", shown(TAXONOMY, b"", "--about", f"<{E}X>")[1])
        self.assertEqual(shown(LISTS, b"", "--about", f"<{E}A>")[2], 2)

    def test_individuals(self):
        cases = {
            REALIZATION: ("The ontology is consistent.\n\n  x: A, B\n  z: in no named class\n", f'<td><span title="{E}A">A</span>, <span title="{E}B">B</span></td>'),
            "consistent\n": ("The ontology is consistent.\n", "consistent."),
            INSTANCES: ("2 individuals are in the class:\n\n  x\n  y\n", f'<span title="{E}y">y</span></li>'),
            "instances 0\n": ("No individual is in the class.\n", "No individual"),
            REASONS: (REASONS_TOLD, f'<h2><span title="{E}x">x</span>, reason 2</h2>\n<ol><li><span data-copy>'),
        }
        for text, (said, part) in cases.items():
            with self.subTest(text=text[:30]):
                self.assertEqual(shown(text), (said, "", 0))
                self.assertIn(part, shown(text, b"", "--html")[0])
                self.assertEqual(shown(text, b"", "--dot")[2], 2)

    def test_scripts(self):
        lines = ["Axiom 3 is in from here on.", "It follows from axioms 1 and 3."]
        lines += ["The statement is damaged: a prefix that is not declared.", "This is no line of a script."]
        lines += ["It does not follow."]
        self.assertEqual(shown(SCRIPTED)[0].splitlines(), lines)

    def test_long_chains(self):
        chain = "".join(f"class <c{i}> under <c{i - 1}>\n" for i in range(1, 3000))
        text = "consistent\nnothing\nthing\nclass <c0> under owl:Thing\n" + chain
        self.assertEqual(len(shown(text)[0].splitlines()), 3003)
        self.assertIn("c2999", shown(text, b"", "--html")[0])

    def test_model(self):
        said, _, _ = shown(MODEL, b"", "--query", "<http://e.org/A>")
        self.assertIn("thing 0: A, B (a member of the class)\n    r thing 1\n", said)

    def test_refutation_over_its_ontology(self):
        said, complaint, status = shown(HEART, ANATOMY, "--query", "SubClassOf(:Heart :Organ)")
        self.assertEqual((complaint, status), ("", 0))
        self.assertIn("By axiom 1: thing 0 is 'heart (\"cor\")', so it is MuscularOrgan.", said)
        self.assertIn("Thing 0 is Organ, and is not Organ: a contradiction.", said)

    def test_what_is_supposed_is_found(self):
        said = shown(HEART, ANATOMY)[0]
        self.assertIn("Suppose there is a thing 0 that is 'heart (\"cor\")' and not Organ.", said)

    def test_facts_of_individuals(self):
        asked = ("--query", "ClassAssertion(:B :k)")
        said, complaint, status = shown(FACTS, FACTS_ONTOLOGY, *asked)
        self.assertEqual((complaint, status), ("", 0))
        lines = said.splitlines()
        self.assertEqual(lines[0], "The statement follows. (k Type B)")
        self.assertEqual(lines[lines.index("Suppose k is not B.") :], FACTS_TOLD)
        self.assertIn("Suppose one of j and k is not B.", shown(FACTS, FACTS_ONTOLOGY)[0])
        self.assertIn("Suppose there is a thing", shown(FACTS)[0])

    def test_individuals_of_a_world(self):
        model = MODEL.replace("satisfiable", "not entailed")
        model = model.replace("end", f"individual <{E}i> 1\nindividual <{E}j> 1\nend")
        said = shown(model, b"", "--query", f"ClassAssertion(<{E}A> <{E}j>)")[0]
        self.assertIn("  thing 1 (i, j): B (it shows that the statement fails)\n    r thing 1 (i, j)\n", said)
        self.assertIn("<th scope='row'>0</th>", shown(model, b"", "--html")[0])

    def test_two_that_are_one_and_different(self):
        ontology = b"Prefix(:=<http://e.org/>)\nOntology(\nSameIndividual(:i :j :k)\nDifferentIndividuals(:k :i)\n)\n"
        told = ["fact 1 1", "fact 1 2", "fact 2 1", "differ 2 0"]
        lines = ["entailed", "refutation", "axioms 1 2", "start", *told, "end", ""]
        said = shown("\n".join(lines), ontology, "--query", "SubClassOf(owl:Thing owl:Nothing)")[0]
        self.assertIn("By axiom 2: k and i are different.\n", said)
        self.assertIn("k and i are the same, and are different: a contradiction.\n", said)
        self.assertIn("Suppose there is a thing 3", said)

    def test_cases(self):
        lines = shown(CASES, CASES_ONTOLOGY)[0].splitlines()
        at = lines.index("Suppose there is a thing 0 that is A and not D.")
        first = ["  By axiom 1: thing 0 is A, so it is B or C.", "  Now thing 0 is B or C: 2 cases."]
        self.assertEqual(lines[at + 1 : at + 4], [*first, "    Case 1: thing 0 is B."])
        last = ["By axiom 3: thing 0 is C, so it is D.", "Thing 0 is D, and is not D: a contradiction."]
        self.assertEqual(lines[at + 7 : at + 9], [f"      {it}" for it in last])

    def test_numbers(self):
        said = shown(NUMBERS, CASES_ONTOLOGY)[0]
        self.assertIn("r leads from it to 2 different things, 1 to 2, each of which is B.", said)
        self.assertIn("Thing 0 is in (r max 1), but things 1 and 2 are 2 different ones: a contradiction.", said)

    def test_a_refutation_of_another_ontology_is_told_without_its_axioms(self):
        said, complaint, status = shown(HEART, CASES_ONTOLOGY)
        self.assertEqual(status, 0)
        self.assertIn("not those of this refutation", complaint)
        self.assertIn("Axiom 1 says more of thing 0.", said)

    def test_plain_answers(self):
        cases = {
            "undecided": "Not decided",
            "bad text balance line 6": "Line 6 of the ontology is damaged: a bracket without its partner.",
            "bad text shape query": "The statement is damaged",
            "outside not-simple line 4": "Line 4 of the ontology counts a role",
            "outside ObjectOneOf query": "The statement has ObjectOneOf",
            "limit text": "longer than",
            "limit nodes line 3": "Line 3 of the ontology passes the limit on nodes.",
            "accepted entailed": "The certificate is right",
            "rejected axiom 5": "does not meet axiom 5",
            "workload 4": "workload 4",
            "accepted audit": "The audit is right",
            "rejected repair 2": "way to stop the statement 2",
        }
        for text, part in cases.items():
            self.assertIn(part, shown(text + "\n")[0])

    def test_nothing_to_read(self):
        """It may come of a job that failed, so it is no answer, unless a class is known that `why` was asked about."""
        for text in ("", "\n", "  \n\n"):
            for words in ((), ("--html",), ("--dot",), ("--pipe-status",), ("--query", f"SubClassOf(<{E}A> <{E}B>)")):
                with self.subTest(text=text, words=words):
                    said, complaint, status = shown(text, b"", *words)
                    self.assertEqual((said, status), ("", 3))
                    self.assertIn("there is nothing to read", complaint)
        said, complaint, status = shown("", b"", "--query", f"<{E}A>")
        self.assertEqual((said.strip(), status), ("No individual is in the class.", 0))
        self.assertIn("of no other job", complaint)

    def test_no_answer(self):
        for text in ("hello\n", "consistently\n", "yes\n", "undecided\nhello\n", "axiom x\n", "bad text thing line 3\n"):
            with self.subTest(text=text):
                said, complaint, status = shown(text)
                self.assertEqual((said, status), ("", 3))
                self.assertIn("no answer of the reasoner", complaint)
        self.assertEqual(shown(LISTS[:-60])[2], 3)
        self.assertEqual(shown(MODEL, b"", "--query", "SubClassOf(:A :B)")[2], 2)
        self.assertEqual(shown(LISTS, b"", "--dot")[2], 2)


class Pictures(unittest.TestCase):
    def test_quoted(self):
        self.assertEqual(quoted('a"b\\c\nd'), '"a\\"b\\\\c\\nd"')
        self.assertEqual(wrapped("word " * 10 + "end").count("\n"), 1)

    def test_graphs(self):
        model = shown(MODEL, b"", "--dot")[0]
        self.assertIn('thing0 -> thing1 [label="r"];', model)
        self.assertIn('thing1 [label="thing 1\\nB"];', model)
        taxonomy = shown(TAXONOMY, b"", "--dot")[0]
        self.assertIn("class3 -> class1;", taxonomy)
        self.assertIn("class0 -> thing;", taxonomy)
        cases = shown(CASES, CASES_ONTOLOGY, "--dot")[0]
        self.assertEqual(cases.count("->"), 7 - 1)
        self.assertIn("label=\"thing 0 is C\"", cases)

    def test_pages_are_whole(self):
        texts = [LISTS, TAXONOMY, MODEL, HEART, CASES, NUMBERS, REALIZATION, REASONS, INSTANCES, SCRIPTED]
        for text in (*texts, "undecided\n", "inconsistent\n", "repairs 0\n", "consistent\n", "instances 0\n"):
            for labels in (b"", ANATOMY, CASES_ONTOLOGY):
                with self.subTest(text=text[:20]):
                    self.assertTrue(page_text(shown(text, labels, "--html")[0]).strip())

    def test_names_are_escaped(self):
        labels = b'Ontology(AnnotationAssertion(rdfs:label <http://e.org/A> "<script>&"))'
        page = shown(TAXONOMY, labels, "--html")[0]
        self.assertEqual(page.count("<script>"), 1)
        self.assertIn("&lt;script&gt;&amp;", page)


@needs_program
class WithProgram(unittest.TestCase):
    def test_answers_of_every_job(self):
        cases = [["classify"], ["classify", "budget", "1"]]
        hollow = "ObjectIntersectionOf(:Heart ObjectComplementOf(:Organ))"
        cases += [["sat", it] for it in (":Heart", "owl:Nothing", hollow, "x:y")]
        for pair in (":Heart :Organ", ":Organ :Heart", ":Heart owl:Thing", ":Lung owl:Nothing"):
            statement = f"SubClassOf({pair})"
            cases += [[job, statement] for job in ("entails", "explain", "repair")]
            cases.append(["explain", statement, "budget", "1"])
        follows = (EXAMPLES / "anatomy" / "follows.txt").read_text(encoding="utf-8").strip()
        cases += [["explain", follows], ["workload", "3"], ["bad"]]
        for words in cases:
            said, _ = run_program(words, ANATOMY)
            for how in ([], ["--html"]):
                with self.subTest(words=words, how=how):
                    found, complaint, status = shown(said, ANATOMY, *how)
                    self.assertEqual((complaint, status), ("", 0))
                    self.assertTrue(found)

    def test_answers_on_individuals(self):
        ward = (EXAMPLES / "ward" / "ontology.ofn").read_bytes()
        scripted = ward + (EXAMPLES / "ward" / "script.txt").read_bytes()
        same = ward.replace(b"DifferentIndividuals", b"SameIndividual")
        cases = [(["realize"], ward), (["realize"], same), (["session"], scripted)]
        cases += [([job, of], ward) for job in ("instances", "why") for of in (":MrRoom", "owl:Thing")]
        for words, data in cases:
            said, status = run_program(words, data)
            self.assertEqual(status, 0)
            for how in ([], ["--html"]):
                with self.subTest(words=words, how=how):
                    found, complaint, ended = shown(said, ward, *how)
                    self.assertEqual((complaint, ended), ("", 0))
                    self.assertTrue(found)

    def test_refutations_are_told_whole(self):
        for name in ("hearts-are-organs", "follows"):
            statement = (EXAMPLES / "anatomy" / f"{name}.txt").read_text(encoding="utf-8").strip()
            said, _ = run_program(["entails", statement], ANATOMY)
            reading = reading_of(words_of(["--query", statement]), said, ANATOMY)
            self.assertTrue(reading.story().is_sound)
            sub, sup, _ = query_of(statement, ontology_from(ANATOMY).prefixes)
            allowed = {normal(sub), complement(sup), *normal(sub)[1:]}
            self.assertLessEqual(set(reading.story().supposed), allowed)

    def test_through_a_pipe(self):
        said, _ = run_program(["classify"], ANATOMY)
        words = [sys.executable, TOOLS / "ask", "read", "--labels", EXAMPLES / "anatomy" / "ontology.ofn"]
        ran = subprocess.run(words, input=said.encode(), capture_output=True, check=True)
        self.assertIn('      heart ("cor")\n', ran.stdout.decode())
