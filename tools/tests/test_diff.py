"""`./shq diff`: what follows from one ontology and not from another."""
import json
import sys
import tempfile
import unittest
from pathlib import Path

from shq_tools.answers import answer
from shq_tools.differences import Said, Statement, came, first_ones, said_of
from shq_tools.places import EXAMPLES, TOOLS
from tests.fakes import run, shq
from tests.program import needs_program
from tests.test_json import check_form

# Prints the text that stands in the comments of what it reads, by job; of `explain`, the first axiom.
PRINTING = f"""#!{sys.executable}
import sys
job = sys.argv[1]
if job == "explain":
    print("justifications 1\\n1\\naxiom 1 line 3 SubClassOf(<http://e.org/A> <http://e.org/B>)")
    sys.exit(0)
lines = [it[2:] for it in sys.stdin.read().splitlines() if it.startswith("# ")]
at = lines.index(job)
end = next((it for it in range(at + 1, len(lines)) if lines[it] in ("classify", "realize")), len(lines))
print("\\n".join(lines[at + 1 : end]))
sys.exit(8 if lines[at + 1] == "undecided" else 0)
"""


def taxonomy(*lines):
    return "\n".join(["consistent", "nothing", "thing", *lines])


def document(classify, realize="", axioms="SubClassOf(:A :B)\n"):
    """A document whose answers stand in its comments."""
    told = ["classify", *classify.splitlines(), *(["realize", *realize.splitlines()] if realize else [])]
    comments = "".join(f"# {it}\n" for it in told)
    return f"Prefix(:=<http://e.org/>)\nOntology(\n{axioms}{comments})\n"


def named(name):
    return f"<http://e.org/{name}>"


def line(name, *above):
    return f"class {named(name)} under {' '.join(map(named, above)) or 'owl:Thing'}"


class Following(unittest.TestCase):
    def said(self, text, realization=None):
        return said_of(answer(text), answer(realization) if realization else None)

    def test_all_superclasses_and_types(self):
        groups = ("<A> <A2> under <B> <C>", "<B> under <D>", "<C> under <D>", "<D> under owl:Thing")
        text = "\n".join(["consistent", "nothing <N>", "thing <T>", *(f"class {it}" for it in groups)])
        said = self.said(text, "consistent\nindividual <i> types <A> <T>\nindividual <j> types owl:Thing")
        self.assertEqual(said.superclasses["A"], {"A2", "B", "C", "D", "T"})
        self.assertEqual(said.superclasses["A2"], {"A", "B", "C", "D", "T"})
        self.assertEqual((said.superclasses["D"], said.superclasses["T"]), ({"T"}, set()))
        self.assertEqual(said.types, {"i": {"A", "A2", "B", "C", "D", "T"}, "j": {"T"}})
        self.assertEqual(said.contradictory, {"N"})

    def test_a_class_that_becomes_contradictory_loses_no_superclass(self):
        old = Said(True, frozenset(), {"A": {"B"}, "B": set()})
        new = Said(True, frozenset("A"), {"B": set()})
        self.assertEqual(came(old, new), [Statement("contradictory", "A")])
        self.assertEqual(came(new, old), [])

    def test_an_inconsistent_ontology(self):
        self.assertEqual(came(Said(), Said(is_consistent=False)), [Statement("inconsistent")])
        self.assertEqual(came(Said(is_consistent=False), Said(True, frozenset("A"))), [])

    def test_the_first_of_what_came(self):
        old = Said(True, frozenset(), {"A": set(), "B": {"C"}, "C": set()}, {"i": {"A"}})
        new = Said(True, frozenset(), {"A": {"B", "C"}, "B": {"C"}, "C": set()}, {"i": {"A", "B", "C"}})
        found = came(old, new)
        self.assertEqual(len(found), 4)
        self.assertEqual(first_ones(found, new), [Statement("subclass", "A", "B")])

    def test_classes_that_become_equal(self):
        old = Said(True, frozenset(), {"A": {"C"}, "B": {"C"}, "C": set()})
        new = Said(True, frozenset(), {"A": {"B", "C"}, "B": {"A", "C"}, "C": set()})
        both = [Statement("subclass", "A", "B"), Statement("subclass", "B", "A")]
        self.assertEqual(first_ones(came(old, new), new), both)

    def test_questions(self):
        self.assertEqual(Statement("inconsistent").question(), "SubClassOf(owl:Thing owl:Nothing)")
        self.assertEqual(Statement("contradictory", "A").question(), "SubClassOf(<A> owl:Nothing)")
        self.assertEqual(Statement("subclass", "A", "B").question(), "SubClassOf(<A> <B>)")
        self.assertEqual(Statement("type", "i", "B").question(), "ClassAssertion(<B> <i>)")


class Diff(unittest.TestCase):
    def diff(self, old, new, *words):
        with tempfile.TemporaryDirectory() as room:
            for name, text in (("old.ofn", old), ("new.ofn", new)):
                (Path(room) / name).write_text(text, encoding="utf-8")
            return shq("diff", Path(room) / "old.ofn", Path(room) / "new.ofn", *words, program=PRINTING)

    def test_what_came_and_went(self):
        old = document(taxonomy(line("A"), line("B"), line("C", "B")))
        new = document(taxonomy(line("A", "B"), line("B"), line("C")).replace("nothing", f"nothing {named('X')}"))
        said, complaint, status = self.diff(old, new)
        self.assertEqual(
            said,
            "- C SubClassOf B\n+ X is contradictory\n    axiom 1, line 3: A SubClassOf B\n"
            "+ A SubClassOf B\n    axiom 1, line 3: A SubClassOf B\n",
        )
        self.assertEqual((complaint, status), ("shq: 2 came, 1 went\n", 1))

    def test_nothing(self):
        text = document(taxonomy(line("A", "B"), line("B")))
        self.assertEqual(self.diff(text, text), ("", "shq: nothing came and nothing went\n", 0))

    def test_what_follows_from_the_rest(self):
        old = document(taxonomy(line("A"), line("B", "C"), line("C")))
        new = document(taxonomy(line("A", "B"), line("B", "C"), line("C")))
        said, complaint, _ = self.diff(old, new, "--reasons", "0")
        self.assertEqual(said, "+ A SubClassOf B\n")
        self.assertIn("2 came, 0 went; 1 that follow from these are left out (--all)", complaint)
        self.assertEqual(self.diff(old, new, "--reasons", "0", "--all")[0], "+ A SubClassOf B\n+ A SubClassOf C\n")

    def test_types(self):
        fact = 'ClassAssertion(:A :i)\nAnnotationAssertion(rdfs:label :i "the one")\n'
        classes = taxonomy(line("A"), line("B"))
        old = document(classes, f"consistent\nindividual {named('i')} types {named('A')}", fact)
        new = document(classes, f"consistent\nindividual {named('i')} types {named('B')}", fact)
        self.assertEqual(self.diff(old, new, "--reasons", "0")[0], "- 'the one' Type A\n+ 'the one' Type B\n")

    def test_as_an_object(self):
        """--json prints one object for all that came and went."""
        fact = 'ClassAssertion(:A :i)\nAnnotationAssertion(rdfs:label :i "the one")\n'
        above = line("C", "B")
        types = f"consistent\nindividual {named('i')} types {named('A')}"
        old = document(taxonomy(line("A"), line("B"), above), types, fact)
        new = old.replace(above, line("C")).replace(f"types {named('A')}", f"types {named('B')}")
        said, complaint, status = self.diff(old, new, "--json")
        value = json.loads(said)
        check_form(value)
        self.assertEqual((value["job"], value["verdict"], value["left_out"], status), ("diff", "compared", 0, 1))
        self.assertEqual([Path(value[it]).name for it in ("old", "file")], ["old.ofn", "new.ofn"])
        c_b = {"kind": "subclass", "text": f"SubClassOf({named('C')} {named('B')})"}
        i_a = {"kind": "type", "text": f"ClassAssertion({named('A')} {named('i')})"}
        went = [{**c_b, "about": "http://e.org/C", "class": "http://e.org/B"}]
        went += [{**i_a, "about": "http://e.org/i", "class": "http://e.org/A"}]
        self.assertEqual(value["went"], went)
        self.assertEqual([it["text"] for it in value["came"]], [f"ClassAssertion({named('B')} {named('i')})"])
        self.assertEqual([it["line"] for it in value["came"][0]["axioms"]], [3])
        self.assertEqual(value["names"], {"http://e.org/i": "the one"})
        self.assertEqual(complaint, "shq: 1 came, 2 went\n")
        good = document(taxonomy(line("A")))
        for words, wanted in (((good, "Ontology("), 3), ((good, document("undecided")), 8)):
            said, _, status = self.diff(*words, "--json")
            value = json.loads(said)
            check_form(value)
            self.assertEqual((value["verdict"], value["status"]["number"], status), ("not asked", wanted, wanted))
        for words, wanted in ((["--json"], 2), (["/not/there", "/dev/null", "--json"], 6)):
            said, _, status = shq("diff", *words)
            check_form(json.loads(said))
            self.assertEqual((json.loads(said)["status"]["number"], status), (wanted, wanted))

    def test_what_cannot_be_compared(self):
        good = document(taxonomy(line("A")))
        cases = ((document("undecided"), 8, "classify is undecided"), ("Ontology(", 3, "bad text balance line 1"))
        for bad, wanted, complaint in cases:
            for old, new, name in ((good, bad, "new.ofn"), (bad, good, "old.ofn")):
                said, told, status = self.diff(old, new)
                self.assertEqual((said, status), ("", wanted))
                self.assertIn(f"{name}: {complaint}", told)
        self.assertEqual(shq("diff", "/not/there", "/dev/null")[2], 6)

    def test_bad_words(self):
        for words in ([], ["a"], ["a", "b", "c"], ["a", "b", "--reasons", "x"], ["a", "b", "-j", "0"]):
            said, complaint, status = shq("diff", *words)
            self.assertEqual((said, status), ("", 2))
            self.assertIn("usage: ./shq diff OLD NEW", complaint)


@needs_program
class WithProgram(unittest.TestCase):
    def test_a_line_of_the_ward_is_taken_out(self):
        ward = EXAMPLES / "ward" / "ontology.ofn"
        with tempfile.TemporaryDirectory() as room:
            lines = ward.read_text(encoding="utf-8").splitlines()
            mended, other = Path(room) / "mended.ofn", Path(room) / "other.ofn"
            mended.write_text("\n".join([*lines[:12], "", *lines[13:]]), encoding="utf-8")
            changed = [it.replace(":SyringePump :InfusionDevice", ":SyringePump :MrRoom") for it in lines]
            other.write_text("\n".join([*changed[:12], "", *changed[13:]]), encoding="utf-8")
            first = run([sys.executable, TOOLS / "ask", "diff", ward, mended])
            second = run([sys.executable, TOOLS / "ask", "diff", mended, other])
        self.assertEqual((first[0], first[2]), ("- the ontology is inconsistent\n", 1))
        self.assertEqual(second[2], 1)
        self.assertEqual(
            second[0].splitlines(),
            [
                "- SyringePump SubClassOf InfusionDevice",
                "+ SyringePump SubClassOf MrRoom",
                "    axiom 5, line 8: SyringePump SubClassOf MrRoom",
            ],
        )
