"""The options `--html` and `--markdown` of the jobs, and translations on pages, over a program that only seems to be one."""
import json
import tempfile
import unittest
from pathlib import Path

from tests.fakes import HEAD, shq
from tests.test_answers import E, HEART, INSTANCES, LISTS, MODEL, SCRIPTED, TAXONOMY, page_text
from tests.test_answers import ANATOMY, shown
from tests.test_report import report

ANSWERING = HEAD + 'cat >/dev/null\ncat "$ANSWER"\nexit "${STATUS:-0}"\n'
PREFIX = "Prefix(:=<http://e.org/>)\nOntology(\nSubClassOf(:A :B)\nClassAssertion(:A :x)\n)\n"
# :Sicilian comes from Italy, and does not; the reasoner reads that with a class of Italy alone.
PIZZA = """Prefix(:=<http://e.org/>)
Prefix(rdfs:=<http://www.w3.org/2000/01/rdf-schema#>)
Ontology(
AnnotationAssertion(rdfs:label :Italy "fair Italy"@en)
SubClassOf(:Sicilian ObjectHasValue(:from :Italy))
SubClassOf(:Sicilian ObjectComplementOf(ObjectHasValue(:from :Italy)))
InverseObjectProperties(:from :makes)
SubClassOf(:Maker ObjectSomeValuesFrom(ObjectInverseOf(:has) :Sicilian))
HasKey(:Maker () (:size))
)
"""
ITALY = "<urn:owl2-as-shq:ObjectOneOf(%3C" + E + "Italy%3E)>"
PIZZA_REASON = f"""justifications 1
1 2
axiom 1 line 5 SubClassOf(<{E}Sicilian> ObjectSomeValuesFrom(<{E}from> {ITALY}))
axiom 2 line 6 SubClassOf(<{E}Sicilian> ObjectAllValuesFrom(<{E}from> ObjectComplementOf({ITALY})))
"""


def asked(*words, answer, data=PREFIX, status=0):
    """What a job prints over a program with this answer, what it says besides, and its status."""
    with tempfile.TemporaryDirectory() as room:
        path = Path(room) / "answer"
        path.write_text(answer, encoding="utf-8")
        given = data if isinstance(data, bytes) else data.encode()
        return shq(*words, data=given, program=ANSWERING, ANSWER=path, STATUS=status)


class Jobs(unittest.TestCase):
    def test_every_job_makes_its_page_and_its_text(self):
        cases = {
            ("classify",): (TAXONOMY, "1 of 7 classes is contradictory."),
            ("explain", "SubClassOf(:A :B)"): (LISTS, "A SubClassOf B: it follows. There are 2 reasons:"),
            ("sat", ":A"): (MODEL, "The class can have a member. (A)"),
            ("instances", ":A"): (INSTANCES, "A: 2 individuals are in the class:"),
            ("why", ":A"): ("", "A: no individual is in the class."),
            ("session",): ("", "The script has no lines."),
            ("realize",): (TAXONOMY[:40], "The answer is not whole."),
            ("workload", "3"): ("workload 3\naxioms 19\njustifications 8\nrepairs 3\n", "workload 3"),
        }
        for words, (answer, heading) in cases.items():
            with self.subTest(words=words):
                page, complaint, status = asked(*words, "--html", answer=answer)
                self.assertEqual((complaint, status), ("", 0))
                self.assertIn(heading, page_text(page))
                text, complaint, status = asked(*words, "--markdown", answer=answer)
                self.assertEqual((text.splitlines()[0], complaint, status), (f"### {heading}", "", 0))

    def test_statuses_stay(self):
        page, complaint, status = asked("classify", "--budget", "5", "--html", answer="undecided\n", status=8)
        self.assertEqual(status, 8)
        self.assertIn("Not decided", page_text(page))
        self.assertIn("to allow more", complaint)
        page, complaint, status = asked("sat", ":A", "--html", answer="bad text prefix query\n", status=3)
        self.assertEqual((complaint, status), ("", 3))
        self.assertIn("The statement is damaged", page_text(page))

    def test_a_refutation_is_told_with_the_axioms_of_the_file(self):
        page = page_text(asked("entails", "SubClassOf(:Heart :Organ)", "--html", answer=HEART, data=ANATOMY)[0])
        self.assertIn("The statement follows. ('heart (\"cor\")' SubClassOf Organ)", page)
        self.assertIn("By axiom 1: thing 0 is 'heart (\"cor\")', so it is MuscularOrgan.", page)

    def test_a_question_that_was_put_in_another_way_is_shown_as_it_was_written(self):
        page = page_text(asked("entails", "Heart SubClassOf Organ", "--html", answer=HEART, data=ANATOMY)[0])
        self.assertIn("Asked: Heart SubClassOf Organ", page)


class Translations(unittest.TestCase):
    def test_new_names_are_never_seen(self):
        words = ("explain", "SubClassOf(:Sicilian owl:Nothing)", "--approximate")
        for shape in ("--html", "--markdown"):
            with self.subTest(shape=shape):
                said = asked(*words, shape, answer=PIZZA_REASON, data=PIZZA)[0]
                self.assertNotIn("owl2-as-shq", said)
                text = page_text(said) if shape == "--html" else said
                # the axioms are those of the file, with its labels
                self.assertIn("Sicilian SubClassOf from value 'fair Italy'", text)
                self.assertIn("Sicilian SubClassOf not (from value 'fair Italy')", text)
                self.assertIn("4 by others, 1 left out", text)
                self.assertNotIn("This holds of the translation alone", text)

    def test_what_does_not_follow_is_said_to_hold_of_the_translation_alone(self):
        words = ("entails", "SubClassOf(:Maker :Sicilian)", "--approximate", "--html")
        model = f"not entailed\nmodel 1\nclass <{E}Maker> 0\nclass {ITALY} 0\nend\n"
        text = page_text(asked(*words, answer=model, data=PIZZA)[0])
        self.assertLess(text.index("The statement does not follow."), text.index("This holds of the translation alone"))
        self.assertNotIn("{", text.partition("The world")[2])

    def test_read_shows_new_names_by_what_they_mean(self):
        said, complaint, status = shown(PIZZA_REASON)
        self.assertEqual(status, 0)
        self.assertIn("Sicilian SubClassOf from some {Italy}", said)
        taxonomy = f"consistent\nnothing\nthing\nclass {ITALY} under <{E}A>\nclass <{E}A> under owl:Thing\n"
        taxonomy += f"class <{E}B> under {ITALY}\n"
        said = shown(taxonomy)[0].splitlines()
        self.assertIn("The ontology is consistent, and none of its 2 classes is contradictory.", said)
        self.assertEqual(said[-3:], ["Thing", "  A", "    B"])
        # without --approximate too it is said what the answer is worth
        self.assertIn("This holds of the translation alone: the whole file may say more.", said)
        self.assertTrue(any("it is to a translation of a file" in it for it in said))
        self.assertNotIn("translation", shown(TAXONOMY)[0])
        self.assertIn('label="A"', shown(taxonomy, b"", "--dot")[0])
        self.assertNotIn("{Italy}", shown(taxonomy, b"", "--dot")[0])

    def test_a_report_on_a_translation(self):
        answers = {"classify": f"consistent\nnothing <{E}Sicilian>\nthing\nclass <{E}Maker> under owl:Thing\n"
                               f"class {ITALY} under owl:Thing\n",
                   "realize": f"consistent\nindividual <{E}Italy> types {ITALY}\n",
                   "explain-Sicilian": PIZZA_REASON, "repair-Sicilian": PIZZA_REASON.replace("justifications", "repairs")}
        page = report("--approximate", data=PIZZA, answers=answers)[0]
        self.assertNotIn("owl2-as-shq", page)
        text = page_text(page)
        self.assertIn("1 of 2 classes is contradictory.", text)
        self.assertIn("2 classes · 2 roles · 1 individual", text)
        self.assertIn("Sicilian SubClassOf from value 'fair Italy'", text)
        self.assertIn("fair Italyin no named class", text)
        self.assertIn("keys · 1 · line 9 · lost: all", text)
        cut = page_text(report(data=PIZZA, answers=answers)[0])
        self.assertIn("5 axioms of 5 are outside of the language and were left out.", cut)

    def test_an_individual_is_in_the_classes_of_the_file_above_one_that_is_new(self):
        """Its most specific class may be one that the translation made: then the hierarchy is asked for too."""
        hierarchy = f"consistent\nnothing\nthing\nclass <{E}Country> under owl:Thing\nclass {ITALY} under <{E}Country>\n"
        types = f"consistent\nindividual <{E}Italy> types {ITALY}\n"
        both = HEAD + f'cat >/dev/null\n[ "$1" = classify ] && printf %s "{hierarchy}" || printf %s "{types}"\n'
        text = shq("realize", "--approximate", "--markdown", data=PIZZA.encode(), program=both)[0]
        self.assertIn("fair Italy: Country", text)
        said = shq("realize", "--approximate", "--json", "budget", "9", data=PIZZA.encode(), program=both)[0]
        self.assertIn({"individual": E + "Italy", "classes": [E + "Country"]}, json.loads(said)["types"])
        page = page_text(report("--approximate", data=PIZZA, answers={"classify": hierarchy, "realize": types})[0])
        self.assertIn("fair ItalyCountry", page)
        # without the hierarchy there stands what the new class means
        text = asked("realize", "--approximate", "--markdown", answer=types, data=PIZZA)[0]
        self.assertIn("{'fair Italy'}", text)

    def test_several_axioms_on_one_line_are_shown_as_they_became(self):
        text = asked("explain", "SubClassOf(:Sicilian owl:Nothing)", "--approximate", "--markdown",
                     answer=PIZZA_REASON.replace("line 5", "line 4").replace("line 6", "line 4"),
                     data=PIZZA.replace("Italy))\nSubClassOf", "Italy)) SubClassOf").replace("))\nInv", ")) Inv"))[0]
        self.assertIn("Sicilian SubClassOf from some {'fair Italy'}", text)
        self.assertNotIn("owl2-as-shq", text)
