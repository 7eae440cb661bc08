"""Answers as objects of JSON, and their form in `docs/answer.schema.json`."""
import json
import subprocess
import sys
import unittest

from shq_tools.places import EXAMPLES, TOOLS, TOP
from tests.fakes import HEAD, TOLD, shq
from tests.program import needs_program

try:
    import jsonschema
except ImportError:
    jsonschema = None

SCHEMA = json.loads((TOP / "docs" / "answer.schema.json").read_text(encoding="utf-8"))
ANATOMY = EXAMPLES / "anatomy" / "ontology.ofn"
CONTRADICTION = EXAMPLES / "contradiction" / "ontology.ofn"
PUMPS = "http://example.org/pumps#"


def check_form(value):
    """Compares an object with the schema, where there is what compares it, and always that no key is unknown."""
    assert set(value) <= set(SCHEMA["properties"]), set(value) - set(SCHEMA["properties"])
    assert set(SCHEMA["required"]) <= set(value), value
    if jsonschema is not None:
        jsonschema.validate(value, SCHEMA)


def printing(text, status=0):
    """A program that prints a text."""
    return f"{HEAD}cat > /dev/null\ncat <<'TEXT'\n{text}TEXT\nexit {status}\n"


# New names of a translation: {a}, inverse (r), and an individual without a name.
NEW, BACK, UNNAMED = (
    f"<urn:owl2-as-shq:{it}>"
    for it in ("ObjectOneOf(%3Chttp://e.org/a%3E)", "ObjectInverseOf(%3Chttp://e.org/r%3E)", "_:x")
)
# {a} and A are equal; C is below a class that is new, and that one below A and B.
OTHER = "<urn:owl2-as-shq:ObjectOneOf(%3Chttp://e.org/b%3E)>"
HIERARCHY = f"""consistent
nothing {BACK}
thing {UNNAMED}
class <B> under owl:Thing
class {NEW} <A> under <B>
class {OTHER} under {NEW} <B>
class <C> under {OTHER} <B>
"""


class Forms(unittest.TestCase):
    """Answers of each kind, as the program words them."""

    def object(self, words, text, status=0, ended=None):
        data = CONTRADICTION.read_bytes()
        said, _, got = shq(*words, "--json", data=data, program=printing(text, status))
        self.assertEqual(got, status if ended is None else ended)
        value = json.loads(said)
        check_form(value)
        return value

    def test_the_question_and_the_status(self):
        value = self.object(["sat", "MagneticPump"], "undecided\n", 8)
        self.assertEqual((value["job"], value["question"], value["asked"]), ("sat", "MagneticPump", ":MagneticPump"))
        self.assertEqual(value["status"], {"number": 8, "name": "undecided"})
        self.assertEqual((value["verdict"], value["complete"], value["file"]), ("undecided", False, None))

    def test_lists(self):
        text = "justifications 2\n1 2\n3\n" + "".join(
            f"axiom {it} line {it + 2} SubClassOf(<{PUMPS}A> <{PUMPS}B>)\n" for it in (1, 2, 3)
        )
        value = self.object(["explain", "SubClassOf(:Pump :Seal)"], text)
        self.assertEqual((value["verdict"], value["sets"], value["complete"]), ("justifications", [[1, 2], [3]], True))
        self.assertEqual(value["axioms"][2], {"number": 3, "line": 5, "text": f"SubClassOf(<{PUMPS}A> <{PUMPS}B>)"})
        value = self.object(["repair", "SubClassOf(:Pump :Seal)"], "partial repairs 0\nundecided\n", 8)
        self.assertEqual((value["verdict"], value["sets"], value["complete"]), ("repairs", [], False))

    def test_axioms_that_were_put_in(self):
        data = (EXAMPLES / "ward" / "ontology.ofn").read_bytes()
        text = "justifications 1\n8 12\naxiom 8 line 12 X(<a>)\naxiom 12 line 17 Y(<b>)\n"
        text = text.replace("X(<a>)", "SameIndividual(<a> <b>)").replace("Y(<b>)", "ClassAssertion(<N> <b>)")
        said, _, _ = shq("explain", "pump_4 SameAs device_231", "--json", data=data, program=printing(text))
        value = json.loads(said)
        check_form(value)
        self.assertEqual((value["sets"], [it["number"] for it in value["axioms"]]), ([[8]], [8]))
        self.assertEqual(len(value["added"]), 1)

    def test_worlds_and_refutations(self):
        model = f"satisfiable\nmodel 2\nclass <{PUMPS}Pump> 0 1\nrole <{PUMPS}hasPart> 0,1\nindividual <x> 1\nend\n"
        value = self.object(["sat", ":Pump"], model)
        self.assertEqual(
            value["model"],
            {
                "size": 2,
                "classes": {f"{PUMPS}Pump": [0, 1]},
                "roles": {f"{PUMPS}hasPart": [[0, 1]]},
                "individuals": {"x": 1},
            },
        )
        self.assertEqual(value["certificate"], model)
        value = self.object(["sat", ":Pump"], "unsatisfiable\nrefutation\naxioms 1 2\nconcept 1 top\nstart\nend\n")
        self.assertEqual((value["verdict"], value["used"]), ("unsatisfiable", [1, 2]))

    def test_hierarchies_and_individuals(self):
        text = f"consistent\nnothing <{PUMPS}Pump>\nthing\nclass <{PUMPS}A> <{PUMPS}B> under owl:Thing\n"
        value = self.object(["classify"], text)
        self.assertEqual((value["verdict"], value["contradictory"]), ("consistent", [f"{PUMPS}Pump"]))
        self.assertEqual(value["groups"], [{"classes": [f"{PUMPS}A", f"{PUMPS}B"], "below": []}])
        self.assertEqual(self.object(["classify"], "inconsistent\n")["verdict"], "inconsistent")
        value = self.object(["realize"], "consistent\nindividual <a> types <C> <D>\nindividual <b> types owl:Thing\n")
        self.assertEqual(
            value["types"], [{"individual": "a", "classes": ["C", "D"]}, {"individual": "b", "classes": []}]
        )
        self.assertEqual(self.object(["instances", ":Pump"], "instances 1\n<a>\n")["individuals"], ["a"])
        reason = "instance <a> justifications 1\n1\naxiom 1 line 3 ClassAssertion(<C> <a>)\n"
        value = self.object(["why", ":Pump"], reason)
        self.assertEqual(value["instances"], [{"individual": "a", "sets": [[1]]}])
        self.assertEqual(self.object(["why", ":Pump"], "")["instances"], [])

    def test_refusals(self):
        cases = {
            ("outside ObjectInverseOf line 4\n", 4): ("outside", "ObjectInverseOf", 4),
            ("bad text shape query\n", 3): ("bad text", "shape", "question"),
            ("limit text\n", 5): ("limit", "text", "text"),
        }
        for (text, status), (why, what, where) in cases.items():
            value = self.object(["classify"], text, status)
            self.assertEqual(value["verdict"], "refused")
            self.assertEqual(value["refused"], {"why": why, "what": what, "where": where})
        for text, what, number in (("rejected line 7\n", "line", 7), ("rejected query\n", "query", None)):
            value = self.object(["check", "SubClassOf(:Pump :Seal)"], text, 1)
            self.assertEqual((value["verdict"], value["rejected"]), ("rejected", {"what": what, "number": number}))
        self.assertEqual(
            self.object(["check", "SubClassOf(:Pump :Seal)"], "accepted entailed\n")["verdict"], "accepted entailed"
        )

    def test_what_is_not_asked(self):
        value = self.object(["sat", "--strict", ":MagneticPum"], "", 0, ended=10)
        self.assertEqual((value["verdict"], value["status"]["name"]), ("not asked", "unknown name"))
        self.assertTrue(value["complete"])
        self.assertIn(":MagneticPump", value["message"])
        said, _, status = shq("classify", "--json", "/not/there", program=TOLD)
        value = json.loads(said)
        check_form(value)
        self.assertEqual((value["verdict"], value["status"]["number"], status), ("read fault", 6, 6))

    def test_bad_words(self):
        """They are told as an object too, with what is wrong with them."""
        cases = {
            "--json": ("", "usage: ./shq check|"),
            "clasify --json": ("clasify", "there is no command clasify; is it classify that is meant?"),
            "classify --json --seconds x": ("classify", "--seconds needs a number above 0, and not x"),
            "classify --sconds 5 --json": ("classify", "classify has no option --sconds"),
            "classify --json --fail-on x": ("classify", "--fail-on can be contradictory, and not x"),
            "sat --json": ("sat", "usage: ./shq sat CLASS"),
            "sat --json :A a b c": ("sat", "usage: ./shq sat CLASS"),
            "workload --json": ("workload", "usage: ./shq workload N"),
            "sat :A --seconds 5 --budget 5 --json": ("sat", "do not go together"),
        }
        for words, (job, message) in cases.items():
            with self.subTest(words=words):
                said, complaint, status = shq(*words.split(), program=printing("bad words\n", 2))
                value = json.loads(said)
                check_form(value)
                self.assertEqual((value["job"], value["verdict"], value["complete"]), (job, "bad words", True))
                self.assertEqual((status, value["status"]), (2, {"number": 2, "name": "bad words"}))
                self.assertIn(message, value.get("message") or complaint)

    def test_translations(self):
        """The object says what was lost."""
        data = b"""Prefix(:=<http://e.org/>)
Ontology(
SubClassOf(:A ObjectHasValue(:r :a))
InverseObjectProperties(:r :s)
)
"""
        said, _, _ = shq("classify", "--json", data=data, program=printing("consistent\nnothing\nthing\n"))
        self.assertIsNone(json.loads(said)["translation"])
        said, _, status = shq("classify", "--json", "--approximate", data=data, program=printing(HIERARCHY))
        value = json.loads(said)
        check_form(value)
        self.assertEqual((value["translation"]["exact"], status), (False, 0))
        self.assertIn("inverse roles", " ".join(value["translation"]["notes"]))

    def test_new_names_of_a_translation(self):
        """They stand in no list, and in axioms as what they mean; in a certificate they stay, and names tell them."""
        hierarchy = self.object(["classify"], HIERARCHY)
        self.assertEqual((hierarchy["contradictory"], hierarchy["everything"]), ([], []))
        self.assertEqual(hierarchy["groups"], [
            {"classes": ["B"], "below": []},
            {"classes": ["A"], "below": ["B"]},
            {"classes": ["C"], "below": ["A"]},
        ])
        reason = f"justifications 1\n1\naxiom 1 line 4 SubClassOf({NEW} ObjectSomeValuesFrom({BACK} <A>))\n"
        text = "SubClassOf(ObjectOneOf(<http://e.org/a>) ObjectSomeValuesFrom(ObjectInverseOf(<http://e.org/r>) <A>))"
        self.assertEqual(self.object(["explain", "SubClassOf(:A :B)"], reason)["axioms"][0]["text"], text)
        world = f"satisfiable\nmodel 1\nclass {NEW} 0\nclass <A> 0\nrole {BACK} 0,0\nindividual {UNNAMED} 0\nend\n"
        value = self.object(["sat", ":A"], world)
        self.assertEqual(value["model"], {"size": 1, "classes": {"A": [0]}, "roles": {}, "individuals": {}})
        self.assertEqual((value["certificate"], sorted(value["names"].values())), (world, ["_:x", "inverse (r)", "{a}"]))
        self.assertEqual(self.object(["instances", ":A"], f"instances 2\n{UNNAMED}\n<b>\n")["individuals"], ["b"])

    def test_pages(self):
        """--html makes the page that `read` makes."""
        text = f"consistent\nnothing <{PUMPS}MagneticPump>\nthing\nclass <{PUMPS}Pump> under owl:Thing\n"
        said, complaint, status = shq("classify", "--html", data=CONTRADICTION.read_bytes(), program=printing(text))
        self.assertEqual((complaint, status), ("", 0))
        self.assertTrue(said.startswith("<!DOCTYPE html>"))
        self.assertIn("MagneticPump", said)
        said, _, status = shq(
            "explain",
            "SubClassOf(:Pump :Seal)",
            "--html",
            data=CONTRADICTION.read_bytes(),
            program=printing("partial justifications 0\nundecided\n", 8),
        )
        self.assertEqual((said[:15], status), ("<!DOCTYPE html>", 8))

    def test_statuses_through_pipes(self):
        """`read --pipe-status` ends as the run ended whose answer it reads."""
        cases = {
            "undecided\n": 8,
            "partial justifications 0\nundecided\n": 8,
            "consistent\nnothing\nthing\n": 0,
            "outside Import line 3\n": 4,
            "bad text shape query\n": 3,
            "limit text\n": 5,
            "read fault\n": 6,
            "no memory\n": 9,
            "bad words\n": 2,
            "rejected line 3\n": 1,
        }
        for text, status in cases.items():
            with self.subTest(text=text):
                self.assertEqual(shq("read", "--pipe-status", data=text.encode())[2], status)
                self.assertEqual(shq("read", data=text.encode())[2], 0)

    def test_failing_on_contradictory_classes(self):
        fine = "consistent\nnothing\nthing\n"
        cases = (
            ("consistent\nnothing <A>\nthing\n", 1, "1 class is contradictory"),
            ("consistent\nnothing <A> <B>\nthing\n", 1, "2 classes are contradictory"),
            ("inconsistent\n", 1, "the ontology is inconsistent"),
            (fine, 0, ""),
        )
        for text, status, complaint in cases:
            said, told, got = shq("classify", "--fail-on", "contradictory", program=printing(text))
            self.assertEqual((said, got), (text, status))
            self.assertIn(complaint, told)
        self.assertEqual(shq("classify", "--fail-on", "other", program=printing(fine))[2], 2)
        undecided = printing("undecided\n", 8)
        self.assertEqual(shq("classify", "--fail-on", "contradictory", "budget", "1", program=undecided)[2], 8)


@needs_program
class WithProgram(unittest.TestCase):
    def test_objects_of_each_job(self):
        hearts = (EXAMPLES / "anatomy" / "hearts-are-organs.txt").read_text(encoding="utf-8").strip()
        cases = (
            (["explain", hearts, ANATOMY], "justifications", lambda it: it["sets"] == [[1, 2], [3, 6]]),
            (["repair", hearts, ANATOMY], "repairs", lambda it: len(it["sets"]) == 4),
            (["evidence", hearts, ANATOMY], "audit", lambda it: (it["justifications"], it["repairs"]) == (2, 4)),
            (["sat", "MagneticPump", CONTRADICTION], "unsatisfiable", lambda it: it["used"] == [1, 2, 3, 4, 5]),
            (["classify", CONTRADICTION], "consistent", lambda it: it["contradictory"] == [PUMPS + "MagneticPump"]),
            (["workload", "1"], "counted", lambda it: it["counts"]["justifications"] == 8),
            (
                ["session", EXAMPLES / "ward" / "ontology.ofn", EXAMPLES / "ward" / "script.txt"],
                "answered",
                lambda it: it["lines"][1] == {"line": 2, "text": "remove 9", "answer": "removed 9"},
            ),
        )
        for words, verdict, holds in cases:
            with self.subTest(words=words):
                command = [sys.executable, TOOLS / "ask", *words, "--json"]
                ran = subprocess.run(command, capture_output=True, check=True)
                value = json.loads(ran.stdout)
                check_form(value)
                self.assertEqual(value["verdict"], verdict)
                self.assertTrue(holds(value), value)
