"""`./shq verify`: checks of what follows from an ontology and what does not."""
import json
import sys
import tempfile
import unittest
from pathlib import Path
from xml.etree import ElementTree

from shq_tools.answers import Model
from shq_tools.checks import check_in, lines_in
from shq_tools.names import Names
from shq_tools.places import EXAMPLES, TOOLS
from shq_tools.shown_reasons import reason_lines, world_lines
from shq_tools.terms import Axiom
from tests.fakes import run, shq
from tests.program import needs_program
from tests.test_json import check_form

FILE = """Prefix(:=<http://e.org/>)
Ontology(
SubClassOf(:Cat :Pet)
SubClassOf(:Pet :Thing_)
SubClassOf(:Hard :Pet)
ClassAssertion(:Cat :tom)
AnnotationAssertion(rdfs:label :Cat "house cat")
)
"""
# Knows that a cat is a pet, and that nothing is Hard to decide; notes its words in the file RUNS.
KNOWING = f"""#!{sys.executable}
import os, sys
job, question = sys.argv[1:3]
with open(os.environ["RUNS"], "a") as runs:
    runs.write(" ".join(sys.argv[1:]) + "\\n")
if ":Hard" in question or job == "explain" and os.environ.get("HARD_TO_EXPLAIN"):
    print("undecided")
    sys.exit(8)
known = ("SubClassOf(:Cat :Pet)", "ClassAssertion(:Pet :tom)", "SubClassOf(:Thing_ owl:Nothing)")
follows = os.environ.get("INCONSISTENT") or question in known
if job == "explain":
    print("justifications 2\\n1 2\\n1")
    print("axiom 1 line 3 SubClassOf(<http://e.org/Cat> <http://e.org/Pet>)")
    print("axiom 2 line 4 SubClassOf(<http://e.org/Pet> <http://e.org/Thing_>)")
elif job == "sat":
    print("unsatisfiable\\nrefutation\\naxioms 1\\nstart\\nend" if question == ":Thing_" else
          "satisfiable\\nmodel 1\\nclass <http://e.org/Cat> 0\\nend")
elif follows:
    print("entailed\\nrefutation\\naxioms 1\\nconcept 1 top\\nstart\\nend")
else:
    print("not entailed\\nmodel 1\\nclass <http://e.org/Cat> 0\\nindividual <http://e.org/tom> 0\\nend")
"""


class Lines(unittest.TestCase):
    def test_checks(self):
        cases = {
            "SubClassOf(:A :B) must follow": ("SubClassOf(:A :B)", "entailed", "not entailed"),
            "A SubClassOf B must not follow": ("A SubClassOf B", "not entailed", "entailed"),
            "'a must follow' SubClassOf B  must  follow": ("'a must follow' SubClassOf B", "entailed", "not entailed"),
            "A and B must be satisfiable": ("A and B", "satisfiable", "unsatisfiable"),
            "A must not be satisfiable": ("A", "unsatisfiable", "satisfiable"),
        }
        for line, wanted in cases.items():
            found = check_in(1, line)
            self.assertEqual((found.text, found.wanted, found.opposite), wanted)
        for line in ("A SubClassOf B", "must follow", "A must", "A must be", "A must follow B"):
            self.assertIsNone(check_in(1, line))

    def test_lines_that_are_passed_over(self):
        self.assertEqual(lines_in("# a\n\n  A must follow \n#b"), [(3, "A must follow")])

    def test_a_reason_has_an_axiom_of_the_file_once(self):
        axioms = [
            Axiom("FunctionalObjectProperty", (f"http://e.org/{it}",), line, number)
            for it, line, number in (("r", 3, 1), ("s", 3, 2), ("t", 4, 3))
        ]
        lines = reason_lines(axioms, Names(), {3: "r InverseOf s"})
        self.assertEqual(lines, ["line 3: r InverseOf s", "axiom 3, line 4: Functional: t"])

    def test_a_great_world_is_told_in_part(self):
        lines = world_lines(Model("", 20, {}, {}), Names())
        self.assertEqual((len(lines), lines[-1]), (13, "and 8 more"))


class Verify(unittest.TestCase):
    def verify(self, checks, *words, text=FILE, **environment):
        """What ./shq prints, says and ends with; the report where one is wanted, and the words of the runs."""
        with tempfile.TemporaryDirectory() as room:
            ontology, lines, runs, report = (Path(room) / it for it in ("o.ofn", "c.txt", "runs", "r.xml"))
            ontology.write_text(text, encoding="utf-8")
            lines.write_text(checks, encoding="utf-8")
            runs.touch()
            words = [str(report) if it == "REPORT" else it for it in words]
            said = shq("verify", ontology, lines, *words, program=KNOWING, RUNS=runs, **environment)
            return said, report.read_text(encoding="utf-8") if report.exists() else "", runs.read_text().splitlines()

    def test_checks_that_hold(self):
        checks = "'house cat' SubClassOf Pet must follow\nPet SubClassOf Cat must not follow\nCat must be satisfiable\n"
        (said, complaint, status), _, runs = self.verify(checks)
        self.assertEqual(said, "".join(f"ok      line {at}: {it}\n" for at, it in enumerate(checks.splitlines(), 1)))
        self.assertEqual((status, complaint), (0, "shq: 3 checks, 0 failed, 0 not known\n"))
        self.assertEqual(
            sorted(runs),
            [
                "entails SubClassOf(:Cat :Pet) budget 1000000",
                "entails SubClassOf(:Pet :Cat) budget 1000000",
                "sat :Cat budget 1000000",
            ],
        )

    def test_checks_that_fail(self):
        checks = "Cat SubClassOf Pet must not follow\ntom Type Thing_ must follow\nThing_ must be satisfiable\n"
        (said, complaint, status), report, _ = self.verify(checks, "--junit", "REPORT")
        self.assertEqual(
            said.splitlines(),
            [
                "FAILED  line 1: Cat SubClassOf Pet must not follow, but it follows",
                "          axiom 1, line 3: 'house cat' SubClassOf Pet",
                "FAILED  line 2: tom Type Thing_ must follow, but it does not follow",
                "          thing 0 (tom): house cat",
                "FAILED  line 3: Thing_ must be satisfiable, but it can have no member",
                "          axiom 1, line 3: 'house cat' SubClassOf Pet",
            ],
        )
        self.assertEqual((status, complaint), (1, "shq: 3 checks, 3 failed, 0 not known\n"))
        suite = ElementTree.fromstring(report).find("testsuite")
        self.assertEqual([suite.get(it) for it in ("name", "tests", "failures", "errors")], ["c.txt", "3", "3", "0"])
        self.assertEqual(suite[0].find("failure").get("message"), "it follows")
        self.assertIn("line 3: 'house cat' SubClassOf Pet", suite[0].find("failure").text)

    def test_checks_that_are_undecided(self):
        (said, _, status), report, _ = self.verify("Hard SubClassOf Cat must follow\n", "--junit", "REPORT")
        self.assertEqual((said, status), ("unknown line 1: Hard SubClassOf Cat must follow, but undecided\n", 8))
        self.assertEqual(ElementTree.fromstring(report).find("testsuite").get("errors"), "1")
        (_, _, status), _, _ = self.verify("Hard SubClassOf Cat must follow\nCat SubClassOf Pet must not follow\n")
        self.assertEqual(status, 1)

    def test_an_inconsistent_ontology(self):
        checks = "Pet SubClassOf Cat must not follow\n"
        (_, complaint, status), _, _ = self.verify(checks, INCONSISTENT="yes")
        self.assertEqual(status, 1)
        self.assertIn("the ontology is inconsistent, so everything follows from it", complaint)

    def test_a_reason_that_is_not_found_in_time(self):
        """The axioms that the certificate names are told."""
        (said, _, _), _, _ = self.verify("Cat SubClassOf Pet must not follow\n", HARD_TO_EXPLAIN="yes")
        self.assertEqual(
            said.splitlines()[1:],
            [
                "          by 1 axioms, of which some may not be needed:",
                "          axiom 1, line 3: 'house cat' SubClassOf Pet",
            ],
        )

    def test_nothing_is_asked_where_a_line_is_at_fault(self):
        cases = {
            "Kat SubClassOf Pet must follow": (10, "the file has no class Kat; nearest to it: :Cat ('house cat')"),
            "SubClassOf(:Kat :Pet) must follow": (10, "the file has no class :Kat; nearest to it: :Cat"),
            "Cat SubClassOf Pet": (3, "this is no check"),
            "Cat SubClassOf must follow": (3, "missing at the end"),
            "DisjointObjectProperties(:r :s :t) must follow": (4, "two at a time"),
        }
        for line, (wanted, complaint) in cases.items():
            with self.subTest(line=line):
                (said, told, status), _, runs = self.verify(f"Cat SubClassOf Pet must follow\n{line}\n")
                self.assertEqual((said, status, runs), ("", wanted, []))
                self.assertIn("c.txt, line 2: ", told)
                self.assertIn(complaint, told)

    def test_any_names(self):
        (said, _, status), _, _ = self.verify("SubClassOf(:Kat :Pet) must not follow\n", "--any-names")
        self.assertEqual((said, status), ("ok      line 1: SubClassOf(:Kat :Pet) must not follow\n", 0))

    def test_bad_words(self):
        for words in (
            [],
            ["a"],
            ["a", "b", "c"],
            ["a", "b", "--other"],
            ["a", "b", "-j", "x"],
            ["a", "b", "--seconds", "-1"],
        ):
            said, complaint, status = shq("verify", *words)
            self.assertEqual((said, status), ("", 2))
            self.assertIn("usage: ./shq verify FILE CHECKS", complaint)

    def test_files_that_cannot_be_read(self):
        said, complaint, status = shq("verify", "/not/there", "/dev/null")
        self.assertEqual((said, status), ("", 6))
        self.assertIn("shq: /not/there: No such file", complaint)
        said, complaint, status = shq("verify", EXAMPLES / "ward" / "ontology.ofn", "/not/there")
        self.assertEqual((said, status), ("", 6))
        self.assertIn("shq: /not/there: No such file", complaint)

    def test_as_an_object(self):
        """--json prints one object for all checks, with the reasons and worlds of those that fail."""
        checks = "Cat SubClassOf Pet must not follow\n\ntom Type Thing_ must follow\nCat must be satisfiable\n"
        (said, complaint, status), _, _ = self.verify(checks, "--json")
        value = json.loads(said)
        check_form(value)
        self.assertEqual((value["job"], value["verdict"], value["complete"], status), ("verify", "checked", True, 1))
        self.assertEqual(value["status"], {"number": 1, "name": "failed"})
        told = [(it["line"], it["asked"], it["outcome"]) for it in value["checks"]]
        wanted = [(1, "SubClassOf(:Cat :Pet)", "fails"), (3, "ClassAssertion(:Thing_ :tom)", "fails")]
        self.assertEqual(told, [*wanted, (4, ":Cat", "holds")])
        first, second, third = value["checks"]
        self.assertEqual([(it["number"], it["line"]) for it in first["axioms"]], [(1, 3)])
        self.assertEqual((first["smallest"], "model" in first), (True, False))
        self.assertEqual(second["model"]["individuals"], {"http://e.org/tom": 0})
        self.assertFalse({"axioms", "model"} & set(third))
        self.assertEqual(value["names"], {"http://e.org/Cat": "house cat"})
        self.assertEqual(complaint, "shq: 3 checks, 2 failed, 0 not known\n")
        (said, _, status), _, _ = self.verify("Hard SubClassOf Cat must follow\n", "--json")
        value = json.loads(said)
        self.assertEqual((value["complete"], value["checks"][0]["outcome"], status), (False, "unknown", 8))

    def test_what_is_not_asked_as_an_object(self):
        cases = (
            ("Kat SubClassOf Pet must follow\n", FILE, 10, "line 1: the file has no class Kat; nearest to it: :Cat"),
            ("Cat must be satisfiable\n", "Ontology(", 3, "bad text balance line 1"),
        )
        for checks, text, wanted, message in cases:
            (said, _, status), _, _ = self.verify(checks, "--json", text=text)
            value = json.loads(said)
            check_form(value)
            self.assertEqual((value["verdict"], value["complete"], status), ("not asked", True, wanted))
            self.assertIn(message, value["message"])
        for words, wanted in ((["a", "--json"], 2), (["/not/there", "/dev/null", "--json"], 6)):
            said, _, status = shq("verify", *words)
            value = json.loads(said)
            check_form(value)
            self.assertEqual((value["status"]["number"], status), (wanted, wanted))

    def test_a_damaged_ontology(self):
        (said, _, status), _, _ = self.verify("Cat must be satisfiable\n", text="Ontology(")
        self.assertEqual((said, status), ("bad text balance line 1\n", 3))

    def test_a_report_that_cannot_be_written(self):
        (_, complaint, status), _, _ = self.verify("Cat must be satisfiable\n", "--junit", "/not/there/r.xml")
        self.assertIn("/not/there/r.xml: No such file", complaint)
        self.assertEqual(status, 7)


@needs_program
class WithProgram(unittest.TestCase):
    def test_the_ward(self):
        with tempfile.TemporaryDirectory() as room:
            ontology, checks = Path(room) / "ward.ofn", Path(room) / "checks.txt"
            lines = (EXAMPLES / "ward" / "ontology.ofn").read_text(encoding="utf-8").splitlines()
            ontology.write_text("\n".join([*lines[:12], "", *lines[13:]]), encoding="utf-8")
            checks.write_text(
                "pump_4 Type InfusionDevice must follow\nmonitor_2 Type MrSafeDevice must follow\n"
                "pump_4 SameAs device_231 must follow\nroom_17 holds pump_4 must not follow\n"
                "SyringePump and MrSafeDevice must be satisfiable\n",
                encoding="utf-8",
            )
            said, _, status = run([sys.executable, TOOLS / "ask", "verify", ontology, checks])
        self.assertEqual(status, 1)
        self.assertEqual([it.split()[0] for it in said.splitlines()], ["ok"] * 4 + ["FAILED"] + ["axiom"] * 3)
