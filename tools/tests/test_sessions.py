"""`./shq session`: scripts in files of their own, and lines that one run does not decide."""
import sys
import tempfile
import unittest
from pathlib import Path

from shq_tools.places import EXAMPLES, TOOLS
from tests.fakes import run, shq
from tests.program import needs_program

# A program that answers scripts: a question whose class is named by a number costs so many steps, and is answered by
# the numbers of the axioms that are in. It notes each of its runs in the file RUNS.
ANSWERING = f"""#!{sys.executable}
import os, re, sys
budget = int(sys.argv[-1]) if "budget" in sys.argv else 1_000_000
data = sys.stdin.read()
if "DAMAGED" in data:
    print("bad text shape line 1")
    sys.exit(3)
document, _, script = data.partition(")\\n)")
live = list(range(1, 1 + document.count("SubClassOf(")))
count = len(live)
lines = [it for it in script.split("\\n") if it.strip()]
with open(os.environ["RUNS"], "a") as runs:
    runs.write(f"{{budget}}: {{len(lines)}}\\n")
for line in lines:
    word, _, rest = line.partition(" ")
    if word == "add":
        count += 1
        live.append(count)
        print("axiom", count)
    elif word == "remove" and int(rest) in live:
        live.remove(int(rest))
        print("removed", rest)
    elif word == "ask" and "(:c" in line:
        budget -= int(re.search(r":c(\\d+)", line)[1])
        if budget < 0:
            print("undecided", flush=True)
            sys.exit(8)
        print("yes", *live)
    elif word == "ask":
        print("bad text shape query")
    else:
        print("bad line")
"""
NUMBERS = (1, 2, 600_000, 700_000, 5_000_000, 9_999_999_999)
CLASSES = "".join(f"SubClassOf(:c{it} :X)\n" for it in NUMBERS)
DOCUMENT = f"Prefix(:=<http://e.org/>)\nOntology(\n{CLASSES})\n"


class Scripts(unittest.TestCase):
    def session(self, script, *words, document=DOCUMENT):
        """What ./shq answers to a script in a file of its own, and the budgets and lengths of the runs."""
        with tempfile.TemporaryDirectory() as room:
            ontology, lines, runs = Path(room) / "o.ofn", Path(room) / "s.txt", Path(room) / "runs"
            ontology.write_text(document, encoding="utf-8")
            lines.write_text(script, encoding="utf-8")
            runs.touch()
            said, complaint, status = shq("session", *words, ontology, lines, program=ANSWERING, RUNS=runs)
            return said.splitlines(), complaint, status, runs.read_text().splitlines()

    def test_answers_stand_beside_their_lines(self):
        script = "# first\n\nask SubClassOf(:c1 :X)\n  remove 2  \nadd SubClassOf(:A :B)\nask c2 SubClassOf X\n"
        said, complaint, status, runs = self.session(script)
        self.assertEqual(
            said,
            [
                "line 3: ask SubClassOf(:c1 :X) => yes 1 2 3 4 5 6",
                "line 4: remove 2 => removed 2",
                "line 5: add SubClassOf(:A :B) => axiom 7",
                "line 6: ask c2 SubClassOf X => yes 1 3 4 5 6 7",
            ],
        )
        self.assertEqual((complaint, status, runs), ("", 0, ["1000000: 4"]))

    def test_lines_that_are_refused_have_a_status(self):
        for line, answer, wanted in (("foo", "bad line", 1), ("ask (", "bad text shape query", 3)):
            said, _, status, _ = self.session(f"{line}\nask SubClassOf(:c1 :X)\n")
            self.assertEqual(said, [f"line 1: {line} => {answer}", "line 2: ask SubClassOf(:c1 :X) => yes 1 2 3 4 5 6"])
            self.assertEqual(status, wanted)

    def test_a_line_that_shares_its_budget_is_asked_again(self):
        first, second, third = (f"ask SubClassOf(:c{it} :X)\n" for it in (600_000, 700_000, 1))
        script = f"{first}remove 1\n{second}remove 2\n{third}"
        said, _, status, runs = self.session(script)
        self.assertEqual(
            [it.partition(" => ")[2] for it in said],
            ["yes 1 2 3 4 5 6", "removed 1", "yes 2 3 4 5 6", "removed 2", "yes 3 4 5 6"],
        )
        self.assertEqual((status, runs), (0, ["1000000: 5", "1000000: 4"]))

    def test_an_undecided_line_does_not_stop_the_next_ones(self):
        script = "remove 1\nask SubClassOf(:c5000000 :X)\nremove 2\nask SubClassOf(:c1 :X)\nremove 3\n"
        said, complaint, status, runs = self.session(script)
        self.assertEqual(
            [it.partition(" => ")[2] for it in said],
            ["removed 1", "yes 2 3 4 5 6", "removed 2", "yes 3 4 5 6", "removed 3"],
        )
        self.assertEqual((complaint, status), ("", 0))
        self.assertEqual(runs, ["1000000: 5", "1000000: 4", "8000000: 2"])

    def test_a_line_that_stays_undecided(self):
        script = "remove 1\nask SubClassOf(:c9999999999 :X)\nask SubClassOf(:c1 :X)\n"
        said, complaint, status, _ = self.session(script)
        self.assertEqual([it.partition(" => ")[2] for it in said], ["removed 1", "undecided", "yes 2 3 4 5 6"])
        self.assertEqual(status, 8)
        self.assertIn("no more can be allowed", complaint)

    def test_a_budget_is_one_run(self):
        script = "ask SubClassOf(:c2 :X)\nask SubClassOf(:c5000000 :X)\nask SubClassOf(:c1 :X)\n"
        said, complaint, status, runs = self.session(script, "--budget", "5")
        self.assertEqual([it.partition(" => ")[2] for it in said], ["yes 1 2 3 4 5 6", "undecided"])
        self.assertEqual((status, runs), (8, ["5: 3"]))
        self.assertIn("./shq session --budget 50 ", complaint)

    def test_names_that_are_not_there(self):
        _, complaint, status, _ = self.session("ask SubClassOf(:c3 :X)\n")
        self.assertIn("line 1 of the script: the file has no class :c3", complaint)
        self.assertEqual(status, 0)
        said, complaint, status, _ = self.session("ask c3 SubClassOf X\n")
        self.assertEqual((said, status), ([], 10))
        self.assertIn("line 1 of the script: the file has no class c3", complaint)

    def test_a_script_behind_the_ontology_is_one_run_where_that_suffices(self):
        with tempfile.TemporaryDirectory() as room:
            runs = Path(room) / "runs"
            script = "ask SubClassOf(:c600000 :X)\nfoo\n"
            said, complaint, status = shq("session", data=(DOCUMENT + script).encode(), program=ANSWERING, RUNS=runs)
            self.assertEqual((said, complaint, status), ("yes 1 2 3 4 5 6\nbad line\n", "", 0))
            self.assertEqual(runs.read_text(), "1000000: 2\n")
            script = "ask SubClassOf(:c600000 :X)\nask SubClassOf(:c5000000 :X)\nremove 1\n"
            said, complaint, status = shq("session", data=(DOCUMENT + script).encode(), program=ANSWERING, RUNS=runs)
            self.assertEqual((said, complaint, status), ("yes 1 2 3 4 5 6\n" * 2 + "removed 1\n", "", 0))
            said, complaint, status = shq(
                "session", "budget", "1000000", data=(DOCUMENT + script).encode(), program=ANSWERING, RUNS=runs
            )
            self.assertEqual((said, status), ("yes 1 2 3 4 5 6\nundecided\n", 8))

    def test_a_damaged_ontology(self):
        said, _, status, _ = self.session("ask SubClassOf(:c1 :X)\n", document="DAMAGED")
        self.assertEqual((said, status), (["bad text shape line 1"], 3))

    def test_where_a_script_stands(self):
        with tempfile.TemporaryDirectory() as room:
            ontology, both, runs = Path(room) / "o.ofn", Path(room) / "both.ofn", Path(room) / "runs"
            script = "ask SubClassOf(:c1 :X)\n"
            ontology.write_text(DOCUMENT, encoding="utf-8")
            both.write_text(DOCUMENT + script, encoding="utf-8")
            answer = "yes 1 2 3 4 5 6\n"
            beside = f"line 1: {script.strip()} => {answer}"
            cases = (
                ([both], "", answer),
                ([], DOCUMENT + script, answer),
                ([ontology], script, beside),
                ([ontology, "-"], script, beside),
                ([ontology], "", ""),
            )
            for words, data, told in cases:
                with self.subTest(words=words):
                    said, complaint, status = shq("session", *words, data=data.encode(), program=ANSWERING, RUNS=runs)
                    self.assertEqual((said, complaint, status), (told, "", 0))
            said, complaint, status = shq("session", ontology, "/not/there", program=ANSWERING, RUNS=runs)
            self.assertEqual((said, status), ("read fault\n", 6))
            self.assertIn("/not/there: No such file", complaint)


@needs_program
class WithProgram(unittest.TestCase):
    def test_answers_are_those_of_the_program(self):
        folder = EXAMPLES / "ward"
        ontology, script = folder / "ontology.ofn", folder / "script.txt"
        words = [sys.executable, TOOLS / "ask", "session"]
        both = ontology.read_bytes() + script.read_bytes()
        alone, by_seconds = run([*words, "budget", "100000"], both)[0], run(words, both)[0]
        beside = run([*words, ontology, script])[0]
        self.assertEqual(len(alone.splitlines()), 6)
        self.assertEqual(alone, by_seconds)
        self.assertEqual([it.partition(" => ")[2] for it in beside.splitlines()], alone.splitlines())
