"""The command `./shq report`: over a program that only seems to be one, and over the program."""
import io
import os
import subprocess
import sys
import tempfile
import time
import unittest
import unittest.mock
from contextlib import redirect_stderr, redirect_stdout
from pathlib import Path

from shq_tools import program
from shq_tools.output import guarded
from shq_tools.places import EXAMPLES, TOOLS
from shq_tools.report import given_of, whole_first
from shq_tools.report_command import main
from shq_tools.told import Link
from tests.fakes import HEAD, command_of
from tests.program import needs_program
from tests.test_answers import E, page_text

# :A is contradictory by itself, :B is an A, :C leads to a B, and :D and :E are each other's.
CHAIN = """Prefix(:=<http://e.org/>)
Prefix(rdfs:=<http://www.w3.org/2000/01/rdf-schema#>)
Ontology(
AnnotationAssertion(rdfs:label :C "sea & <b>"@en)
SubClassOf(:A :F)
SubClassOf(:A ObjectComplementOf(:F))
SubClassOf(:B :A)
SubClassOf(:C ObjectSomeValuesFrom(:r :B))
ObjectPropertyAssertion(:r :i1 :i2)
ObjectPropertyAssertion(:r :i1 :i10)
)
"""
# Answers with what stands in files of the folder ANSWERS, by the job, or by the job and the class; else it sleeps.
ANSWERING = HEAD + r"""cat >/dev/null
name=$1
case "$1" in explain|repair) name=$1-$(printf '%s' "$2" | sed 's/.*\/\([A-Za-z]*\)> owl:Nothing.*/\1/');; esac
echo "begin $name" >> "$ANSWERS/log"
[ -e "$ANSWERS/slow" ] && sleep "$(cat "$ANSWERS/slow")"
echo "end $name" >> "$ANSWERS/log"
[ -e "$ANSWERS/$name" ] || exec sleep 60
cat "$ANSWERS/$name"
[ "$(tail -n 1 "$ANSWERS/$name")" = undecided ] && exit 8
exit 0
"""


def a(number, line, text):
    return f"axiom {number} line {line} {text}\n"


A_F, A_NOT_F = a(1, 5, f"SubClassOf(<{E}A> <{E}F>)"), a(2, 6, f"SubClassOf(<{E}A> ObjectComplementOf(<{E}F>))")
B_A, C_B = a(3, 7, f"SubClassOf(<{E}B> <{E}A>)"), a(4, 8, f"SubClassOf(<{E}C> ObjectSomeValuesFrom(<{E}r> <{E}B>))")
CHAIN_ANSWERS = {
    "classify": f"consistent\nnothing <{E}C> <{E}B> <{E}A>\nthing\nclass <{E}F> under owl:Thing\n",
    "realize": f"consistent\nindividual <{E}i1> types <{E}F>\nindividual <{E}i10> types owl:Thing\n"
    f"individual <{E}i2> types owl:Thing\n",
    "explain-A": f"justifications 1\n1 2\n{A_F}{A_NOT_F}",
    "repair-A": f"repairs 2\n1\n2\n{A_F}{A_NOT_F}",
    "explain-B": f"justifications 1\n1 2 3\n{A_F}{A_NOT_F}{B_A}",
    "repair-B": f"repairs 3\n1\n2\n3\n{A_F}{A_NOT_F}{B_A}",
    "explain-C": f"justifications 1\n1 2 3 4\n{A_F}{A_NOT_F}{B_A}{C_B}",
    "repair-C": f"repairs 4\n1\n2\n3\n4\n{A_F}{A_NOT_F}{B_A}{C_B}",
}


def called(words, data, path):
    """What the command prints, says and ends with, over a program at a path."""
    output, complaint = io.TextIOWrapper(io.BytesIO()), io.StringIO()
    given = unittest.mock.Mock(buffer=io.BytesIO(data))
    with unittest.mock.patch.object(program, "PROGRAM", path), unittest.mock.patch.object(sys, "stdin", given):
        with redirect_stdout(output), redirect_stderr(complaint):
            try:
                status = guarded(main, list(words))
            except SystemExit as ended:
                status = ended.code
    output.flush()
    return output.buffer.getvalue().decode("utf-8"), complaint.getvalue(), status


def report(*words, data=CHAIN, answers=None, slow=None):
    """What the report prints, says and ends with, over a program with these answers; and what the program was asked."""
    with tempfile.TemporaryDirectory() as room, unittest.mock.patch.dict(os.environ, ANSWERS=room):
        for name, text in (CHAIN_ANSWERS if answers is None else answers).items():
            (Path(room) / name).write_text(text, encoding="utf-8")
        if slow:
            (Path(room) / "slow").write_text(str(slow), encoding="utf-8")
        path = Path(room) / "program"
        path.write_text(ANSWERING, encoding="utf-8")
        path.chmod(0o755)
        said = called(words, data.encode(), path)
        log = Path(room) / "log"
        return (*said, log.read_text(encoding="utf-8").splitlines() if log.exists() else [])


class Pages(unittest.TestCase):
    def test_what_is_contradictory_by_itself_comes_first(self):
        page, complaint, status, _ = report()
        self.assertEqual(status, 0)
        self.assertIn("3 of 4 classes are contradictory", complaint)
        text = page_text(page)
        places = [text.index(it) for it in ("Where contradictions begin", "What comes from these")]
        self.assertLess(places[0], text.index("1 reason, 2 ways"))
        self.assertLess(text.index("1 reason, 2 ways"), places[1])
        self.assertLess(places[1], text.index("1 reason, 3 ways"))
        self.assertLess(text.index("1 reason, 3 ways"), text.index("1 reason, 4 ways"))
        self.assertIn("Comes from A.", text)
        self.assertIn("Comes from B.", text)

    def test_what_there_is(self):
        page = report()[0]
        text = page_text(page)
        self.assertIn("6 axioms · 4 classes · 1 role · 3 individuals · made 20", text)
        self.assertIn("sea & <b>", text)
        self.assertNotIn("<b>", page)
        for place in ('<a href="#c', f'title="{E}C"', '<span id="i1"'):
            self.assertIn(place, page)
        self.assertLess(text.index("i2in no named class"), text.index("i10in no named class"))

    def test_a_page_needs_nothing_else(self):
        page = report()[0]
        for word in ("src=", "<link", "@import", "url(", "http-equiv", "fetch("):
            self.assertNotIn(word, page)

    def test_the_time_is_that_of_the_environment(self):
        with unittest.mock.patch.dict(os.environ, SOURCE_DATE_EPOCH="86400"):
            self.assertIn("made 1970-01-02 00:00 UTC", report()[0])

    def test_nothing_contradictory(self):
        answers = {**CHAIN_ANSWERS, "classify": f"consistent\nnothing\nthing\nclass <{E}A> under owl:Thing\n"}
        page, complaint, status, _ = report("--fail-on", "contradictory", answers=answers)
        self.assertEqual(status, 0)
        self.assertIn("No class is contradictory", page)

    def test_an_ontology_that_is_contradictory_as_a_whole(self):
        told = f"justifications 1\n1 2\n{A_F}{A_NOT_F}"
        whole = "SubClassOf(owl:Thing owl:Nothing)"
        answers = {"classify": "inconsistent\n", "realize": "inconsistent\n", f"explain-{whole}": told}
        answers[f"repair-{whole}"] = told.replace("justifications 1\n1 2", "repairs 2\n1\n2")
        page, complaint, status, _ = report("--fail-on", "contradictory", answers=answers)
        self.assertEqual(status, 1)
        self.assertIn("contradictory as a whole", complaint)
        self.assertIn("Without any one of these axioms", page)
        self.assertNotIn("Individuals", page)

    def test_what_is_left_out_is_said(self):
        data = CHAIN.replace("SubClassOf(:A :F)", "SubClassOf(:A :F)\nSymmetricObjectProperty(:r) InverseObjectProperties(:r :s)")
        page = page_text(report(data=data)[0])
        self.assertIn("2 axioms of 8 are outside of the language and were left out.", page)
        self.assertIn("What does not follow from the rest may still follow", page)
        self.assertIn("InverseObjectProperties", page)
        self.assertIn("line 6", page)


class CutShort(unittest.TestCase):
    def test_what_was_not_found_in_time_is_said(self):
        answers = {it: text for it, text in CHAIN_ANSWERS.items() if not it.endswith("-C")}
        answers["explain-B"] = f"partial justifications 1\n1 2 3\n{A_F}{A_NOT_F}{B_A}undecided\n"
        page, _, status, _ = report("--seconds", "2", "-j", "8", answers=answers)
        text = page_text(page)
        self.assertEqual(status, 0)
        self.assertIn("were not found within 2 seconds", text)
        self.assertIn("There was no time to ask for its reasons.", text)
        self.assertIn("1 reason so far", text)
        self.assertIn("There may be more, but the time was over.", text)

    def test_long_lists(self):
        many = "".join(f"{at}\n" for at in range(1, 41))
        axioms = "".join(a(at, at + 4, f"SubClassOf(<{E}A> <{E}X{at}>)") for at in range(1, 41))
        answers = {**CHAIN_ANSWERS, "repair-A": f"repairs 40\n{many}{axioms}"}
        text = page_text(report(answers=answers)[0])
        self.assertIn(f"15 more are not shown: ./shq repair 'SubClassOf(<{E}A> owl:Nothing)' FILE", text)

    def test_no_hierarchy_in_time(self):
        page, complaint, status, _ = report("--seconds", "1", answers={})
        self.assertEqual(status, 8)
        self.assertIn("Not decided within 1 second.", page)
        self.assertIn("Not decided within 1 second", complaint)

    def test_what_is_known_when_it_is_ended_from_outside(self):
        """The page is written with that, and no run of the program stays."""
        answers = {it: text for it, text in CHAIN_ANSWERS.items() if not it.endswith("-C")}
        with tempfile.TemporaryDirectory() as room:
            for name, text in answers.items():
                (Path(room) / name).write_text(text, encoding="utf-8")
            ontology, log = Path(room) / "o.ofn", Path(room) / "log"
            ontology.write_text(CHAIN, encoding="utf-8")
            with command_of(ANSWERING, ["report", "-j", "1", ontology]) as command:
                how = {"stdout": subprocess.PIPE, "stderr": subprocess.PIPE, "cwd": TOOLS}
                with subprocess.Popen(command, env={**os.environ, "ANSWERS": room}, **how) as started:
                    # one question comes after the other, and this one has no answer
                    while not log.exists() or "end explain-C" not in log.read_text().splitlines():
                        time.sleep(0.05)
                    # no pipe is closed before all that hold it have ended
                    begun = time.monotonic()
                    started.terminate()
                    page, _ = started.communicate()
        self.assertEqual(started.returncode, -15)
        self.assertLess(time.monotonic() - begun, 30)
        text = page_text(page.decode())
        self.assertTrue(page.endswith(b"</html>\n"))
        self.assertIn("A SubClassOf F", text)
        self.assertIn("There was no time to ask for its reasons.", text)

    def test_jobs_run_side_by_side(self):
        for at_once in (1, 3):
            with self.subTest(at_once=at_once):
                log = report("-j", str(at_once), slow=0.4)[3]
                open_now, most = 0, 0
                for line in log:
                    open_now += 1 if line.startswith("begin") else -1
                    most = max(most, open_now)
                self.assertEqual(most, at_once)
                self.assertEqual(len(log), 2 * len(CHAIN_ANSWERS))


class Words(unittest.TestCase):
    def test_statuses(self):
        cases = {
            ("--fail-on", "contradictory"): 1,
            ("--fail-on", "nothing"): 2,
            ("--seconds", "0"): 2,
            ("-j", "0"): 2,
            ("/not/there",): 6,
        }
        for words, status in cases.items():
            with self.subTest(words=words):
                self.assertEqual(report(*words)[2], status)

    def test_what_the_program_would_refuse(self):
        cases = {CHAIN[:-3]: 3, CHAIN.replace(":B :A", "x:B :A"): 3, "": 3}
        cases[CHAIN.replace("SubClassOf(:B :A)", "SubClassOf(:A ObjectMinCardinality(101 :r :B))")] = 5
        for data, status in cases.items():
            with self.subTest(status=status):
                said, complaint, ended, _ = report(data=data)
                self.assertEqual((said, ended), ("", status))
                self.assertIn("there is no report, since the ontology is not read", complaint)
        said, complaint, ended, _ = report(answers={"classify": "no memory\n", "realize": "no memory\n"})
        self.assertEqual((said, ended), ("", 9))

    def test_a_page_goes_into_a_file(self):
        with tempfile.TemporaryDirectory() as room:
            path = Path(room) / "page.html"
            said, _, status, _ = report("-o", str(path))
            self.assertEqual((said, status), ("", 0))
            self.assertTrue(path.read_text(encoding="utf-8").startswith("<!DOCTYPE html>"))
            self.assertEqual(report("-o", str(Path(room) / "no" / "page.html"))[2], 7)

    def test_languages(self):
        self.assertIn("sea &amp;", report("--language", "en")[0])
        page, complaint, status, _ = report("--language", "de")
        self.assertNotIn("sea &amp;", page)
        self.assertIn("no label is in the language de; there are labels in en", complaint)


class Markdown(unittest.TestCase):
    def test_a_pull_request(self):
        text, _, status, _ = report("--markdown")
        self.assertEqual(status, 0)
        self.assertIn("## 3 of 4 classes are contradictory", text)
        self.assertIn("| classes | 4 |", text)
        self.assertIn("<details><summary><b>A</b>: 1 reason, 2 ways to stop it</summary>", text)
        self.assertIn("  1. axiom 1, line 5: A SubClassOf F\n", text)
        self.assertIn("<b>sea &amp; &lt;b></b>", text)
        self.assertEqual(text.count("<details>"), text.count("</details>"))

    def test_it_fits_into_a_comment(self):
        classes = [f"{E}A{at:04d}" for at in range(2000)]
        answers = {**CHAIN_ANSWERS, "classify": f"consistent\nnothing {' '.join(f'<{it}>' for it in classes)}\nthing\n"}
        text = report("--markdown", "--seconds", "1", "-j", "2", answers=answers)[0]
        self.assertLess(len(text), 65_536)
        self.assertRegex(text, r"\d+ contradictory classes more are left out here")


class FirstOnes(unittest.TestCase):
    def links(self, text):
        found = {it: [] for it in "ABCDE"}
        for one, other in text.split():
            found[one].append(Link(None, other))
        return found

    def test_who_comes_first(self):
        cases = {"": "ABCDE", "BA CB": "ADE", "AB BA": "ABCDE", "AB BA BC": "CDE", "BA CB DE ED": "ADE", "AB BC CA CD": "DE"}
        for text, first in cases.items():
            with self.subTest(text=text):
                self.assertEqual("".join(whole_first(self.links(text))[0]), first)


class Large(unittest.TestCase):
    def test_three_thousand_classes(self):
        classes = [f"<{E}C{at}>" for at in range(3000)]
        axioms = [f"SubClassOf({one} {classes[at // 4]})" for at, one in enumerate(classes[1:])]
        tree = [f"class {one} under {classes[at // 4]}" for at, one in enumerate(classes[1:])]
        answer = "\n".join(["consistent", "nothing", "thing", f"class {classes[0]} under owl:Thing", *tree, ""])
        page = report(data="Ontology(\n" + "\n".join(axioms) + "\n)\n", answers={"classify": answer})[0]
        self.assertLess(len(page), 1_000_000)
        self.assertEqual(page.count('<span id="c'), 3000)


@needs_program
class WithProgram(unittest.TestCase):
    def test_examples(self):
        cases = {
            "contradiction/ontology.ofn": "1 of 6 classes is contradictory.",
            "ward/ontology.ofn": "contradictory as a whole",
            "anatomy/ontology.ofn": "none of its 7 classes is contradictory",
        }
        for name, part in cases.items():
            command = [sys.executable, TOOLS / "ask", "report", EXAMPLES / name]
            ran = subprocess.run(command, capture_output=True, check=True)
            self.assertIn(part, page_text(ran.stdout.decode()))

    def test_the_ontology_is_read_as_the_program_reads_it(self):
        data = (EXAMPLES / "hospital" / "devices.ofn").read_bytes()
        given = given_of(data)
        self.assertEqual((given.axiom_count, len(given.ontology.axioms)), (317, 312))
        self.assertTrue(given.caveat.lines[0].startswith("5 axioms of 317 are outside"))
