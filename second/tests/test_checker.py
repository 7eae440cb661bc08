"""What the second checker promises by itself: its size, its time, its statuses, and that it shares nothing."""
import ast
import os
import subprocess
import sys
import time
import unittest

from tests.cases import TOP
from tests.program import SECOND, by_checker

MOST_LINES = 900
FILES = [SECOND / "check", SECOND / "audit", *sorted((SECOND / "checker").glob("*.py"))]
CHAIN = b"""Prefix(:=<http://e.org/>)
Ontology(
SubClassOf(:A ObjectSomeValuesFrom(:R :A))
SubClassOf(:A :B)
)
"""


def imported(text):
    """The packages from which a module takes something."""
    for node in ast.walk(ast.parse(text)):
        names = [it.name for it in node.names] if isinstance(node, ast.Import) else []
        names += [node.module] if isinstance(node, ast.ImportFrom) else []
        yield from (it.split(".")[0] for it in names)


def long_refutation(count):
    """A refutation of so many rule lines, with a branch that is open at its end."""
    front = ["entailed", "refutation", "axioms 1 2", "concept 1 name <http://e.org/A>"]
    front += ["concept 2 some <http://e.org/R> 1", "start"]
    steps = [it for k in range(count // 4) for it in (f"row {k} 1 1 1", f"some {k} {k + 1} 2", f"row {k} 2 1 1")]
    joins = [f"pair {k} {k + 1}" for k in range(count // 4)]
    lines = front + steps + joins
    return "".join(it + "\n" for it in [*lines, "end"]).encode("utf-8"), len(lines) + 1


class Text(unittest.TestCase):
    def test_it_is_small(self):
        """It has at most 900 lines in all, blank ones and comments too, none of them longer than 120 characters."""
        lines = [it for file in FILES for it in file.read_text("utf-8").splitlines()]
        self.assertGreater(len(FILES), 8)
        self.assertLessEqual(len(lines), MOST_LINES)
        self.assertLessEqual(max(map(len, lines)), 120)

    @unittest.skipUnless(hasattr(sys, "stdlib_module_names"), "this Python does not tell its modules")
    def test_it_stands_on_the_standard_library_alone(self):
        for file in FILES:
            for name in imported(file.read_text("utf-8")):
                self.assertTrue(name == "checker" or name in sys.stdlib_module_names, (file, name))

    def test_each_rule_says_its_premise(self):
        from checker import certificates, refutations

        for name in certificates.RULES:
            rule = getattr(refutations.Refutation, f"rule_{name}")
            self.assertGreater(len(rule.__doc__), 20, name)


class Time(unittest.TestCase):
    def test_lines_of_a_refutation(self):
        """100,000 rule lines take at most ten seconds of a processor, and half of them at least a third of that."""
        spent = {}
        for count in (50_000, 100_000):
            behind, end = long_refutation(count)
            begun = time.process_time()
            found = by_checker("check", CHAIN, behind, "SubClassOf(:A :C)")
            spent[count] = time.process_time() - begun
            self.assertEqual(found, (f"rejected line {end}\n".encode(), 1))
        self.assertLess(spent[100_000], 10)
        self.assertLess(spent[100_000], 3 * spent[50_000])

    def test_branches_of_a_refutation(self):
        """50,000 branches, each begun by one line and closed by another, take at most ten seconds of a processor."""
        lines = ["entailed", "refutation", "axioms 2"]
        lines += ["concept 1 name <http://e.org/A>", "concept 2 name <http://e.org/B>", "start"]
        lines += [*["choose 0 1"] * 50_000, "row 0 2 1 1", "clash 0 2", *["clash 0 1"] * 50_000, "end"]
        behind = "".join(it + "\n" for it in lines).encode("utf-8")
        begun = time.process_time()
        self.assertEqual(by_checker("check", CHAIN, behind, "SubClassOf(:A :B)"), (b"accepted entailed\n", 0))
        self.assertLess(time.process_time() - begun, 10)

    def test_elements_without_a_line_cost_nothing(self):
        behind = b"not entailed\nmodel 4294967295\nclass <http://e.org/A> 7\nclass <http://e.org/B> 7\n"
        behind += b"role <http://e.org/R> 7,7\nend\n"
        self.assertEqual(by_checker("check", CHAIN, behind, "SubClassOf(:A :C)"), (b"accepted not entailed\n", 0))

    def test_concepts_that_stand_deep_in_each_other(self):
        lines = ["entailed", "refutation", "axioms", "concept 1 name <http://e.org/A>"]
        lines += [f"concept {k} some <http://e.org/R> {k - 1}" for k in range(2, 20_000)]
        lines += ["start", "choose 0 19999", "end"]
        behind = "".join(it + "\n" for it in lines).encode()
        self.assertEqual(by_checker("check", CHAIN, behind, "SubClassOf(:A :C)")[0], b"rejected line 20005\n")


class Commands(unittest.TestCase):
    def run_check(self, *words, stdout=subprocess.PIPE):
        command = [sys.executable, "-B", SECOND / "check", *words]
        return subprocess.run(command, stdout=stdout, stderr=subprocess.PIPE, check=False)

    def words(self):
        folder = TOP / "examples" / "anatomy"
        return folder / "ontology.ofn", folder / "accepted.txt", (folder / "query.txt").read_text("utf-8").strip()

    def test_wrong_words(self):
        for words in ((), self.words()[:2], (*self.words(), "more"), (*self.words()[:2], b"\xff")):
            ran = self.run_check(*words)
            self.assertEqual((ran.stdout, ran.returncode), (b"bad words\n", 2))
            self.assertIn(b"usage: second/check", ran.stderr)

    def test_files_that_cannot_be_read(self):
        ran = self.run_check("/not/there", *self.words()[1:])
        self.assertEqual((ran.stdout, ran.returncode), (b"read fault\n", 6))
        self.assertIn(b"/not/there: No such file", ran.stderr)

    @unittest.skipUnless(os.path.exists("/dev/full"), "there is no /dev/full")
    def test_a_full_disk(self):
        with open("/dev/full", "wb") as full:
            ran = self.run_check(*self.words(), stdout=full)
        self.assertEqual((ran.returncode, ran.stderr), (7, b""))

    def test_too_long_an_input(self):
        self.assertEqual(by_checker("check", CHAIN, b" " * 16_777_216, "SubClassOf(:A :C)"), (b"limit text\n", 5))
