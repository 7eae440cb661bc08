"""What the repository says to those who install, change or judge it: its pages and settings hold what they promise."""
import re
import shutil
import subprocess
import unittest

from shq_tools.building import crate_lines
from shq_tools.document_commands import commands_in
from shq_tools.places import CRATE_LIST, TOP
from tests.program import needs_program

ONE_PAGE = 80  # lines


def page(name):
    return (TOP / name).read_text(encoding="utf-8")


def said(text):
    """A text without its line ends."""
    return " ".join(text.split())


class Names(unittest.TestCase):
    def test_the_readme_says_once_how_package_and_command_are_called(self):
        self.assertEqual(said(page("README.md")).count("the package is `jezundwa`, and its command is `shq`"), 1)

    def test_the_readme_says_who_gives_a_licence(self):
        self.assertEqual(said(page("README.md")).count("A licence is not given yet: that is left to the owner."), 1)

    def test_the_newest_changes_are_those_of_this_version(self):
        newest = re.search(r"(?m)^## (\S+) \((\d{4}-\d\d-\d\d)\)$", page("CHANGELOG.md"))
        self.assertEqual(newest[1], page("VERSION").strip())

    def test_the_readme_and_the_archives_have_one_version(self):
        for name in re.findall(r"jezundwa[-_]([0-9][0-9.]*[0-9])[-_]", page("README.md")):
            self.assertEqual(name, page("VERSION").strip())


class Trust(unittest.TestCase):
    def test_each_kind_of_ground_has_a_row(self):
        rows = re.findall(r"(?m)^\| \*\*(.+?)\*\*", page("docs/TRUST.md"))
        for ground in ("Definitions", "Contracts", "Kit", "Compiler", "Second checker", "`./shq` and `tools/`"):
            self.assertIn(ground, rows)

    def test_each_command_is_told_by_what_its_answer_rests_on(self):
        text = page("docs/TRUST.md")
        for name in "explain repair evidence why classify realize instances approximate verify".split():
            self.assertIn(f"`{name}`", text)

    def test_each_crate_of_the_kit_is_listed_with_its_version(self):
        """Those below the program in crates.txt that are no crates of this repository."""
        crates = crate_lines(CRATE_LIST.read_text(encoding="utf-8"))
        outside = {it for below in crates.values() for it in below} - set(crates) - {"std"}
        self.assertGreater(len(outside), 2)
        for name in outside:
            row = re.search(rf"(?m)^\| `{name}` \| ([^|]+) \|", page("docs/TRUST.md"))
            self.assertIsNotNone(row, name)
            self.assertRegex(row[1], r"\d|the kit's own")

    @unittest.skipUnless(shutil.which("rt"), "the toolchain is not here")
    def test_it_names_this_kit(self):
        ran = subprocess.run(["rt", "version"], capture_output=True, text=True, check=True)
        for word in re.findall(r"rattle-kit-\S+|logic (\S+)", ran.stdout):
            self.assertIn(word, page("docs/TRUST.md"))

    @needs_program
    def test_its_example_is_run(self):
        for commands in commands_in(page("docs/TRUST.md")):
            ran = subprocess.run(["bash", "-ec", commands.text], cwd=TOP, capture_output=True, text=True, check=False)
            (TOP / "certificate.txt").unlink(missing_ok=True)
            self.assertEqual((ran.returncode, ran.stdout), (0, "accepted entailed\n"), ran.stderr)


class Rules(unittest.TestCase):
    def test_each_page_is_one_page(self):
        for name in ("CONTRIBUTING.md", "SECURITY.md", "docs/TRUST.md"):
            self.assertLess(len(page(name).splitlines()), ONE_PAGE, name)

    def test_a_report_needs_the_document_the_words_and_the_answer(self):
        text = said(page("SECURITY.md"))
        for wanted in ("**soundness report**", "the document", "the words of the command", "the answer"):
            self.assertIn(wanted, text)

    @unittest.skipUnless(shutil.which("git") and (TOP / ".git").exists(), "this is no clone")
    def test_sources_are_text_and_highlighted(self):
        for name in ("a.rt", "a.antt"):
            words = ["git", "check-attr", "text", "linguist-language", "--", name]
            ran = subprocess.run(words, cwd=TOP, capture_output=True, text=True, check=True)
            self.assertIn(f"{name}: text: set\n", ran.stdout)
            self.assertRegex(ran.stdout, rf"{name}: linguist-language: [A-Z]")

    def test_the_setting_for_editors_is_that_of_the_sources(self):
        text = page(".editorconfig")
        for line in ("charset = utf-8", "end_of_line = lf", "max_line_length = 120"):
            self.assertIn(line, text.splitlines())
