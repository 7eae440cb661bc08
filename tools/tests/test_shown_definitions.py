"""Definitions that pages show are those of the specifications."""
import subprocess
import tempfile
import unittest
from pathlib import Path

from shq_tools.places import TOOLS, TOP

COMMAND = TOOLS / "show-definitions"
TRUTH = "crates/shq_meaning/specs/Truth.antt"
SUCCESSORS = """-- how many elements y with (x, y) in the role pass the test
abbrev pub successors : Interpretation → ℕ → (ℕ → Bool) → ℕ → ℕ
successors i r p x = count_below i.size (λ y. i.in_role r x y && p y)
"""


def page_of(mark, copy):
    """A page that shows something, between two lines of its own."""
    return f"Before.\n\n<!-- shown: {mark} -->\n```agda\n{copy}```\n\nBehind.\n"


class ShownDefinitions(unittest.TestCase):
    def run_on(self, text, *options):
        """What the command says of a page with this text, and the text that the page then has."""
        with tempfile.TemporaryDirectory() as folder:
            page = Path(folder) / "page.md"
            page.write_text(text, encoding="utf-8")
            run = subprocess.run([COMMAND, *options, page], capture_output=True, text=True, check=False)
            return run.returncode, run.stderr, page.read_text(encoding="utf-8")

    def test_each_page_is_current(self):
        pages = [page for page in sorted((TOP / "docs").glob("*.md")) if "<!-- shown: " in page.read_text("utf-8")]
        self.assertIn(TOP / "docs" / "THEOREMS.md", pages)
        run = subprocess.run([COMMAND, "--check", *pages], capture_output=True, text=True, check=False)
        self.assertEqual((run.returncode, run.stderr), (0, ""))

    def test_a_definition_is_copied_with_its_comment_and_no_more(self):
        page = page_of(f"{TRUTH}: successors", "")
        self.assertEqual(self.run_on(page), (0, "", page_of(f"{TRUTH}: successors", SUCCESSORS)))

    def test_a_copy_that_differs_in_one_word_is_told_and_left(self):
        page = page_of(f"{TRUTH}: successors", SUCCESSORS.replace("count_below", "all_below"))
        status, message, after = self.run_on(page, "--check")
        self.assertEqual((status, after), (1, page))
        self.assertIn("shows what stands there no more", message)
        self.assertEqual(self.run_on(page)[2], page_of(f"{TRUTH}: successors", SUCCESSORS))

    def test_a_part_of_a_block_of_several_stands_once(self):
        shown = self.run_on(page_of(f"{TRUTH}: hold_all, hold_any, hold_all", ""))[2]
        self.assertEqual([shown.count(f"pub {name} :") for name in ("hold_all", "hold_any", "holds")], [1, 1, 0])

    def test_clauses_are_all_that_stand_between_the_head_and_the_body(self):
        shown = self.run_on(page_of("crates/ontology_jobs/src/jobs.rt: clauses of run", ""))[2]
        names = [line.split()[1] for line in shown.split("\n") if line.startswith("ensures ")]
        self.assertEqual(names, ["answer", "leaves", "undecided", "unspent", "complete", "read_fault", "write_fault",
                                 "no_others", "bad_words", "unread"])
        self.assertNotIn("fn run", shown)
        self.assertNotIn("reply_to", shown)

    def test_what_is_not_there_is_told(self):
        for mark in (f"{TRUTH}: successor", "crates/shq_meaning/specs/Truths.antt: holds",
                     "crates/ontology_jobs/src/jobs.rt: clauses of walk"):
            with self.subTest(mark):
                page = page_of(mark, "")
                status, message, after = self.run_on(page)
                self.assertEqual((status, after), (2, page))
                self.assertIn(mark.split(":", maxsplit=1)[0], message)

    def test_a_page_without_a_block_for_the_copy_is_told(self):
        page = f"<!-- shown: {TRUTH}: successors -->\nsuccessors\n"
        self.assertEqual(self.run_on(page)[0], 2)

    def test_no_page_is_bad_usage(self):
        run = subprocess.run([COMMAND], capture_output=True, text=True, check=False)
        self.assertEqual((run.returncode, run.stdout), (2, ""))


if __name__ == "__main__":
    unittest.main()
