"""The index of definitions: it is made of the comments of the specifications, and is current."""
import re
import subprocess
import sys
import unittest

from shq_tools import definition_index
from shq_tools.definition_index import Specifications, defined_at, definitions_in, files_passed_on, imported_names
from shq_tools.places import TOOLS, TOP

TEXT = """-- What the file is about.
use Rattle.std.specs.Prelude.{ℕ}

-- a point of the plane,
-- by two numbers
pub record Point : Type 0 where
  pub x : ℕ
  pub y : ℕ

abbrev pub origin : Point
origin = record { x = 0, y = 0 }

-- whether a number is even
abbrev mutual
  pub even : ℕ → Bool
  even zero = true

  pub odd : ℕ → Bool
  odd zero = false

  -- what is neither
  pub neither : ℕ → Bool
  neither n = false

-- a colour
pub data Colour : Type 0 where
  red : Colour

pub law : origin ≡ origin
law = refl
"""


def found():
    return {it.name: it for it in definitions_in("crate", "File", TEXT)}


class Reading(unittest.TestCase):
    def test_definitions_with_their_comments(self):
        """A law, a field and a constructor are no definitions."""
        comments = {name: it.comment for name, it in found().items()}
        wanted = {"Point": "a point of the plane, by two numbers", "origin": "", "even": "whether a number is even"}
        self.assertEqual(comments, {**wanted, "odd": "", "neither": "what is neither", "Colour": "a colour"})

    def test_what_is_told_beside(self):
        self.assertEqual([name for name, it in found().items() if it.is_told_beside], ["even", "odd", "neither"])

    def test_imports(self):
        text = "ghost use Rattle.a_b.specs.deep.File.{One,\n  ◌two◌};\npub use Rattle.c.specs.X.{y}\nuse crate::z::{w};\n"
        wanted = [("a_b", "deep.File", "One"), ("a_b", "deep.File", "◌two◌"), ("c", "X", "y")]
        self.assertEqual(list(imported_names(text)), wanted)

    def test_imports_from_a_crate_that_passes_a_file_on(self):
        """A file may be passed on over several crates, and under another name."""
        passed_on = files_passed_on("a", "pub mod Own\npub use Rattle.b.specs.Sets as NumberSets\n")
        passed_on |= files_passed_on("b", "pub use Rattle.c.specs.deep.Sets\n")
        wanted = ("c", "deep.Sets.TheVariants")
        self.assertEqual(defined_at("a", "NumberSets.TheVariants", passed_on), wanted)
        self.assertEqual(defined_at("b", "Sets.TheVariants", passed_on), wanted)
        self.assertEqual(defined_at("a", "Own", passed_on), ("a", "Own"))
        self.assertEqual(defined_at("a", "Sets", passed_on), ("a", "Sets"))

    def test_what_is_cited_and_what_lacks_a_comment(self):
        """What only its own file uses is a helper; what only its own specifications use is not for the index."""
        users = {
            ("crate", "File", "origin"): {("other", "specs", "A.antt")},
            ("crate", "File", "Point"): {("crate", "src", "lib.rt")},
            ("crate", "File", "odd"): {("crate", "proofs", "B.antt")},
        }
        read = Specifications(list(found().values()), users)
        self.assertEqual([it.name for it in read.definitions if read.is_cited(it)], ["Point", "origin"])
        self.assertEqual([it.name for it in read.definitions if read.lacks_comment(it)], ["origin"])


class Page(unittest.TestCase):
    def test_it_is_current(self):
        words = [sys.executable, TOOLS / "list-definitions", "--check"]
        ran = subprocess.run(words, capture_output=True, text=True, check=False)
        self.assertEqual((ran.returncode, ran.stderr), (0, ""))

    def test_it_names_files_that_are_there(self):
        text = definition_index.PAGE.read_text(encoding="utf-8")
        names = re.findall(r"(?m)^\*\*`(.*)`\*\*$", text)
        self.assertGreater(len(names), 200)
        for name in names:
            self.assertTrue((TOP / "crates" / name).exists(), name)

    def test_what_entailment_is_stands_in_it(self):
        text = definition_index.PAGE.read_text(encoding="utf-8")
        self.assertRegex(text, r"(?m)^- `Entails`: .*in every finite interpretation")
