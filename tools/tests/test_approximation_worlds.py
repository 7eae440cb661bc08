"""Each interpretation that meets a file meets its translation, where the new names are read by their definitions."""
import os
import random
import unittest

from shq_tools.approximation.text import approximation
from shq_tools.approximation.translation import Strength
from shq_tools.documents import axioms_of, document
from tests import owl_grammar
from tests.owl_worlds import chosen_values, worlds_of

# SHQ_LONG_TESTS=1 tools/test tries many more ontologies.
COUNT = 20_000 if os.environ.get("SHQ_LONG_TESTS") else 500


def rows_by_line(data):
    """The axioms of a translation by their lines. Raises `Refused` where the reasoner refuses it."""
    rows = {}
    for axiom in axioms_of(document(data)):
        rows.setdefault(axiom.line, []).append(axiom)
    return rows


def wrong_rows(found, size, seed):
    """The rows that do not follow from the axiom on whose line they stand, by interpretations of a size; and how many
    interpretations meet the file.
    """
    axioms = [it.axiom for it in found.sources]
    rows = rows_by_line(found.data)

    def ask(worlds):
        for axiom in axioms + [row for those in rows.values() for row in those]:
            worlds.holds(axiom)

    worlds = worlds_of(size, chosen_values(axioms, random.Random(seed)), seed, ask)
    wrong, meeting = [], worlds.every
    for axiom in axioms:
        here = worlds.holds(axiom)
        here = worlds.every if here is None else here
        meeting &= here
        wrong += [(axiom, row) for row in rows.pop(axiom.line, []) if here & ~worlds.holds(row)]
    return wrong + list(rows), bin(meeting).count("1")


class SmallWorlds(unittest.TestCase):
    def assert_follow(self, strength, seeds):
        """Each row follows, in interpretations of up to three elements; and many of these meet the files."""
        met = 0
        for seed in seeds:
            text = owl_grammar.ontology(seed)
            found = approximation(text.encode("utf-8"), strength)
            for size in (1, 2, 3):
                wrong, meeting = wrong_rows(found, size, seed)
                met += meeting > 0
                self.assertEqual(wrong, [], f"seed {seed}, {size} elements\n{text}")
        # rows that no interpretation could break would say nothing
        self.assertGreater(met, len(seeds))

    def test_light_form(self):
        self.assert_follow(Strength.LIGHT, range(COUNT))

    def test_full_form(self):
        self.assert_follow(Strength.FULL, range(COUNT, 2 * COUNT))


if __name__ == "__main__":
    unittest.main()
