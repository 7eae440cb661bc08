"""Translations by another reasoner: no pair of classes is too many, and those that are lost are told."""
import unittest
from pathlib import Path

from shq_tools.approximation.new_names import is_new
from shq_tools.approximation.text import approximation
from shq_tools.approximation.translation import Strength
from shq_tools.cut import cut
from tests.konclude import NoAnswer, needs_konclude, pairs
from tests.lost_by_kind import lost_and_added

ONTOLOGIES = Path(__file__).parent / "ontologies"


def old(found):
    """The pairs of names of the file."""
    return {it for it in found if not is_new(it[0]) and not is_new(it[1])}


def short(found):
    return sorted(tuple(name.rpartition("#")[2] for name in it) for it in found)


@needs_konclude
class ByKonclude(unittest.TestCase):
    def assert_lost(self, name, by_cut, by_light, by_full=()):
        """So many pairs are lost by cutting, and these by the two forms; and none is too many."""
        data = (ONTOLOGIES / name).read_bytes()
        try:
            whole = pairs(data)
            parts = [cut(data)[0], approximation(data).data, approximation(data, Strength.FULL).data]
            found = [lost_and_added(whole, old(pairs(it))) for it in parts]
        except NoAnswer:
            self.skipTest("Konclude did not answer")
        self.assertEqual([added for _, added in found], [set()] * 3)
        self.assertEqual(len(found[0][0]), by_cut)
        self.assertEqual([short(lost) for lost, _ in found[1:]], [list(by_light), list(by_full)])

    def test_animals(self):
        self.assert_lost("animals.ofn", 27, [])

    def test_pizzas(self):
        self.assert_lost("pizzas.ofn", 14, [])

    def test_kinship(self):
        lost = [
            ("Grandmother", "Grandparent"),
            ("GreatGrandparent", "Grandparent"),
            ("MedicalFamily", "Foundling"),
            ("MedicalFamily", "Nothing"),
            ("Nothing", "MedicalFamily"),
        ]
        self.assert_lost("kinship.ofn", 27, lost)


if __name__ == "__main__":
    unittest.main()
