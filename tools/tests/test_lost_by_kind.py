"""Translations of random and generated ontologies by another reasoner: nothing is too many."""
import os
import unittest

from tests import owl_kinds
from tests.konclude import needs_konclude
from tests.lost_by_kind import MAKERS, count_of
from tests.program import needs_program

# SHQ_LONG_TESTS=1 tools/test asks about those of the table in docs/APPROXIMATION.md.
IS_LONG = bool(os.environ.get("SHQ_LONG_TESTS"))
OF_A_KIND, OF_A_DOMAIN = (24, 6) if IS_LONG else (2, 1)


@needs_konclude
@needs_program
class LostByKind(unittest.TestCase):
    def test_no_pair_is_too_many_and_nothing_is_lost_where_that_is_said(self):
        for kind, make in MAKERS.items():
            with self.subTest(kind=kind):
                found = count_of(make, kind, range(OF_A_KIND if kind in owl_kinds.KINDS else OF_A_DOMAIN))
                self.assertEqual(found.wrong, [])
                for lost in (found.lost, found.not_seen):
                    self.assertLessEqual(lost["full"], lost["light"])
                    self.assertLessEqual(lost["light"], lost["by cutting"])


if __name__ == "__main__":
    unittest.main()
