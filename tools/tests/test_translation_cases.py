"""What follows from translations and what does not, by the table of `translation_cases`."""
import contextlib
import unittest
from importlib import import_module
from itertools import combinations
from unittest import mock

from shq_tools.approximation import translation
from shq_tools.approximation.bounds import negated
from shq_tools.approximation.owl import OwlReader, read_axiom
from shq_tools.approximation.text import approximation
from shq_tools.approximation.translation import Strength
from shq_tools.documents import parsed
from shq_tools.terms import BOTTOM, TOP
from tests.owl_grammar import document
from tests.owl_worlds import VALUES, all_worlds_of
from tests.program import needs_program, run_program
from tests.translation_cases import CASES, lines_of

PACKAGE = "shq_tools.approximation"
# The modules whose functions that begin with `of_` are rows of the translation.
ROW_MODULES = ("class_axioms", "role_axioms", "special_roles", "nominals", "selves", "disjoint_roles", "data_classes")
# All interpretations with so many facts, or fewer, are looked at; of more facts none.
MOST_FACTS = 20


def followed(axioms, statements, strength):
    """Those of the statements that the program says to follow from a translation."""
    found = approximation(document(axioms).encode("utf-8"), strength).data
    script = "".join(f"ask {it}\n" for it in statements)
    told, _ = run_program(["session"], found + script.encode("utf-8"))
    answers = [it.partition(" ")[0] for it in told.splitlines()]
    if len(answers) != len(statements) or not set(answers) <= {"yes", "no"}:
        raise AssertionError(f"{told}\n{found.decode('utf-8')}")
    return [it for it, answer in zip(statements, answers) if answer == "yes"]


def expected(case, strength):
    """What has to follow from the translation of a case, and all that is asked of it."""
    follows = lines_of(case.follows) + (lines_of(case.full) if strength == Strength.FULL else [])
    asked = [it for of in (case.follows, case.full, case.lost, case.open) for it in lines_of(of)]
    return [it for it in asked if it in follows], asked


def is_right(case):
    """Whether both translations of a case have what is expected."""
    for strength in Strength:
        follows, asked = expected(case, strength)
        if followed(case.axioms, asked, strength) != follows:
            return False
    return True


@needs_program
class Cases(unittest.TestCase):
    def test_what_follows_and_what_does_not(self):
        for case in CASES:
            for strength in Strength:
                with self.subTest(row=case.row, axioms=case.axioms, strength=strength):
                    follows, asked = expected(case, strength)
                    self.assertEqual(followed(case.axioms, asked, strength), follows)


def axioms_in(texts):
    """The axioms of OWL 2 that stand on some lines."""
    read = parsed(document(texts).encode("utf-8"))
    reader = OwlReader(read.prefixes)
    return [read_axiom(reader, it)[0] for it in read.axiom_items]


class Interpretations(unittest.TestCase):
    """What the table says of the files themselves, by all small interpretations."""

    def test_what_follows_has_no_exception_and_what_is_open_has_one(self):
        for case in CASES:
            statements = [lines_of(it) for it in (case.follows + "\n" + case.full + "\n" + case.lost, case.open)]
            certain, uncertain = map(axioms_in, statements)
            with self.subTest(row=case.row, axioms=case.axioms):
                exceptions = self.exceptions(axioms_in(case.axioms), certain + uncertain)
                self.assertEqual([it for it, has_one in zip(statements[0], exceptions) if has_one], [])
                open_ones = zip(statements[1], exceptions[len(certain) :])
                self.assertEqual([it for it, has_one in open_ones if not has_one], [])

    def exceptions(self, axioms, statements):
        """Of each statement whether an interpretation meets the axioms and not the statement."""

        def ask(worlds):
            for axiom in axioms + statements:
                worlds.holds(axiom)

        found = [False] * len(statements)
        has_data = any("Data" in it.keyword or "data" in repr(it.items) for it in axioms)
        for values in combinations(VALUES, 2) if has_data else [VALUES[:2]]:
            for size in (1, 2, 3):
                worlds = all_worlds_of(size, values, ask, MOST_FACTS)
                if worlds is None:
                    break
                meeting = worlds.all_of(map(worlds.holds, axioms))
                found = [it or bool(meeting & ~worlds.holds(of)) for it, of in zip(found, statements)]
        return found


def part_of(row):
    """The module or class in which the function of a row is, and the name that it has there."""
    module, *within, name = row.split(".")
    owner = import_module(f"{PACKAGE}.{module}")
    for it in within:
        owner = getattr(owner, it)
    return owner, name


@contextlib.contextmanager
def in_place_of(row, new):
    """Puts another function in place of that of a row."""
    owner, name = part_of(row)
    old = getattr(owner, name)
    with contextlib.ExitStack() as stack:
        stack.enter_context(mock.patch.object(owner, name, new))
        for table in (translation.CLASS_AXIOMS, translation.ROLE_AXIOMS):
            stack.enter_context(mock.patch.dict(table, {key: new for key, of in table.items() if of is old}))
        yield


def says_nothing(*parts):
    """A bound that says nothing."""
    return TOP if parts[-1] else BOTTOM


# What stands in place of a function that says nothing; for those that are not here, no rows.
WITHOUT = {
    "translation.Context.define": lambda self, axiom: None,
    "new_names.NewNames.individual": lambda self, name: "http://e.org/a",
    "bounds.Bounds.value": lambda self, of: TOP,
    "bounds.Bounds.restriction": lambda self, kind, role, filler: TOP,
    "data_classes.DataClasses.relate": lambda self: None,
    "data_classes.DataClasses.split": lambda self: None,
    "full.Roles.add_chain": lambda self, *parts: None,
    "full.FullRows.rows_of_all": lambda self, *parts: None,
    "full.FullRows.rows_of_some": lambda self, *parts: None,
    "full.FullRows.rewritten": lambda self, axiom: None,
    "full.FullRows.rewritten_item": lambda self, axiom: None,
    "full.FullRows.rewritten_union": lambda self, axiom: None,
    "full.FullRows.above": lambda self, of: of,
}
BOUNDS = [f"bounds.Bounds.{it}" for it in ("bound", "over_roles", "over_special", "exactly", "number")]
WITHOUT.update({it: says_nothing for it in [*BOUNDS, "data_classes.DataClasses.bound"]})

TURNED_KEYWORDS = {
    "ObjectPropertyDomain": "ObjectPropertyRange",
    "ObjectPropertyRange": "ObjectPropertyDomain",
    "EquivalentClasses": "DisjointClasses",
    "DisjointClasses": "EquivalentClasses",
}


def turned(axiom):
    """An axiom that says the opposite, or the same the other way round."""
    items = axiom.items
    if axiom.keyword in ("SubClassOf", "SubObjectPropertyOf"):
        items = items[::-1]
    elif axiom.keyword == "ClassAssertion":
        items = (negated(items[0]), items[1])
    elif axiom.keyword == "ObjectPropertyAssertion":
        items = (items[0], items[2], items[1])
    return type(axiom)(TURNED_KEYWORDS.get(axiom.keyword, axiom.keyword), items, axiom.line)


def turned_rows(row):
    """The function of a row, with what it writes turned."""
    owner, name = part_of(row)
    of = getattr(owner, name)
    if row in BOUNDS:
        return lambda *parts: of(*parts[:-1], not parts[-1])
    return lambda *parts: [turned(it) for it in of(*parts) or ()]


@needs_program
class TurnedRows(unittest.TestCase):
    """The cases fail where the row that they are for says nothing, or is turned."""

    # They say that roles are equal, transitive or functional, which has no other way round.
    SAME_WHEN_TURNED = {f"role_axioms.of_{it}" for it in (
        "equivalence", "inverses", "symmetric", "transitive", "chain", "functional", "inverse_functional")}

    def test_each_row_has_a_case(self):
        rows = {
            f"{module}.{name}"
            for module in ROW_MODULES
            for name in vars(import_module(f"{PACKAGE}.{module}"))
            if name.startswith("of_")
        }
        self.assertEqual(rows - {it.row for it in CASES if it.follows}, set())

    def assert_fails(self, row, new):
        with in_place_of(row, new):
            cases = [it for it in CASES if it.row == row]
            self.assertTrue(any(not is_right(it) for it in cases), f"no case needs {row}")

    def test_without_a_row(self):
        for row in sorted({it.row for it in CASES if it.follows or it.full}):
            with self.subTest(row=row):
                self.assert_fails(row, WITHOUT.get(row, lambda *_: []))

    def test_turned_rows(self):
        rows = {it.row for it in CASES if it.follows}
        for row in sorted({it for it in rows if it.split(".")[1].startswith("of_")} - self.SAME_WHEN_TURNED) + BOUNDS:
            with self.subTest(row=row):
                self.assert_fails(row, turned_rows(row))


if __name__ == "__main__":
    unittest.main()
