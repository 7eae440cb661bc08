"""What cases of `job_cases` say of lists, taxonomies, individuals and scripts, against what the program answers to
single questions, each of which is asked by itself.
"""
import re
import unittest
from concurrent.futures import ThreadPoolExecutor
from functools import lru_cache
from itertools import chain, combinations, repeat

from shq_tools.documents import document
from shq_tools.walk import Limits, Walk
from tests.cases import cases, document_of
from tests.program import needs_program, run_program

THING, NOTHING = "owl:Thing", "owl:Nothing"


@lru_cache(maxsize=None)
def follows(axioms, query):
    """Whether the query follows from the axioms. Each question is asked once."""
    said, _ = run_program(["entails", query], document_of(axioms))
    return {"entailed": True, "not entailed": False}[said.partition("\n")[0]]


def numbered(axioms):
    """The axioms by their numbers, each with its line. A declaration has no number."""
    found = [(text, line) for line, text in enumerate(axioms, 3) if not text.startswith("Declaration(")]
    return dict(enumerate(found, 1))


def sets_that(is_wanted, axioms):
    """The smallest sets of numbers whose axioms, and those of all others, are as is wanted; in order."""
    found = []
    for size in range(len(axioms) + 1):
        for numbers in combinations(axioms, size):
            inside = tuple(text for at, (text, _) in axioms.items() if at in numbers)
            outside = tuple(text for at, (text, _) in axioms.items() if at not in numbers)
            if is_wanted(inside, outside):
                found.append(numbers)
    return sorted(it for it in found if not any(set(other) < set(it) for other in found))


def justifications(axioms, query):
    return sets_that(lambda inside, _: follows(inside, query), axioms)


def repairs(axioms, query):
    return sets_that(lambda _, outside: not follows(outside, query), axioms)


def set_lines(word, sets):
    return [f"{word} {len(sets)}", *(" ".join(map(str, it)) or "empty" for it in sets)]


def canonical(axiom):
    """The text of an axiom with whole names, and with the class that a cardinality may lack."""
    text = re.sub(r"(?<!\w):(\w+)", r"<http://e.org/\1>", axiom)
    return re.sub(r"(Cardinality\(\d+ <[^>]*>)\)", r"\1 owl:Thing)", text)


def axiom_lines(axioms, sets):
    """The lines of the axioms that are in some set."""
    used = set(chain(*sets))
    return [f"axiom {at} line {line} {canonical(text)}" for at, (text, line) in axioms.items() if at in used]


def explained(case):
    axioms = numbered(case.axioms)
    sets = justifications(axioms, case.asked)
    return set_lines("justifications", sets) + axiom_lines(axioms, sets)


def repaired(case):
    axioms = numbered(case.axioms)
    sets = repairs(axioms, case.asked)
    return set_lines("repairs", sets) + axiom_lines(axioms, sets)


def reasons(case):
    """The lines of each individual that something explains to be in the class, and then those of axioms."""
    axioms, lines, found = numbered(case.axioms), [], []
    for individual in names_in(case.axioms)[1]:
        sets = justifications(axioms, f"ClassAssertion({case.asked} {individual})")
        first, *rest = set_lines("justifications", sets)
        lines += [f"instance {individual} {first}", *rest] if sets else []
        found += sets
    return lines + axiom_lines(axioms, found)


def names_in(axioms):
    """The classes and the individuals of a document, in the order in which they are met."""
    read, limits = document(document_of(axioms)), Limits()
    walk = Walk(read.prefixes, limits)
    for item in read.axiom_items:
        walk.axiom(item)
    return [[f"<{iri}>" for iri in limits.names[kind]] for kind in ("classes", "individuals")]


class Names:
    """The classes and individuals of a document, and what is answered about each two of them."""

    def __init__(self, axioms):
        self.axioms = tuple(axioms)
        self.classes, self.individuals = names_in(axioms)

    def is_in(self, individual, of):
        return follows(self.axioms, f"ClassAssertion({of} {individual})")

    def is_below(self, one, other):
        return follows(self.axioms, f"SubClassOf({one} {other})")

    def are_equal(self, one, other):
        return self.is_below(one, other) and self.is_below(other, one)

    def is_strictly_below(self, one, other):
        return self.is_below(one, other) and not self.is_below(other, one)

    def is_first(self, name):
        """Whether no class before this one is equal to it, and it is neither empty nor holds everything."""
        before = [THING, NOTHING, *self.classes[: self.classes.index(name)]]
        return not any(self.are_equal(name, it) for it in before)

    def direct(self, names):
        """The first names of those of some classes below which no other one of them lies."""
        first = [it for it in names if self.is_first(it)]
        lowest = [it for it in first if not any(self.is_strictly_below(other, it) for other in first)]
        return lowest or [THING]

    def taxonomy(self):
        if self.is_below(THING, NOTHING):
            return ["inconsistent"]
        empty = [it for it in self.classes if self.is_below(it, NOTHING)]
        everything = [it for it in self.classes if self.is_below(THING, it)]
        lines = ["consistent", " ".join(["nothing", *empty]), " ".join(["thing", *everything])]
        for name in filter(self.is_first, self.classes):
            equal = [it for it in self.classes if self.are_equal(name, it)]
            above = [it for it in self.classes if self.is_strictly_below(name, it)]
            lines.append(" ".join(["class", *equal, "under", *self.direct(above)]))
        return lines

    def types(self):
        if self.is_below(THING, NOTHING):
            return ["inconsistent"]
        lines = ["consistent"]
        for individual in self.individuals:
            types = [it for it in self.classes if self.is_in(individual, it)]
            lines.append(" ".join(["individual", individual, "types", *self.direct(types)]))
        return lines

    def members(self, of):
        found = [it for it in self.individuals if self.is_in(it, of)]
        return [f"instances {len(found)}", *found]


class Session:
    """The live axioms of a session by their numbers, and how many there were."""

    def __init__(self, axioms):
        self.live, self.count = dict(enumerate(axioms, 1)), len(axioms)

    def answer(self, line, told):
        """What is to be answered to a line. A yes may name any live axioms from which the query follows."""
        word, _, text = line.partition(" ")
        if word == "add":
            self.count += 1
            self.live[self.count] = text
            return f"axiom {self.count}"
        if word == "remove":
            return f"removed {text}" if self.live.pop(int(text), None) else "bad line"
        if not self.yields(self.live, text):
            return "no"
        numbers = [int(it) for it in re.findall(r"\d+", told)]
        is_reason = set(numbers) <= set(self.live) and self.yields(numbers, text)
        return f"yes {' '.join(map(str, numbers)) or 'empty'}" if is_reason else "yes"

    def yields(self, numbers, query):
        """Whether a query follows from the live axioms of these numbers."""
        return follows(tuple(self.live[it] for it in numbers), query)


def answered(case):
    session = Session(case.axioms)
    return [session.answer(line, told) for line, told in zip(case.script, chain(case.told, repeat("")))]


@needs_program
class SingleQuestions(unittest.TestCase):
    def assert_told(self, names, count, wanted):
        """There are so many cases with names of this form, and each tells the lines that are wanted."""
        found = list(cases(names))
        self.assertEqual(len(found), count)
        with ThreadPoolExecutor() as pool:
            for case, lines in zip(found, pool.map(wanted, found)):
                with self.subTest(case=case.name):
                    self.assertEqual(case.told, lines)

    def test_lists(self):
        self.assert_told(r"justifications \d+", 32, explained)
        self.assert_told(r"minimal repairs \d+", 32, repaired)

    def test_taxonomies(self):
        self.assert_told(r"taxonomy of pairs \d+", 20, lambda case: Names(case.axioms).taxonomy())

    def test_individuals(self):
        self.assert_told(r"types of individuals \d+", 20, lambda case: Names(case.axioms).types())
        self.assert_told(r"members \d+ \d+", 160, lambda case: Names(case.axioms).members(case.asked))

    def test_reasons(self):
        self.assert_told(r"reasons of member \d+ \d+", 17, explained)
        self.assert_told(r"reasons of members \d+", 7, reasons)

    def test_scripts(self):
        self.assert_told(r"random script \d+", 9, answered)
