"""The lists that the cases of `job_cases` have of documents with facts, and what they have of individuals, against all
small interpretations.
"""
import unittest
from itertools import combinations, product

from shq_tools.documents import document, ontology_of
from shq_tools.reading_answers import query_of
from shq_tools.terms import BOTTOM, TOP, inner_classes
from tests.cases import cases, document_of

# No interpretation has more elements.
MOST_ELEMENTS = 3


def read_question(case):
    """The axioms, the individuals, and the class expression of a question."""
    read = document(document_of(case.axioms))
    return *ontology_of(read), query_of(case.asked, read.prefixes)[0]


def sets_in(told):
    """The sets that stand on the lines of a list."""
    sets = [it for it in told[1:] if not it.startswith("axiom ")]
    return [() if it == "empty" else tuple(map(int, it.split())) for it in sets]


def count_of(bits):
    return bin(bits).count("1")


class World:
    """An interpretation: what each class is, as bits, where each role leads from each element, and the individuals."""

    def __init__(self, size, individuals):
        self.size, self.whole, self.values = size, (1 << size) - 1, dict(individuals)

    def members(self, of):
        """The elements that are in a class expression, as bits."""
        kind = of[0]
        if kind in ("top", "bottom"):
            return self.whole if kind == "top" else 0
        if kind == "name":
            return self.values["class", of[1]]
        if kind == "not":
            return self.whole & ~self.members(of[1])
        if kind in ("and", "or"):
            found = self.whole if kind == "and" else 0
            for part in map(self.members, of[1]):
                found = found & part if kind == "and" else found | part
            return found
        return sum(1 << at for at in range(self.size) if self.is_in(of, at))

    def is_in(self, of, at):
        """Whether an element is in a restriction."""
        after = self.values["role", of[-2]][at]
        count = count_of(after & self.members(of[-1]))
        if of[0] in ("some", "all"):
            return count > 0 if of[0] == "some" else count == count_of(after)
        return {"least": count >= of[1], "most": count <= of[1], "exactly": count == of[1]}[of[0]]

    def meets(self, axiom):
        items = axiom.items
        return {
            "SubClassOf": lambda: self.members(items[0]) & ~self.members(items[1]) == 0,
            "EquivalentClasses": lambda: len(set(map(self.members, items))) == 1,
            "DisjointClasses": lambda: not any(self.members(a) & self.members(b) for a, b in combinations(items, 2)),
            "SubObjectPropertyOf": lambda: all(a & ~b == 0 for a, b in zip(*map(self.role, items))),
            "ObjectPropertyDomain": lambda: all(
                self.members(items[1]) >> at & 1 for at, after in enumerate(self.role(items[0])) if after
            ),
            "ObjectPropertyRange": lambda: all(after & ~self.members(items[1]) == 0 for after in self.role(items[0])),
            "FunctionalObjectProperty": lambda: all(count_of(after) < 2 for after in self.role(items[0])),
            "TransitiveObjectProperty": lambda: self.is_transitive(self.role(items[0])),
            "ClassAssertion": lambda: self.members(items[0]) >> self.individual(items[1]) & 1 == 1,
            "ObjectPropertyAssertion": lambda: self.leads(*items),
            "SameIndividual": lambda: len(set(map(self.individual, items))) == 1,
            "DifferentIndividuals": lambda: len(set(map(self.individual, items))) == len(items),
        }[axiom.keyword]()

    def role(self, name):
        return self.values["role", name]

    def individual(self, name):
        return self.values["individual", name]

    def leads(self, role, one, other):
        return self.role(role)[self.individual(one)] >> self.individual(other) & 1 == 1

    def is_transitive(self, role):
        pairs = [(at, to) for at, after in enumerate(role) for to in range(self.size) if after >> to & 1]
        return all(role[to] & ~role[at] == 0 for at, to in pairs)

    def refutes(self, query):
        sub, sup, individual = query
        found = self.members(sub) & ~self.members(sup)
        return found != 0 if individual is None else found >> self.individual(individual) & 1 == 1


def names_in(of):
    """The classes and roles of a class expression."""
    found = {("class", of[1])} if of[0] == "name" else set().union(*map(names_in, inner_classes(of)))
    return found | ({("role", of[-2])} if of[0] in ("some", "all", "least", "most", "exactly") else set())


def names_of(axiom):
    """The classes and roles of an axiom. Where a role stands, it stands first, and all items of an axiom of roles are
    roles.
    """
    found = set().union(*(names_in(it) for it in axiom.items if isinstance(it, tuple)))
    if axiom.keyword in ("ClassAssertion", "SameIndividual", "DifferentIndividuals"):
        return found
    first = 1 if axiom.keyword == "ObjectPropertyAssertion" else len(axiom.items)
    return found | {("role", it) for it in axiom.items[:first] if isinstance(it, str)}


def placings(individuals, size):
    """Each way to place individuals, once of those that differ only in which elements are taken."""
    for places in product(range(size), repeat=len(individuals)):
        if all(place <= max(places[:at], default=-1) + 1 for at, place in enumerate(places)):
            yield {("individual", name): place for name, place in zip(individuals, places)}


class Outcomes:
    """What interpretations of one size and placing meet: sets of bits, one for each test. Names get their values one
    after the other. A test is made as soon as its names have values, and what comes of those that are left is kept by
    the values that they ask for.
    """

    def __init__(self, world, tests):
        self.world, self.tests, self.kept = world, tests, {}
        self.names = sorted(set().union(*(names for names, _ in tests)), reverse=True)
        first = [max((self.names.index(it) + 1 for it in names), default=0) for names, _ in tests]
        depths = range(len(self.names) + 1)
        # the tests that can be made with so many names and not before, and which of these names are asked for later
        self.due = [[at for at, depth in enumerate(first) if depth == it] for it in depths]
        later = [set().union(*(tests[at][0] for at, depth in enumerate(first) if depth > it)) for it in depths]
        self.asked = [[name for name in self.names[:it] if name in later[it]] for it in depths]

    def values(self, name):
        bits = range(1 << self.world.size)
        return bits if name[0] == "class" else product(bits, repeat=self.world.size)

    def behind(self, depth):
        """The outcomes of the tests that can be made with more than the first so many names."""
        key = (depth, *(self.world.values[name] for name in self.asked[depth]))
        if key not in self.kept:
            self.kept[key] = self.found(depth)
        return self.kept[key]

    def found(self, depth):
        if depth == len(self.names):
            return {0}
        found = set()
        for value in self.values(self.names[depth]):
            self.world.values[self.names[depth]] = value
            found |= self.outcomes(depth + 1)
        return found

    def outcomes(self, depth=0):
        """The outcomes of these tests and of those that can be made with just the first so many names."""
        here = sum(1 << at for at in self.due[depth] if self.tests[at][1](self.world))
        return {here | rest for rest in self.behind(depth)}


def sets_that_fail(axioms, query, individuals):
    """The greatest sets of axioms, as bits, that an interpretation meets which refutes the query."""
    tests = [(names_of(it), lambda world, it=it: world.meets(it)) for it in axioms]
    tests.append((names_in(query[0]) | names_in(query[1]), lambda world: world.refutes(query)))
    refuting = 1 << len(axioms)
    found = set()
    for size in range(1, MOST_ELEMENTS + 1):
        for placing in placings(individuals, size):
            found |= {it ^ refuting for it in Outcomes(World(size, placing), tests).outcomes() if it & refuting}
    return found


def numbers_in(bits):
    return tuple(at + 1 for at in range(bits.bit_length()) if bits >> at & 1)


def smallest(sets):
    """Those that contain no other, in the order of their numbers."""
    return sorted(numbers_in(it) for it in sets if not any(other != it and other & ~it == 0 for other in sets))


def lists_of(axioms, query, individuals):
    """The reasons and the repairs, by all small interpretations."""
    failing, whole = sets_that_fail(axioms, query, individuals), (1 << len(axioms)) - 1
    follows = {it for it in range(whole + 1) if not any(it & ~met == 0 for met in failing)}
    return smallest(follows), smallest({whole & ~it for it in range(whole + 1) if it not in follows})


class SmallWorlds(unittest.TestCase):
    def test_lists_of_documents_with_facts(self):
        found = list(zip(cases(r"reasons of facts \d+"), cases(r"repairs of facts \d+")))
        self.assertEqual(len(found), 30)
        for one, other in found:
            with self.subTest(case=one.name, other=other.name):
                read = document(document_of(one.axioms))
                query = query_of(one.asked, read.prefixes)
                listed, individuals = ontology_of(read)
                asked = [query[2]] if query[2] is not None and query[2] not in individuals else []
                reasons, repairs = lists_of(listed, query, individuals + asked)
                self.assertEqual(reasons, sets_in(one.told))
                self.assertEqual(repairs, sets_in(other.told))


class Refuted(Outcomes):
    """Which of some queries, as bits, an interpretation refutes that meets all axioms."""

    def __init__(self, world, axioms, queries):
        tests = [(names_of(it), lambda world, it=it: world.meets(it)) for it in axioms]
        tests += [(names_in(it[0]) | names_in(it[1]), lambda world, it=it: world.refutes(it)) for it in queries]
        self.is_axiom = [at < len(axioms) for at in range(len(tests))]
        super().__init__(world, tests)

    def outcomes(self, depth=0):
        if not all(self.tests[at][1](self.world) for at in self.due[depth] if self.is_axiom[at]):
            return set()
        return super().outcomes(depth)


def following(axioms, queries, individuals):
    """Those of some queries that follow from all axioms, by all small interpretations."""
    refuted = 0
    for size in range(1, MOST_ELEMENTS + 1):
        for placing in placings(individuals, size):
            for bits in Refuted(World(size, placing), axioms, queries).outcomes():
                refuted |= bits >> len(axioms)
    return {it for at, it in enumerate(queries) if not refuted >> at & 1}


class Individuals(unittest.TestCase):
    def test_instances(self):
        found = list(cases(r"instances \d+"))
        self.assertEqual(len(found), 7)
        for case in found:
            with self.subTest(case=case.name):
                listed, individuals, sup = read_question(case)
                found = following(listed, [(TOP, sup, it) for it in individuals], individuals)
                members = [f"<{it}>" for it in individuals if (TOP, sup, it) in found]
                self.assertEqual(case.told, [f"instances {len(members)}", *members])

    def test_reasons(self):
        found = list(cases(r"why \d+"))
        self.assertEqual(len(found), 8)
        for case in found:
            with self.subTest(case=case.name):
                listed, individuals, sup = read_question(case)
                lines = []
                for it in individuals:
                    reasons, _ = lists_of(listed, (TOP, sup, it), individuals)
                    lines += [f"instance <{it}> justifications {len(reasons)}"] * bool(reasons)
                    lines += [" ".join(map(str, one)) or "empty" for one in reasons]
                self.assertEqual([it for it in case.told if it and not it.startswith("axiom ")], lines)

    def test_types(self):
        found = list(cases(r"types \d+"))
        self.assertEqual(len(found), 8)
        for case in found:
            with self.subTest(case=case.name):
                listed, individuals = ontology_of(document(document_of(case.axioms)))
                self.assertEqual(case.told, Types("\n".join(case.axioms), listed, individuals).lines())


class Types:
    """The direct types of individuals, by all small interpretations."""

    def __init__(self, text, axioms, individuals):
        self.individuals = individuals
        names = {name for it in axioms for kind, name in names_of(it) if kind == "class"}
        self.classes = sorted(names, key=lambda name: text.index(":" + name.rpartition("/")[2]))
        of = [("name", it) for it in self.classes]
        queries = [(sub, sup, None) for sub in (TOP, *of) for sup in (*of, BOTTOM)]
        queries += [(TOP, sup, it) for sup in of for it in individuals]
        self.following = following(axioms, queries, individuals)

    def is_below(self, one, other):
        return (("name", one), ("name", other), None) in self.following

    def types(self, individual):
        """The first names of the groups of classes that the individual is in, without those of all things."""
        found = []
        for name in self.classes:
            of = ("name", name)
            if (TOP, of, None) in self.following or (TOP, of, individual) not in self.following:
                continue
            if not any(self.is_below(name, it) and self.is_below(it, name) for it in found):
                found.append(name)
        return found

    def lines(self):
        if (TOP, BOTTOM, None) in self.following:
            return ["inconsistent"]
        lines = ["consistent"]
        for individual in self.individuals:
            types = self.types(individual)
            direct = [f"<{it}>" for it in types if not any(it != one and self.is_below(one, it) for one in types)]
            lines.append(f"individual <{individual}> types {' '.join(direct) or 'owl:Thing'}")
        return lines
