"""Questions as people write them, and what is asked of the program in their place."""
import itertools
import random
import subprocess
import sys
import tempfile
import unittest
from pathlib import Path

from shq_tools.answers import Model
from shq_tools.functional import axiom_text
from shq_tools.own_answers import own_answer
from shq_tools.places import TOOLS
from shq_tools.questions import stands_in, with_axioms
from shq_tools.reductions import FreshNames, NotAsked, reduced
from shq_tools.statements import FUNCTIONAL, Unclear, UnknownName, class_in, statement_in
from shq_tools.terms import Axiom
from shq_tools.vocabulary import vocabulary_of
from shq_tools.worlds import World
from tests.fakes import TOLD, shq
from tests.program import needs_program

FILE = """Prefix(:=<http://e.org/o#>)
Prefix(x:=<http://e.org/x/>)
Ontology(<http://e.org/o>
Declaration(Class(:SyringePump))
AnnotationAssertion(rdfs:label :SyringePump "syringe pump"@en)
AnnotationAssertion(rdfs:label :SyringePump "Spritzenpumpe"@de)
AnnotationAssertion(rdfs:label :Pump "pump")
AnnotationAssertion(rdfs:label x:Pump2 "pump")
SubClassOf(:SyringePump :Pump)
SubClassOf(x:Pump2 x:Device)
SubClassOf(:Device owl:Thing)
ObjectPropertyDomain(:hasPart :Device)
ObjectPropertyAssertion(:hasPart :pump_4 :drive_1)
AnnotationAssertion(rdfs:label :hasPart "has part")
) # the end
"""
O, X = "http://e.org/o#", "http://e.org/x/"
PUMP, PART = ("name", O + "SyringePump"), O + "hasPart"


def vocabulary():
    return vocabulary_of(FILE.encode("utf-8"))


class Statements(unittest.TestCase):
    def read(self, text):
        return statement_in(text, vocabulary())[0]

    def test_manchester_syntax(self):
        cases = {
            "'syringe pump' SubClassOf Nothing": ("SubClassOf", (PUMP, ("bottom",))),
            "Spritzenpumpe SubClassOf: owl:Thing": ("SubClassOf", (PUMP, ("top",))),
            "SyringePump SubClassOf 'has part' some (SyringePump and not Pump2)": (
                "SubClassOf",
                (PUMP, ("some", PART, ("and", (PUMP, ("not", ("name", X + "Pump2")))))),
            ),
            "SyringePump or SyringePump and SyringePump EquivalentTo hasPart only Thing": (
                "EquivalentClasses",
                (("or", (PUMP, ("and", (PUMP, PUMP)))), ("all", PART, ("top",))),
            ),
            "hasPart min 2 SubClassOf hasPart max 3 SyringePump": (
                "SubClassOf",
                (("least", 2, PART, ("top",)), ("most", 3, PART, PUMP)),
            ),
            "<http://e.org/o#SyringePump> DisjointWith :SyringePump": ("DisjointClasses", (PUMP, PUMP)),
            "DisjointClasses: SyringePump, Pump2": ("DisjointClasses", (PUMP, ("name", X + "Pump2"))),
            "'has part' Domain SyringePump": ("ObjectPropertyDomain", (PART, PUMP)),
            "hasPart Range not SyringePump": ("ObjectPropertyRange", (PART, ("not", PUMP))),
            "hasPart SubPropertyOf hasPart": ("SubObjectPropertyOf", (PART, PART)),
            "hasPart EquivalentTo hasPart": ("EquivalentObjectProperties", (PART, PART)),
            "Transitive: hasPart": ("TransitiveObjectProperty", (PART,)),
            "Functional: 'has part'": ("FunctionalObjectProperty", (PART,)),
            "pump_4 Type SyringePump": ("ClassAssertion", (PUMP, O + "pump_4")),
            "pump_4 hasPart drive_1": ("ObjectPropertyAssertion", (PART, O + "pump_4", O + "drive_1")),
            "pump_4 'has part' drive_1": ("ObjectPropertyAssertion", (PART, O + "pump_4", O + "drive_1")),
            "pump_4 SameAs drive_1": ("SameIndividual", (O + "pump_4", O + "drive_1")),
            "pump_4 DifferentFrom drive_1": ("DifferentIndividuals", (O + "pump_4", O + "drive_1")),
        }
        for text, (keyword, items) in cases.items():
            with self.subTest(text=text):
                self.assertEqual(self.read(text), Axiom(keyword, items, 1))

    def test_functional_syntax_with_short_names(self):
        cases = {
            "SubClassOf('syringe pump' ObjectSomeValuesFrom(hasPart owl:Nothing))": (
                "SubClassOf",
                (PUMP, ("some", PART, ("bottom",))),
            ),
            "EquivalentClasses(SyringePump ObjectMinCardinality(1 :hasPart) ObjectComplementOf(SyringePump))": (
                "EquivalentClasses",
                (PUMP, ("least", 1, PART, ("top",)), ("not", PUMP)),
            ),
            "NegativeObjectPropertyAssertion(hasPart pump_4 :drive_1)": (
                "NegativeObjectPropertyAssertion",
                (PART, O + "pump_4", O + "drive_1"),
            ),
        }
        for text, (keyword, items) in cases.items():
            with self.subTest(text=text):
                self.assertEqual(self.read(text), Axiom(keyword, items, 1))

    def test_class_expressions(self):
        cases = {
            "SyringePump": PUMP,
            "not (hasPart exactly 2 SyringePump or Nothing)": (
                "not",
                ("or", (("exactly", 2, PART, PUMP), ("bottom",))),
            ),
            "ObjectUnionOf('syringe pump' Pump2)": ("or", (PUMP, ("name", X + "Pump2"))),
        }
        for text, expression in cases.items():
            with self.subTest(text=text):
                self.assertEqual(class_in(text, vocabulary())[0], expression)

    def test_two_things_of_one_name(self):
        for text in ("pump SubClassOf Nothing", "Device SubClassOf Nothing"):
            with self.subTest(text=text), self.assertRaises(UnknownName) as fault:
                self.read(text)
            self.assertIn("<http://e.org/o#", str(fault.exception))
            self.assertIn("<http://e.org/x/", str(fault.exception))
        self.assertEqual(self.read("x:Device SubClassOf Nothing").items[0], ("name", X + "Device"))

    def test_names_that_are_not_there(self):
        cases = {
            "'syringe pum' SubClassOf Nothing": "no class 'syringe pum'; nearest to it: :SyringePump ('syringe pump')",
            "SyringPump SubClassOf Nothing": "no class SyringPump; nearest to it: :SyringePump",
            "pump_4 hasPrt drive_1": "no role hasPrt; nearest to it: :hasPart",
            "pump_5 hasPart drive_1": "no individual pump_5; nearest to it: :pump_4",
        }
        for text, complaint in cases.items():
            with self.subTest(text=text), self.assertRaises(UnknownName) as fault:
                self.read(text)
            self.assertIn(complaint, str(fault.exception))

    def test_whole_names_are_complained_about(self):
        _, missing = statement_in(":SyringPump SubClassOf :hasPart", vocabulary())
        self.assertIn("the file has no class :SyringPump; nearest to it: :SyringePump", missing[0])
        self.assertEqual(missing[1], ":hasPart is no class in the file; there it is a role")

    def test_what_is_no_statement(self):
        cases = (
            "",
            "SyringePump",
            "SubClassOf",
            "SyringePump SubClassOf",
            "SyringePump SubClassOf (Pump2",
            "SubClassOf(SyringePump)",
            "SubClassOf(SyringePump Pump2",
            "SyringePump SubClassOf Pump2 )",
            "hasPart min x SubClassOf Nothing",
            "y:A SubClassOf Nothing",
            "a b",
            "SyringePump SubClassOf not",
            "(" * 100 + "SyringePump" + ")" * 100 + " SubClassOf Nothing",
            "'SyringePump SubClassOf Nothing",
        )
        for text in cases:
            with self.subTest(text=text[:50]), self.assertRaises(Unclear):
                self.read(text)


class Meaning:
    """What statements mean in an interpretation, by the OWL 2 Direct Semantics, section 2.3."""

    def __init__(self, model):
        self.model = model
        self.world = World(model)
        self.things = range(model.size)

    def pairs(self, role):
        return set(self.model.roles.get(role, ()))

    def thing(self, individual):
        return self.model.individuals[individual]

    def members(self, expression):
        return {it for it in self.things if self.world.holds(expression, it)}

    def meets(self, axiom):
        items = axiom.items
        return {
            "SubClassOf": lambda: self.members(items[0]) <= self.members(items[1]),
            "EquivalentClasses": lambda: all(self.members(it) == self.members(items[0]) for it in items),
            "DisjointClasses": lambda: self.are_apart(items),
            "DisjointUnion": lambda: self.are_apart(items[1:])
            and self.members(items[0]) == set().union(*map(self.members, items[1:])),
            "SubObjectPropertyOf": lambda: self.pairs(items[0]) <= self.pairs(items[1]),
            "EquivalentObjectProperties": lambda: all(self.pairs(it) == self.pairs(items[0]) for it in items),
            "DisjointObjectProperties": lambda: not self.pairs(items[0]) & self.pairs(items[1]),
            "InverseObjectProperties": lambda: self.pairs(items[0]) == self.turned(items[1]),
            "ObjectPropertyDomain": lambda: {a for a, _ in self.pairs(items[0])} <= self.members(items[1]),
            "ObjectPropertyRange": lambda: {b for _, b in self.pairs(items[0])} <= self.members(items[1]),
            "FunctionalObjectProperty": lambda: all(self.count(items[0], 0, it) < 2 for it in self.things),
            "InverseFunctionalObjectProperty": lambda: all(self.count(items[0], 1, it) < 2 for it in self.things),
            "TransitiveObjectProperty": lambda: self.composed(items[0]) <= self.pairs(items[0]),
            "SymmetricObjectProperty": lambda: self.turned(items[0]) <= self.pairs(items[0]),
            "AsymmetricObjectProperty": lambda: not self.turned(items[0]) & self.pairs(items[0]),
            "ReflexiveObjectProperty": lambda: all((it, it) in self.pairs(items[0]) for it in self.things),
            "IrreflexiveObjectProperty": lambda: all(a != b for a, b in self.pairs(items[0])),
            "ClassAssertion": lambda: self.thing(items[1]) in self.members(items[0]),
            "ObjectPropertyAssertion": lambda: self.is_led(*items),
            "NegativeObjectPropertyAssertion": lambda: not self.is_led(*items),
            "SameIndividual": lambda: len(set(map(self.thing, items))) == 1,
            "DifferentIndividuals": lambda: len(set(map(self.thing, items))) == len(items),
        }[axiom.keyword]()

    def turned(self, role):
        return {(b, a) for a, b in self.pairs(role)}

    def composed(self, role):
        return {(a, d) for a, b in self.pairs(role) for c, d in self.pairs(role) if b == c}

    def are_apart(self, classes):
        return not any(self.members(one) & self.members(other) for one, other in itertools.combinations(classes, 2))

    def count(self, role, side, thing):
        return sum(it[side] == thing for it in self.pairs(role))

    def is_led(self, role, one, other):
        return (self.thing(one), self.thing(other)) in self.pairs(role)


def subsets(items):
    return [it for count in range(len(items) + 1) for it in itertools.combinations(items, count)]


def names_in(axiom):
    """The new names of an axiom, by kind."""
    text = axiom_text(axiom)
    found = set(part.partition(">")[0] for part in text.split("<")[1:])
    return {it for it in found if it.startswith("urn:shq:new:")}


def expansions(model, found):
    """The interpretation with each meaning that the new names of a reduction may have."""
    axioms = [found.asked, *found.added]
    new = sorted(set().union(*map(names_in, axioms)))
    classes = [it for it in new if any(("name", it) in flat(axiom.items) for axiom in axioms)]
    individuals = [it for it in new if it not in classes]
    for members in itertools.product(subsets(range(model.size)), repeat=len(classes)):
        for things in itertools.product(range(model.size), repeat=len(individuals)):
            yield Model(
                "",
                model.size,
                {**model.classes, **dict(zip(classes, members))},
                model.roles,
                {**model.individuals, **dict(zip(individuals, things))},
            )


def told_alone(model, found, more):
    """The interpretation in which the new names of a reduction have what the added axioms say of them, and these things
    besides: in a class, or to which a role leads from the new individual.
    """
    individuals = {**model.individuals}
    classes, roles = {}, {}
    for axiom in found.added:
        if axiom.keyword == "ObjectPropertyAssertion":
            role, one, other = axiom.items
            individuals.setdefault(one, 0)
            pairs = [(individuals[one], it) for it in (individuals[other], *more)]
            roles.setdefault(role, set()).update(pairs)
        else:
            classes.setdefault(axiom.items[0][1], set()).update([individuals[axiom.items[1]], *more])
    sorted_roles = {name: sorted(pairs) for name, pairs in roles.items()}
    return Model("", model.size, {name: sorted(it) for name, it in classes.items()}, sorted_roles, individuals)


def flat(items):
    """All tuples inside of some items."""
    found = []
    for item in items:
        if isinstance(item, tuple):
            found += [item, *flat(item)]
    return found


def interpretations():
    """All interpretations of two things by one class, two roles of at most three pairs each, and two individuals."""
    pairs = list(itertools.product(range(2), repeat=2))
    for members, one, other in itertools.product(subsets(range(2)), subsets(pairs), subsets(pairs)):
        for a, b in itertools.product(range(2), repeat=2):
            yield Model("", 2, {"A": members}, {"r": one, "s": other}, {"a": a, "b": b})


A = ("name", "A")
SOME_R, SOME_S = ("some", "r", A), ("some", "s", ("top",))
EXAMPLE_ITEMS = {
    "class": (A, SOME_R),
    "role": ("r", "s"),
    "individual": ("a", "b"),
    "classes": (A, SOME_R, SOME_S),
    "roles": ("r", "s"),
    "individuals": ("a", "b"),
}


def example(keyword):
    """A statement of a kind over the names of `interpretations`."""
    items, slots = [], {}
    for slot in FUNCTIONAL[keyword]:
        choice = EXAMPLE_ITEMS[slot]
        if slot in ("classes", "roles", "individuals"):
            items += choice
        else:
            items.append(choice[slots.get(slot, 0)])
            slots[slot] = slots.get(slot, 0) + 1
    return Axiom(keyword, tuple(items), 1)


class Reductions(unittest.TestCase):
    def test_each_kind_by_all_small_interpretations(self):
        """A statement holds in an interpretation just where what is asked in its place holds in each of its
        expansions by new names that meets the axioms that are put in.
        """
        worlds = random.Random(1).sample(list(interpretations()), 250)
        for keyword in FUNCTIONAL:
            statement = example(keyword)
            found = reduced(statement, FreshNames({"classes": {}, "roles": {}, "individuals": {}}))
            verdicts = set()
            for model in worlds:
                holds = Meaning(model).meets(statement)
                asked = all(
                    Meaning(it).meets(found.asked)
                    for it in expansions(model, found)
                    if all(map(Meaning(it).meets, found.added))
                )
                verdicts.add(holds)
                self.assertEqual(holds, asked, (keyword, model))
            self.assertEqual(verdicts, {True, False}, keyword)

    def test_more_than_two_individuals(self):
        """As above, of interpretations of three things, where the new role or class has what is told of it alone: that
        is the one that a statement can fail in.
        """
        for keyword in ("SameIndividual", "DifferentIndividuals"):
            statement = Axiom(keyword, ("a", "b", "c"), 1)
            found = reduced(statement, FreshNames({"individuals": {}}))
            for places in itertools.product(range(3), repeat=3):
                own = dict(zip("abc", places))
                for more in ((), (0, 1, 2)):
                    model = told_alone(Model("", 3, {}, {}, own), found, more)
                    self.assertTrue(all(map(Meaning(model).meets, found.added)))
                    holds = Meaning(Model("", 3, {}, {}, own)).meets(statement)
                    if holds or not more:
                        self.assertEqual(Meaning(model).meets(found.asked), holds, (keyword, places, more))

    def test_what_is_not_asked(self):
        with self.assertRaises(NotAsked):
            reduced(Axiom("DisjointObjectProperties", ("r", "s", "t"), 1), FreshNames({"individuals": {}}))

    def test_new_names_are_new(self):
        taken = FreshNames({"classes": {"urn:shq:new:1": None}})
        self.assertEqual(taken.one(), "urn:shq:new:2")


class OwnAnswers(unittest.TestCase):
    """Sets over three axioms, with one or two put in behind them."""

    def test_justifications(self):
        own = "axiom 1 line 1 X\naxiom 2 line 1 X\naxiom 3 line 1 X\n"
        answer = f"justifications 2\n1 2 4\n3 4\n{own}axiom 4 line 9 Y\n"
        wanted = f"justifications 2\n1 2\n3\n{own}"
        self.assertEqual(own_answer(answer, 3, 1), wanted)
        self.assertEqual(own_answer("justifications 1\n4\naxiom 4 line 9 Y\n", 3, 1), "justifications 1\nempty\n")

    def test_a_justification_that_contains_another_one(self):
        self.assertEqual(own_answer("justifications 2\n1 2\n1 4\n", 3, 1), "justifications 1\n1\n")
        self.assertEqual(
            own_answer("partial justifications 2\n1 2\n1 4\nundecided\n", 3, 1),
            "partial justifications 1\n1\nundecided\n",
        )
        self.assertEqual(
            own_answer("partial justifications 1\n1 2\nundecided\n", 3, 1), "partial justifications 0\nundecided\n"
        )

    def test_repairs(self):
        self.assertEqual(own_answer("repairs 3\n1\n2 3\n4\n", 3, 1), "repairs 2\n1\n2 3\n")
        self.assertEqual(own_answer("repairs 2\n4\n5\n", 3, 2), "repairs 0\n")

    def test_reasons_of_individuals(self):
        answer = "instances 1\ninstance <a> justifications 2\n1 4\n2 4\naxiom 1 line 1 X\naxiom 4 line 9 Y\n"
        wanted = "instances 1\ninstance <a> justifications 2\n1\n2\naxiom 1 line 1 X\n"
        self.assertEqual(own_answer(answer, 3, 1), wanted)


class Documents(unittest.TestCase):
    def test_axioms_are_put_in_as_the_last(self):
        data = with_axioms(FILE.encode("utf-8"), ["SubClassOf(:A :B)"]).decode("utf-8")
        self.assertTrue(data.endswith('"has part")\n SubClassOf(:A :B)) # the end\n'))
        self.assertEqual(vocabulary_of(data.encode("utf-8")).axiom_count, vocabulary().axiom_count + 1)

    def test_names_that_stand_in_a_text(self):
        prefixes = vocabulary().prefixes
        data = FILE.encode("utf-8")
        for name, is_there in (("o#SyringePump", True), ("o#Syringe", False), ("o#Pump2", False), ("x/Pump2", True)):
            self.assertEqual(stands_in("http://e.org/" + name, data, prefixes), is_there)
        self.assertTrue(stands_in("http://e.org/o", data, prefixes))


class Asked(unittest.TestCase):
    """What ./shq hands to the program, and says besides."""

    def asked(self, *words, text=FILE):
        said, complaint, status = shq(*words, "budget", "5", data=text.encode("utf-8"), program=TOLD)
        return said.partition("\n"), complaint, status

    def test_questions_of_today_go_as_they_are(self):
        for word in ("SubClassOf(:SyringePump  :Pump)", "ClassAssertion(:Pump :pump_4)"):
            (first, _, rest), complaint, status = self.asked("explain", word)
            self.assertEqual((first, rest, complaint, status), (f"words: explain {word} budget 5", FILE, "", 0))

    def test_names_that_the_file_does_not_have(self):
        for word in ("SubClassOf(:SyringPump owl:Nothing)", "ClassAssertion(:SyringPump :pump_4)"):
            (first, _, rest), complaint, status = self.asked("entails", word)
            self.assertEqual((first, rest, status), (f"words: entails {word} budget 5", FILE, 0))
            self.assertEqual(complaint.count("no class :SyringPump; nearest to it: :SyringePump ('syringe pump')"), 1)
            (first, _, _), complaint, status = self.asked("entails", "--strict", word)
            self.assertEqual((first, status), ("", 10))
            self.assertIn("nearest to it: :SyringePump", complaint)

    def test_questions_of_people(self):
        cases = {
            ("sat", "'syringe pump'"): "sat :SyringePump",
            ("explain", "'syringe pump' SubClassOf Nothing"): "explain SubClassOf(:SyringePump owl:Nothing)",
            (
                "evidence",
                "'has part' Domain 'syringe pump'",
            ): "evidence SubClassOf(ObjectSomeValuesFrom(:hasPart owl:Thing) :SyringePump)",
            ("check", "pump_4 Type 'syringe pump'"): "check ClassAssertion(:SyringePump :pump_4)",
        }
        for given, words in cases.items():
            with self.subTest(given=given):
                budget = () if given[0] == "check" else ("budget", "5")
                said, complaint, status = shq(*given, *budget, data=FILE.encode("utf-8"))
                self.assertEqual((said.splitlines()[0], status), (" ".join(["words:", words, *budget]), 0))
                self.assertIn(f"shq: asked as {words.partition(' ')[2]}", complaint)

    def test_a_name_of_two_things(self):
        (first, _, _), complaint, status = self.asked("sat", "pump")
        self.assertEqual((first, status), ("", 10))
        self.assertIn("pump may be <http://e.org/o#Pump> and <http://e.org/x/Pump2>", complaint)

    def test_damaged_questions_go_to_the_program(self):
        (first, _, _), complaint, _ = self.asked("sat", "syringe (")
        self.assertEqual(first, "words: sat syringe ( budget 5")
        self.assertIn("the question cannot be read", complaint)

    def test_damaged_ontologies_go_to_the_program(self):
        (first, _, rest), complaint, _ = self.asked("sat", "'syringe pump'", text="Ontology(")
        self.assertEqual((first, rest, complaint), ("words: sat 'syringe pump' budget 5", "Ontology(", ""))

    def test_axioms_that_are_put_in(self):
        (first, _, rest), complaint, _ = self.asked("entails", "pump_4 SameAs drive_1")
        self.assertIn("words: entails ClassAssertion(<urn:shq:new:", first)
        self.assertRegex(rest, r"\n ClassAssertion\(<urn:shq:new:\d> :pump_4\)\) # the end\n$")
        self.assertIn("one axiom more, as its last: ClassAssertion(", complaint)

    def test_questions_in_files(self):
        with tempfile.TemporaryDirectory() as room:
            path = Path(room) / "question.txt"
            path.write_text("SubClassOf(:SyringePump :Pump)\n", encoding="utf-8")
            wanted = "words: entails SubClassOf(:SyringePump :Pump) budget 5"
            self.assertEqual(self.asked("entails", f"@{path}")[0][0], wanted)
            (first, _, _), complaint, status = self.asked("entails", f"@{room}/other")
            self.assertEqual((first, status), ("", 6))
            self.assertIn("No such file", complaint)
            many = "ObjectUnionOf(" + " :SyringePump" * 11_000 + ")"
            for job, text in (("sat", many), ("entails", f"SubClassOf({many} :Pump)")):
                path.write_text(text, encoding="utf-8")
                (first, _, rest), _, status = self.asked(job, f"@{path}")
                self.assertEqual(status, 0)
                self.assertRegex(first, rf"words: {job} (SubClassOf\()?<urn:shq:new:2001>")
                self.assertIn("EquivalentClasses(<urn:shq:new:2001> Object", rest)

    def test_large_files(self):
        text = FILE.replace(") # the end", "".join(f"Declaration(Class(:C{it}))\n" for it in range(30_000)) + ")")
        (first, _, _), complaint, _ = self.asked("sat", ":SyringePump", text=text)
        self.assertEqual((first, complaint), ("words: sat :SyringePump budget 5", ""))


@needs_program
class WithProgram(unittest.TestCase):
    """Statements of each kind over a small file, with what follows worked out by hand."""

    FILE = """Prefix(:=<http://e.org/>)
Ontology(
SubObjectPropertyOf(:r :s)
TransitiveObjectProperty(:t)
EquivalentClasses(:A ObjectSomeValuesFrom(:r :B))
SubClassOf(:A :C)
ObjectPropertyDomain(:s :D)
ObjectPropertyAssertion(:r :a :b)
ClassAssertion(:B :b)
SameIndividual(:a :e)
ClassAssertion(ObjectComplementOf(:D) :c)
DifferentIndividuals(:d :c :b)
)
"""
    FOLLOW = {
        "r SubPropertyOf s": True,
        "s SubPropertyOf r": False,
        "Transitive: t": True,
        "Transitive: r": False,
        "r Domain D": True,
        "r Range B": False,
        "a s b": True,
        "b s a": False,
        "a Type C": True,
        "a SameAs e": True,
        "a SameAs b": False,
        "a DifferentFrom c": True,
        "a DifferentFrom b": False,
        "SameIndividual: a, e, a": True,
        "SameIndividual: a, e, b": False,
        "DifferentIndividuals: b, c, d": True,
        "DifferentIndividuals: a, b, c": False,
        "A EquivalentTo C": False,
        "A EquivalentTo A and D": True,
        "A DisjointWith not D": True,
        "NegativeObjectPropertyAssertion(s c b)": True,
        "NegativeObjectPropertyAssertion(s b c)": False,
    }

    def test_verdicts(self):
        for statement, follows in self.FOLLOW.items():
            with self.subTest(statement=statement):
                said, _, status = ask("entails", statement, self.FILE)
                self.assertEqual((said.splitlines()[0], status), ("entailed" if follows else "not entailed", 0))

    def test_reasons_and_repairs_are_of_the_file(self):
        said, _, _ = ask("explain", "a DifferentFrom c", self.FILE)
        self.assertEqual(said.splitlines()[:2], ["justifications 1", "1 5 6 9"])
        self.assertEqual(said.count("axiom "), 4)
        said, _, _ = ask("repair", "a DifferentFrom c", self.FILE)
        self.assertEqual(said.splitlines()[:5], ["repairs 4", "1", "5", "6", "9"])
        said, _, _ = ask("explain", "b s a", self.FILE)
        self.assertEqual(said, "justifications 0\n")

    def test_a_long_question(self):
        with tempfile.NamedTemporaryFile("w", encoding="utf-8") as file:
            others = (f"<http://e.org/{at}{'x' * 1000}>" for at in range(150))
            file.write(f"SubClassOf(ObjectIntersectionOf(:A {' '.join(others)}) :C)")
            file.flush()
            said, _, _ = ask("explain", f"@{file.name}", self.FILE)
        self.assertEqual(said.splitlines()[:2], ["justifications 1", "4"])


def ask(job, statement, text):
    """What ./shq prints over the program, says besides, and ends with."""
    command = [sys.executable, TOOLS / "ask", job, statement]
    ran = subprocess.run(command, input=text.encode("utf-8"), capture_output=True, check=False)
    return ran.stdout.decode("utf-8"), ran.stderr.decode("utf-8"), ran.returncode
