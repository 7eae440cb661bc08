"""The rows of the translation from OWL 2, each with what was worked out by hand."""
import unittest

from shq_tools.approximation import ranges
from shq_tools.approximation.display import shown
from shq_tools.approximation.losses import Loss
from shq_tools.approximation.owl import OwlReader
from shq_tools.approximation.text import approximation
from shq_tools.approximation.translation import Strength
from shq_tools.documents import axioms_of, document
from shq_tools.manchester import axiom_text
from shq_tools.names import Names
from shq_tools.prefixes import Prefixes
from shq_tools.tokens import tokens
from shq_tools.trees import trees
from tests.owl_grammar import document as ontology


class ShownNames(Names):
    """Names for tests: the end of the IRI, and of new ones what they mean; none in quotation marks."""

    def of(self, iri):
        return shown(iri, self) or iri.rpartition("/")[2]

    def has_own_form(self, iri):
        return True


def rows_of(*axioms, strength=Strength.LIGHT):
    """What each axiom of a document becomes, in Manchester syntax, sorted; and the losses."""
    found = approximation(ontology(axioms).encode("utf-8"), strength)
    first_line = ontology(["HERE"]).split("\n").index("HERE") + 1
    rows = [[] for _ in axioms]
    for axiom in axioms_of(document(found.data)):
        rows[axiom.line - first_line].append(axiom_text(axiom, ShownNames()))
    return [sorted(it) for it in rows], set(found.losses.lines)


class RowsTest(unittest.TestCase):
    def assert_rows(self, axioms, rows, *losses, strength=Strength.LIGHT):
        """The axioms become these rows, with these losses."""
        found, lost = rows_of(*axioms, strength=strength)
        self.assertEqual(found, [sorted(it) for it in rows])
        self.assertEqual(lost, set(losses))


class Rows(RowsTest):
    def test_what_is_inside_stays(self):
        self.assert_rows(["SubClassOf(:A ObjectMinCardinality(2 :r))"], [["A SubClassOf r min 2"]])

    def test_one_item(self):
        self.assert_rows(["SubClassOf(ObjectIntersectionOf(:A) ObjectUnionOf(:B))"], [["A SubClassOf B"]])

    def test_an_exact_number(self):
        """It stays one, where nothing is lost."""
        axioms = ["SubClassOf(:A ObjectExactCardinality(2 :r ObjectUnionOf(:B)))"]
        self.assert_rows(axioms, [["A SubClassOf r exactly 2 B"]])

    def test_has_value(self):
        rows = [["A SubClassOf r some {a}", "a Type {a}"]]
        self.assert_rows(["SubClassOf(:A ObjectHasValue(:r :a))"], rows, Loss.NOMINAL)

    def test_one_of(self):
        axioms = ["EquivalentClasses(:A ObjectOneOf(:a :b))", "DifferentIndividuals(:a :b)", "ClassAssertion(:B :a)"]
        rows = [
            ["A EquivalentTo {a} or {b}", "a Type {a}", "b Type {b}"],
            ["a DifferentFrom b", "DisjointClasses: {a}, {b}"],
            ["a Type B", "{a} SubClassOf B"],
        ]
        self.assert_rows(axioms, rows, Loss.NOMINAL)

    def test_same_individuals_and_pairs(self):
        axioms = ["SubClassOf(:A ObjectOneOf(:a :b))", "SameIndividual(:a :b)", "ObjectPropertyAssertion(:r :a :b)"]
        rows = [
            ["A SubClassOf {a} or {b}", "a Type {a}", "b Type {b}"],
            ["a SameAs b", "{a} EquivalentTo {b}"],
            ["a r b", "{a} SubClassOf r some {b}"],
        ]
        self.assert_rows(axioms, rows, Loss.NOMINAL)

    def test_negative_assertion(self):
        rows = [["a Type r only (not {b})", "b Type {b}"]]
        self.assert_rows(["NegativeObjectPropertyAssertion(:r :a :b)"], rows, Loss.NOMINAL)

    def test_anonymous_individual(self):
        axioms = ["ClassAssertion(:A _:x)", "ObjectPropertyAssertion(:r :a _:x)"]
        self.assert_rows(axioms, [["_:x Type A"], ["a r _:x"]], Loss.ANONYMOUS)

    def test_inverses(self):
        axioms = [
            "InverseObjectProperties(:r :s)",
            "SubObjectPropertyOf(:r :t)",
            "TransitiveObjectProperty(:r)",
            "ObjectPropertyDomain(:r :A)",
            "ObjectPropertyRange(:r :B)",
            "ObjectPropertyAssertion(:r :a :b)",
            "FunctionalObjectProperty(:u)",
        ]
        rows = [
            ["inverse (r) EquivalentTo s", "r EquivalentTo inverse (s)"],
            ["r SubPropertyOf t", "inverse (r) SubPropertyOf inverse (t)"],
            ["Transitive: r", "Transitive: inverse (r)"],
            ["r Domain A", "inverse (r) Range A"],
            ["r Range B", "inverse (r) Domain B"],
            ["a r b", "b inverse (r) a"],
            ["Functional: u"],
        ]
        self.assert_rows(axioms, rows, Loss.INVERSE)

    def test_symmetric(self):
        self.assert_rows(["SymmetricObjectProperty(:r)"], [["r EquivalentTo inverse (r)"]], Loss.INVERSE)

    def test_an_inverse_in_a_class_expression(self):
        axioms = ["SubClassOf(:A ObjectSomeValuesFrom(ObjectInverseOf(:r) :B))"]
        self.assert_rows(axioms, [["A SubClassOf inverse (r) some B"]], Loss.INVERSE)

    def test_inverse_functional(self):
        axioms = ["InverseFunctionalObjectProperty(:r)", "ObjectPropertyAssertion(:r :a :b)"]
        rows = [["Functional: inverse (r)"], ["a r b", "b inverse (r) a"]]
        self.assert_rows(axioms, rows, Loss.INVERSE_FUNCTIONAL)

    def test_chains(self):
        axioms = [f"SubObjectPropertyOf(ObjectPropertyChain({it})" for it in (":r :r) :r", ":s) :t")]
        self.assert_rows(axioms, [["Transitive: r"], ["s SubPropertyOf t"]])
        self.assert_rows(["SubObjectPropertyOf(ObjectPropertyChain(:r :s) :r)"], [[]], Loss.CHAIN)

    def test_numbers_over_roles_that_are_not_simple(self):
        axioms = [
            "TransitiveObjectProperty(:r)",
            "SubClassOf(:A ObjectMinCardinality(2 :r :B))",
            "SubClassOf(ObjectMaxCardinality(2 :r :B) :A)",
            "SubClassOf(:A ObjectMaxCardinality(0 :r :B))",
            "SubClassOf(:A ObjectMaxCardinality(1 :r :B))",
            "SubClassOf(ObjectMinCardinality(2 :r :B) :A)",
            "FunctionalObjectProperty(:r)",
        ]
        rows = [
            ["Transitive: r"],
            ["A SubClassOf r some B"],
            ["not (r some B) SubClassOf A"],
            ["A SubClassOf not (r some B)"],
            [],
            [],
            [],
        ]
        self.assert_rows(axioms, rows, Loss.COUNTED)

    def test_numbers_beyond_the_limit(self):
        axioms = [
            "SubClassOf(:A ObjectMinCardinality(101 :r :B))",
            "SubClassOf(ObjectMaxCardinality(101 :r :B) :A)",
            "SubClassOf(:A ObjectMaxCardinality(101 :r :B))",
            "SubClassOf(ObjectMinCardinality(101 :r :B) :A)",
        ]
        rows = [["A SubClassOf r min 100 B"], ["r max 100 B SubClassOf A"], [], []]
        self.assert_rows(axioms, rows, Loss.BEYOND_LIMITS)

    def test_bounds_turn_in_complements_and_under_most(self):
        axioms = [
            "TransitiveObjectProperty(:r)",
            "SubClassOf(:A ObjectComplementOf(ObjectMinCardinality(2 :r :B)))",
            "SubClassOf(ObjectComplementOf(ObjectMinCardinality(2 :r :B)) :A)",
            "SubClassOf(:A ObjectMaxCardinality(1 :s ObjectMinCardinality(2 :r :B)))",
            "SubClassOf(ObjectMaxCardinality(1 :s ObjectMinCardinality(2 :r :B)) :A)",
        ]
        rows = [
            ["Transitive: r"],
            [],
            ["not (r some B) SubClassOf A"],
            ["A SubClassOf s max 1 Nothing"],
            ["s max 1 (r some B) SubClassOf A"],
        ]
        self.assert_rows(axioms, rows, Loss.COUNTED)

    def test_a_chain_of_one_role_in_another(self):
        self.assert_rows(["SubObjectPropertyOf(ObjectPropertyChain(:r :r) :s)"], [[]], Loss.CHAIN)

    def test_assertions_on_special_roles(self):
        axioms = [
            "ObjectPropertyAssertion(owl:topObjectProperty :a :b)",
            "NegativeObjectPropertyAssertion(owl:topObjectProperty :a :b)",
            "ObjectPropertyAssertion(owl:bottomObjectProperty :a :b)",
            "NegativeObjectPropertyAssertion(owl:bottomObjectProperty :a :b)",
        ]
        self.assert_rows(axioms, [[], ["a Type Nothing"], ["a Type Nothing"], []])

    def test_loops(self):
        axioms = [
            "SubClassOf(:A ObjectHasSelf(:r))",
            "SubObjectPropertyOf(:r :s)",
            "IrreflexiveObjectProperty(:s)",
            "ReflexiveObjectProperty(:t)",
            "ObjectPropertyAssertion(:r :a :a)",
        ]
        rows = [
            ["A SubClassOf (r Self)", "(r Self) SubClassOf r some (r Self)"],
            ["r SubPropertyOf s", "(r Self) SubClassOf (s Self)", "(s Self) SubClassOf s some (s Self)"],
            ["(s Self) SubClassOf Nothing"],
            ["Thing SubClassOf (t Self)", "(t Self) SubClassOf t some (t Self)"],
            ["a r a", "a Type (r Self)"],
        ]
        self.assert_rows(axioms, rows, Loss.SELF, Loss.DISJOINT_ROLES)

    def test_loops_of_special_roles(self):
        axioms = [
            "SubClassOf(:A ObjectHasSelf(owl:topObjectProperty))",
            "SubClassOf(ObjectHasSelf(owl:topObjectProperty) :A)",
            "SubClassOf(:A ObjectHasSelf(owl:bottomObjectProperty))",
        ]
        self.assert_rows(axioms, [[], ["Thing SubClassOf A"], ["A SubClassOf Nothing"]])

    def test_loops_and_inverses(self):
        """A loop of r is one of its inverse."""
        axioms = ["SubClassOf(:A ObjectHasSelf(:r))", "InverseObjectProperties(:r :s)"]
        rows = [
            ["A SubClassOf (r Self)", *(f"(r Self) SubClassOf {it} some (r Self)" for it in ("r", "inverse (r)"))],
            [
                "r EquivalentTo inverse (s)",
                "inverse (r) EquivalentTo s",
                "(r Self) SubClassOf (s Self)",
                "(s Self) SubClassOf (r Self)",
                "(s Self) SubClassOf s some (s Self)",
                "(s Self) SubClassOf inverse (s) some (s Self)",
            ],
        ]
        self.assert_rows(axioms, rows, Loss.SELF, Loss.INVERSE)

    def test_loops_along_chains(self):
        """Where each role of a chain has a loop, the role into which it leads has one."""
        chains = [":r :s) :t", ":r :r) :u", ":r :s) :s", ":r :v) :t"]
        axioms = [f"SubClassOf(:A ObjectHasSelf({it}))" for it in (":r", ":s")]
        axioms += [f"SubObjectPropertyOf(ObjectPropertyChain({it})" for it in chains]
        rows = [
            ["A SubClassOf (r Self)", "(r Self) SubClassOf r some (r Self)"],
            ["A SubClassOf (s Self)", "(s Self) SubClassOf s some (s Self)"],
            ["(r Self) and (s Self) SubClassOf (t Self)", "(t Self) SubClassOf t some (t Self)"],
            ["(r Self) SubClassOf (u Self)", "(u Self) SubClassOf u some (u Self)"],
            [],
            [],
        ]
        self.assert_rows(axioms, rows, Loss.SELF, Loss.CHAIN)

    def test_loops_of_disjoint_roles(self):
        axioms = [f"SubClassOf(:A ObjectHasSelf({it}))" for it in (":r", ":s")]
        axioms += [f"DisjointObjectProperties(:r {it})" for it in (":s", ":t")]
        rows = [
            ["A SubClassOf (r Self)", "(r Self) SubClassOf r some (r Self)"],
            ["A SubClassOf (s Self)", "(s Self) SubClassOf s some (s Self)"],
            ["DisjointClasses: (r Self), (s Self)"],
            [],
        ]
        self.assert_rows(axioms, rows, Loss.SELF, Loss.DISJOINT_ROLES)

    def test_a_loop_of_an_individual_with_a_class(self):
        axioms = [
            "SubClassOf(:A ObjectHasSelf(:r))",
            "SubClassOf(:B ObjectOneOf(:a))",
            "ObjectPropertyAssertion(:r :a :a)",
            "ObjectPropertyAssertion(:r :a :b)",
        ]
        rows = [
            ["A SubClassOf (r Self)", "(r Self) SubClassOf r some (r Self)"],
            ["B SubClassOf {a}", "a Type {a}"],
            ["a r a", "a Type (r Self)", "{a} SubClassOf (r Self)", "{a} SubClassOf r some {a}"],
            ["a r b"],
        ]
        self.assert_rows(axioms, rows, Loss.SELF, Loss.NOMINAL)

    def test_equivalent_roles(self):
        """What one of them has, an inverse or a loop, the other one has."""
        axioms = [
            "EquivalentObjectProperties(:r :s)",
            "SubClassOf(:A ObjectSomeValuesFrom(ObjectInverseOf(:r) :B))",
            "SubClassOf(:A ObjectHasSelf(:s))",
            "EquivalentObjectProperties(:t :t)",
        ]
        back = [f"({it} Self) SubClassOf {role} some ({it} Self)" for it in "rs" for role in (it, f"inverse ({it})")]
        rows = [
            ["r EquivalentTo s", "inverse (r) EquivalentTo inverse (s)", "(r Self) SubClassOf (s Self)",
             "(s Self) SubClassOf (r Self)", *back[:2]],
            ["A SubClassOf inverse (r) some B"],
            ["A SubClassOf (s Self)", *back[2:]],
            ["t EquivalentTo t"],
        ]
        self.assert_rows(axioms, rows, Loss.INVERSE, Loss.SELF)

    def test_an_inverse_in_a_role_axiom_is_lost_in_part(self):
        """u in the inverse of t: what :A leads to by u leads back by t, so :A is below :C, and no row says it."""
        rows = ["u SubPropertyOf inverse (t)"], ["A SubClassOf u some B"], ["B SubClassOf t only C"]
        for keyword in ("SubObjectPropertyOf", "EquivalentObjectProperties"):
            axioms = [
                f"{keyword}(:u ObjectInverseOf(:t))",
                "SubClassOf(:A ObjectSomeValuesFrom(:u :B))",
                "SubClassOf(:B ObjectAllValuesFrom(:t :C))",
            ]
            self.assertEqual(rows_of(*axioms)[1], {Loss.INVERSE})
            self.assertEqual(rows_of(*axioms, strength=Strength.FULL)[1], {Loss.INVERSE_IN_FULL})
        self.assert_rows(axioms[1:], rows[1:])
        transitive = ["TransitiveObjectProperty(ObjectInverseOf(:r))"]
        self.assert_rows(transitive, [["Transitive: r", "Transitive: inverse (r)"]])

    def test_disjoint_roles_by_inverses(self):
        """By u, which is in the inverse of t, b leads to a; so by t a leads to b, as it does by s."""
        axioms = [
            "DisjointObjectProperties(:s :t)",
            "SubObjectPropertyOf(:u ObjectInverseOf(:t))",
            "ObjectPropertyAssertion(:u :b :a)",
            "ObjectPropertyAssertion(:s :a :b)",
        ]
        rows = [
            ["b Type {b}", "s some {b} SubClassOf t only (not {b})"],
            ["u SubPropertyOf inverse (t)", "inverse (u) SubPropertyOf t"],
            ["b u a", "a inverse (u) b"],
            ["a s b"],
        ]
        self.assert_rows(axioms, rows, Loss.DISJOINT_ROLES, Loss.NOMINAL, Loss.INVERSE)

    def test_asymmetric_roles(self):
        axioms = [
            "AsymmetricObjectProperty(:r)",
            "ObjectPropertyAssertion(:r :a :b)",
            "ObjectPropertyAssertion(:r :b :a)",
            "SubClassOf(:A ObjectHasSelf(:r))",
        ]
        rows = [
            ["a Type {a}", "b Type {b}", "{a} SubClassOf r only ((not {b}) or (r only (not {a})))",
             "(r Self) SubClassOf Nothing"],
            ["a r b", "{a} SubClassOf r some {b}"],
            ["b r a", "{b} SubClassOf r some {a}"],
            ["A SubClassOf (r Self)", "(r Self) SubClassOf r some (r Self)"],
        ]
        self.assert_rows(axioms, rows, Loss.DISJOINT_ROLES, Loss.NOMINAL, Loss.SELF)

    def test_disjoint_roles(self):
        axioms = [
            "DisjointObjectProperties(:r :s)",
            "SubObjectPropertyOf(:t :s)",
            "ObjectPropertyAssertion(:r :a :b)",
            "ObjectPropertyAssertion(:t :a :b)",
            "ObjectPropertyAssertion(:t :a :c)",
        ]
        rows = [
            ["b Type {b}", "r some {b} SubClassOf s only (not {b})"],
            ["t SubPropertyOf s"],
            ["a r b"],
            ["a t b"],
            ["a t c"],
        ]
        self.assert_rows(axioms, rows, Loss.DISJOINT_ROLES, Loss.NOMINAL)

    def test_the_role_that_leads_everywhere(self):
        axioms = [
            "SubClassOf(:A ObjectAllValuesFrom(owl:topObjectProperty :B))",
            "SubClassOf(ObjectSomeValuesFrom(owl:topObjectProperty :B) :A)",
            "SubClassOf(:A ObjectSomeValuesFrom(owl:topObjectProperty :B))",
            "SubClassOf(ObjectAllValuesFrom(owl:topObjectProperty :B) :A)",
            "SubClassOf(:A ObjectSomeValuesFrom(owl:bottomObjectProperty :B))",
            "SubObjectPropertyOf(:r owl:topObjectProperty)",
            "SubObjectPropertyOf(:r owl:bottomObjectProperty)",
            "SubObjectPropertyOf(owl:topObjectProperty :r)",
            "ObjectPropertyDomain(owl:topObjectProperty :A)",
        ]
        rows = [
            ["A SubClassOf B"],
            ["B SubClassOf A"],
            [],
            [],
            ["A SubClassOf Nothing"],
            [],
            ["r some Thing SubClassOf Nothing"],
            [],
            ["Thing SubClassOf A"],
        ]
        self.assert_rows(axioms, rows, Loss.TOP_ROLE)

    def test_what_is_left_out(self):
        axioms = ["HasKey(:A () (:p))", "Import(<http://e.org/x>)", "DLSafeRule(Body() Head())"]
        self.assert_rows(axioms, [[], [], []], Loss.KEY, Loss.IMPORT, Loss.RULE)

    def test_an_equivalence_is_split_where_one_side_cannot_be_had(self):
        axioms = ["TransitiveObjectProperty(:r)", "EquivalentClasses(:A ObjectMinCardinality(2 :r :B))"]
        self.assert_rows(axioms, [["Transitive: r"], ["A SubClassOf r some B"]], Loss.COUNTED)


    def test_what_says_nothing_is_left_out(self):
        axioms = [
            "EquivalentClasses(ObjectUnionOf(:A))",
            "EquivalentClasses(:A ObjectUnionOf(:A))",
            "SubClassOf(ObjectUnionOf(:A) :A)",
            "DisjointClasses(ObjectUnionOf(:A) owl:Nothing)",
            "DisjointObjectProperties(:r owl:bottomObjectProperty)",
        ]
        self.assert_rows(axioms, [[]] * 5)

    def test_equal_classes_of_which_two_can_be_had(self):
        """What is between the others is said of the first one alone."""
        axioms = ["TransitiveObjectProperty(:r)", "EquivalentClasses(:A ObjectMinCardinality(2 :r :B) :C)"]
        rows = ["A SubClassOf r some B", "A SubClassOf C", "C SubClassOf A"]
        self.assert_rows(axioms, [["Transitive: r"], rows], Loss.COUNTED)

    def test_loops_of_a_symmetric_role(self):
        """It says nothing of them that they do not say themselves."""
        axioms = ["SymmetricObjectProperty(:r)", "SubClassOf(:A ObjectHasSelf(:r))"]
        loops = [f"(r Self) SubClassOf {it} some (r Self)" for it in ("r", "inverse (r)")]
        rows = [["r EquivalentTo inverse (r)"], ["A SubClassOf (r Self)", *loops]]
        self.assert_rows(axioms, rows, Loss.INVERSE, Loss.SELF)


CHAIN, IRREGULAR = "SubObjectPropertyOf(ObjectPropertyChain", [Loss.CHAIN_IN_FULL]


class LossesTest(unittest.TestCase):
    """What is said to be lost, axiom by axiom."""

    # axioms, with what the light form loses, and what the full one does
    LOSSES = [
        *((f"{it}ObjectProperty(owl:topObjectProperty)", (), ()) for it in ("Transitive", "Symmetric", "Reflexive")),
        *((f"{it}ObjectProperty(owl:bottomObjectProperty)", (), ())
          for it in ("Transitive", "Symmetric", "Irreflexive", "Asymmetric", "Functional", "InverseFunctional")),
        *((f"ObjectProperty{it}(owl:bottomObjectProperty :A)", (), ()) for it in ("Domain", "Range")),
        ("ObjectPropertyAssertion(owl:topObjectProperty :a :b)", (), ()),
        ("NegativeObjectPropertyAssertion(owl:bottomObjectProperty :a :b)", (), ()),
        ("SubObjectPropertyOf(:r owl:topObjectProperty)", (), ()),
        ("SubObjectPropertyOf(owl:topObjectProperty :r)", [Loss.TOP_ROLE], [Loss.TOP_ROLE]),
        ("FunctionalObjectProperty(owl:topObjectProperty)", [Loss.TOP_ROLE], [Loss.TOP_ROLE]),
        ("SubClassOf(:A ObjectAllValuesFrom(owl:topObjectProperty :B))", [Loss.TOP_ROLE], [Loss.TOP_ROLE]),
        ("SubClassOf(ObjectSomeValuesFrom(owl:topObjectProperty owl:Thing) :A)", (), ()),
        ("SubClassOf(:A ObjectMaxCardinality(1 owl:bottomObjectProperty))", (), ()),
        ("TransitiveObjectProperty(:r) FunctionalObjectProperty(:r)", [Loss.COUNTED], [Loss.COUNTED]),
        ("TransitiveObjectProperty(:r) SubClassOf(:A ObjectMaxCardinality(1 :r))", [Loss.COUNTED], [Loss.COUNTED]),
        ("SubClassOf(:A ObjectMaxCardinality(101 :r))", [Loss.BEYOND_LIMITS], [Loss.BEYOND_LIMITS]),
        ("SubClassOf(:A ObjectOneOf(:a))", [Loss.NOMINAL], [Loss.NOMINAL]),
        ("SubClassOf(:A ObjectHasSelf(:r))", [Loss.SELF], [Loss.SELF]),
        ("IrreflexiveObjectProperty(:r)", [Loss.DISJOINT_ROLES], [Loss.DISJOINT_ROLES]),
        ("AsymmetricObjectProperty(:r)", [Loss.DISJOINT_ROLES], [Loss.DISJOINT_ROLES]),
        ("DisjointObjectProperties(:r :s)", [Loss.DISJOINT_ROLES], [Loss.DISJOINT_ROLES]),
        ("InverseFunctionalObjectProperty(:r)", [Loss.INVERSE_FUNCTIONAL], [Loss.INVERSE_FUNCTIONAL]),
        ("InverseObjectProperties(:r :s)", [Loss.INVERSE], ()),
        ("SymmetricObjectProperty(:r)", [Loss.INVERSE], [Loss.INVERSE_IN_FULL]),
        ("SubClassOf(:A ObjectSomeValuesFrom(ObjectInverseOf(:r) :B))", [Loss.INVERSE], ()),
        ("SubClassOf(:A ObjectMaxCardinality(1 ObjectInverseOf(:r)))", [Loss.INVERSE], [Loss.INVERSE_IN_FULL]),
        (f"{CHAIN}(:r :s) :t)", [Loss.CHAIN], ()),
        # chains in a regular order, and in none
        (f"{CHAIN}(:r :s) :r)", [Loss.CHAIN], ()),
        (f"{CHAIN}(:s :r) :r)", [Loss.CHAIN], ()),
        (f"{CHAIN}(:s :t) :r) SubObjectPropertyOf(:s :r)", [Loss.CHAIN], ()),
        (f"{CHAIN}(:s :t) :r) {CHAIN}(:r :t) :u)", [Loss.CHAIN], ()),
        (f"{CHAIN}(:s :r :s) :r)", [Loss.CHAIN], IRREGULAR),
        (f"{CHAIN}(:s :t) :r) SubObjectPropertyOf(:r :s)", [Loss.CHAIN], IRREGULAR),
        (f"{CHAIN}(:s :t) :r) EquivalentObjectProperties(:r :u :s)", [Loss.CHAIN], IRREGULAR),
        (f"{CHAIN}(:s :t) :r) SubObjectPropertyOf(:r :u) SubObjectPropertyOf(:u :s)", [Loss.CHAIN], IRREGULAR),
        (f"{CHAIN}(:s :t) :r) {CHAIN}(:t :r) :s)", [Loss.CHAIN], IRREGULAR),
        # of equal roles each needs a class for the other one, and so on
        (f"{CHAIN}(:r :t) :r) EquivalentObjectProperties(:r :s) SubClassOf(:A ObjectAllValuesFrom(:s :B))",
         [Loss.CHAIN], IRREGULAR),
        (" ".join([f"{CHAIN}(:s :t) :r)", *(f"SubClassOf(:A ObjectAllValuesFrom(:r :B{it}))" for it in range(40))]),
         [Loss.CHAIN], ()),
        (f"{CHAIN}(:s :t) :r) SubClassOf(:A ObjectMaxCardinality(1 :r))", [Loss.CHAIN], [Loss.COUNTED]),
        (f"{CHAIN}(:s :t) :r) SubObjectPropertyOf(:r :u) FunctionalObjectProperty(:u)", [Loss.CHAIN], [Loss.COUNTED]),
        (f"{CHAIN}(:r :r) :r)", (), ()),
        ('SubClassOf(:A DataHasValue(:p "x"))', [Loss.DATA], [Loss.DATA]),
        ("SubClassOf(:A DataSomeValuesFrom(:p :q xsd:integer))", [Loss.DATA], [Loss.DATA]),
        (" ".join(["FunctionalDataProperty(:p)", *(f'SubClassOf(:A DataHasValue(:p "{it}"))' for it in range(201))]),
         [Loss.DATA, Loss.MANY_VALUES], [Loss.DATA, Loss.MANY_VALUES]),
        ("FunctionalDataProperty(owl:topDataProperty)", [Loss.DATA], [Loss.DATA]),
        ("DatatypeDefinition(:D xsd:string)", [Loss.DATATYPE], [Loss.DATATYPE]),
        ("ClassAssertion(:A _:x)", [Loss.ANONYMOUS], [Loss.ANONYMOUS]),
        ("HasKey(:A () (:p))", [Loss.KEY], [Loss.KEY]),
    ]

    def test_losses(self):
        for axioms, light, full in self.LOSSES:
            for strength, losses in ((Strength.LIGHT, light), (Strength.FULL, full)):
                with self.subTest(axioms=axioms, strength=strength):
                    found = approximation(ontology([axioms]).encode("utf-8"), strength)
                    self.assertEqual(set(found.losses.lines), set(losses))
                    self.assertEqual(found.losses.is_exact, not losses or losses == [Loss.ANONYMOUS])


class FullRowsTest(RowsTest):
    """Rows of the full form."""

    def assert_full(self, axioms, rows, *losses):
        self.assert_rows(axioms, rows, *losses, strength=Strength.FULL)

    def test_a_chain_into_another_role(self):
        axioms = [
            "SubObjectPropertyOf(ObjectPropertyChain(:s :t) :r)",
            "SubClassOf(:A ObjectAllValuesFrom(:r :B))",
            "SubClassOf(ObjectSomeValuesFrom(:r :C) :D)",
        ]
        rows = [
            ["(r only B) SubClassOf s only (t only B)", "s some (t some C) SubClassOf (r some C)"],
            ["A SubClassOf (r only B)", "(r only B) SubClassOf r only B"],
            ["(r some C) SubClassOf D", "r some C SubClassOf (r some C)"],
        ]
        self.assert_full(axioms, rows)

    def test_a_chain_that_begins_with_its_role(self):
        axioms = ["SubObjectPropertyOf(ObjectPropertyChain(:r :s) :r)", "SubClassOf(:A ObjectAllValuesFrom(:r :B))"]
        led_to = "(inverse (r) some (r only B))"
        rows = [
            [f"{led_to} SubClassOf s only {led_to}"],
            ["A SubClassOf (r only B)", f"(r only B) SubClassOf r only {led_to}", f"{led_to} SubClassOf B"],
        ]
        self.assert_full(axioms, rows)

    def test_a_chain_that_begins_with_its_role_and_some(self):
        axioms = ["SubObjectPropertyOf(ObjectPropertyChain(:r :s) :r)", "SubClassOf(ObjectSomeValuesFrom(:r :B) :A)"]
        led_to = "(inverse (r) only (r some B))"
        rows = [
            [f"s some {led_to} SubClassOf {led_to}"],
            ["(r some B) SubClassOf A", f"B SubClassOf {led_to}", f"r some {led_to} SubClassOf (r some B)"],
        ]
        self.assert_full(axioms, rows)

    def test_a_chain_that_ends_with_its_role(self):
        axioms = ["SubObjectPropertyOf(ObjectPropertyChain(:s :r) :r)", "SubClassOf(ObjectSomeValuesFrom(:r :B) :A)"]
        rows = [
            ["s some (r some B) SubClassOf (r some B)"],
            ["(r some B) SubClassOf A", "r some B SubClassOf (r some B)"],
        ]
        self.assert_full(axioms, rows)

    def test_a_chain_that_ends_with_its_role_and_all(self):
        axioms = ["SubObjectPropertyOf(ObjectPropertyChain(:s :r) :r)", "SubClassOf(:A ObjectAllValuesFrom(:r :B))"]
        rows = [
            ["(r only B) SubClassOf s only (r only B)"],
            ["A SubClassOf (r only B)", "(r only B) SubClassOf r only B"],
        ]
        self.assert_full(axioms, rows)

    def test_a_role_at_the_end_of_a_chain_is_counted(self):
        axioms = ["SubObjectPropertyOf(ObjectPropertyChain(:s :t) :r)", "SubClassOf(:A ObjectMaxCardinality(1 :r))"]
        self.assert_full(axioms, [[], ["A SubClassOf r max 1"]], Loss.COUNTED)

    def test_a_chain_into_a_role_below(self):
        axioms = [
            "SubObjectPropertyOf(:r :u)",
            "SubObjectPropertyOf(ObjectPropertyChain(:s :t) :r)",
            "SubClassOf(:A ObjectAllValuesFrom(:u :B))",
        ]
        rows = [
            ["r SubPropertyOf u", "(u only B) SubClassOf (r only B)"],
            ["(r only B) SubClassOf s only (t only B)"],
            ["A SubClassOf (u only B)", "(u only B) SubClassOf u only B", "(r only B) SubClassOf r only B"],
        ]
        self.assert_full(axioms, rows)

    def test_chains_in_no_regular_order_are_left_out(self):
        axioms = ["SubObjectPropertyOf(ObjectPropertyChain(:s :r :s) :r)", "SubClassOf(:A ObjectAllValuesFrom(:r :B))"]
        self.assert_full(axioms, [[], ["A SubClassOf r only B"]], Loss.CHAIN_IN_FULL)

    def test_inverses(self):
        axioms = [
            "InverseObjectProperties(:r :s)",
            "SubClassOf(:A ObjectAllValuesFrom(:r :B))",
            "SubClassOf(ObjectSomeValuesFrom(:r :C) :D)",
        ]
        rows = [
            ["inverse (r) EquivalentTo s", "r EquivalentTo inverse (s)"],
            ["A SubClassOf (r only B)", "(r only B) SubClassOf r only B", "inverse (r) some (r only B) SubClassOf B"],
            ["(r some C) SubClassOf D", "r some C SubClassOf (r some C)", "C SubClassOf inverse (r) only (r some C)"],
        ]
        self.assert_full(axioms, rows)

    def test_transitive_roles_with_inverses(self):
        axioms = ["TransitiveObjectProperty(:r)", "SubClassOf(:A ObjectAllValuesFrom(ObjectInverseOf(:r) :B))"]
        rows = [
            [
                "Transitive: r",
                "Transitive: inverse (r)",
                "(inverse (r) only B) SubClassOf inverse (r) only (inverse (r) only B)",
                "r some (inverse (r) only B) SubClassOf (inverse (r) only B)",
            ],
            [
                "A SubClassOf (inverse (r) only B)",
                "(inverse (r) only B) SubClassOf inverse (r) only B",
                "r some (inverse (r) only B) SubClassOf B",
            ],
        ]
        self.assert_full(axioms, rows, Loss.INVERSE_IN_FULL)


def integers(facet, number):
    return f'DatatypeRestriction(xsd:integer xsd:{facet} "{number}"^^xsd:integer)'


class DataRows(RowsTest):
    def test_a_value_in_a_range(self):
        axioms = [
            'SubClassOf(:A DataHasValue(:p "7"^^xsd:integer))',
            f"SubClassOf(DataSomeValuesFrom(:p {integers('minInclusive', 5)}) :B)",
            f"SubClassOf(DataSomeValuesFrom(:p {integers('minInclusive', 8)}) :C)",
        ]
        rows = [
            ["A SubClassOf (p value 7)"],
            ["(p some integer[>= 5]) SubClassOf B", "(p value 7) SubClassOf (p some integer[>= 5])"],
            ["(p some integer[>= 8]) SubClassOf C", "(p some integer[>= 8]) SubClassOf (p some integer[>= 5])"],
        ]
        self.assert_rows(axioms, rows, Loss.DATA)

    def test_all_in_a_range(self):
        axioms = ['SubClassOf(:A DataHasValue(:p "x"))', "SubClassOf(:B DataAllValuesFrom(:p xsd:integer))"]
        rows = [
            ['A SubClassOf (p value "x")'],
            ["B SubClassOf not (p some (not integer))", '(p value "x") SubClassOf (p some (not integer))'],
        ]
        self.assert_rows(axioms, rows, Loss.DATA)

    def test_functional(self):
        axioms = [
            'SubClassOf(:A DataHasValue(:p "1"^^xsd:integer))',
            'SubClassOf(:B DataHasValue(:p "1.0"^^xsd:decimal))',
            'SubClassOf(:C DataHasValue(:p "2"^^xsd:integer))',
            "FunctionalDataProperty(:p)",
        ]
        rows = [
            ["A SubClassOf (p value 1)"],
            ["B SubClassOf (p value 1)"],
            ["C SubClassOf (p value 2)"],
            ["(p min 2) SubClassOf Nothing", "DisjointClasses: (p value 1), (p value 2)"],
        ]
        self.assert_rows(axioms, rows, Loss.DATA)

    def test_ranges_of_a_functional_property(self):
        axioms = [
            f"SubClassOf(:A DataSomeValuesFrom(:p {integers('maxInclusive', 1)}))",
            f"SubClassOf(:B DataSomeValuesFrom(:p {integers('minExclusive', 1)}))",
            "FunctionalDataProperty(:p)",
        ]
        low, high = "(p some integer[<= 1])", "(p some integer[> 1])"
        rows = [
            [f"A SubClassOf {low}"],
            [f"B SubClassOf {high}"],
            [
                "(p min 2) SubClassOf Nothing",
                f"{low} SubClassOf not (p some (not integer[<= 1]))",
                f"{high} SubClassOf not (p some (not integer[> 1]))",
                f"{low} SubClassOf (p some (not integer[> 1]))",
                f"{high} SubClassOf (p some (not integer[<= 1]))",
            ],
        ]
        self.assert_rows(axioms, rows, Loss.DATA)

    def test_domain_range_and_inclusion(self):
        axioms = [
            'SubClassOf(:A DataHasValue(:q "x"))',
            "SubDataPropertyOf(:q :p)",
            "DataPropertyDomain(:p :B)",
            "DataPropertyRange(:p xsd:integer)",
        ]
        rows = [
            ['A SubClassOf (q value "x")'],
            ['(q value "x") SubClassOf (p value "x")'],
            ["(p some Literal) SubClassOf B"],
            ["(p some (not integer)) SubClassOf Nothing", '(p value "x") SubClassOf (p some (not integer))',
             "(p some (not integer)) SubClassOf (p some Literal)"],
        ]
        self.assert_rows(axioms, rows, Loss.DATA)

    def test_numbers(self):
        axioms = ["SubClassOf(:A DataExactCardinality(1 :p))", "SubClassOf(:B DataMaxCardinality(2 :p))"]
        rows = [
            ["A SubClassOf (p some Literal) and (not (p min 2))", "(p min 2) SubClassOf (p some Literal)"],
            ["B SubClassOf not (p min 3)", "(p min 3) SubClassOf (p min 2)"],
        ]
        self.assert_rows(axioms, rows, Loss.DATA)

    def test_numbers_that_are_not_told_apart(self):
        """A million values more or less are two classes; numbers of more digits than are read are none."""
        axioms = [
            "SubClassOf(:A DataMinCardinality(1000001 :p))",
            "SubClassOf(DataMinCardinality(2000001 :p) :B)",
            f"SubClassOf(:A DataMinCardinality({10**18} :p))",
            f"SubClassOf(DataMinCardinality({10**18 + 1} :p) :B)",
            f"SubClassOf(DataMaxCardinality({10**18} :p) :B)",
        ]
        rows = [
            ["A SubClassOf (p min 1000001)"],
            ["(p min 2000001) SubClassOf B", "(p min 2000001) SubClassOf (p min 1000001)"],
            [],
            [],
            [],
        ]
        self.assert_rows(axioms, rows, Loss.DATA, Loss.BEYOND_LIMITS)

    def test_the_property_that_has_all_values(self):
        """Everything has more values than one of it. Where a row says nothing of that, it is lost."""
        functional = ["FunctionalDataProperty(owl:topDataProperty)", "SubDataPropertyOf(:p :q)"]
        self.assert_rows(functional, [["Thing SubClassOf Nothing"], []], Loss.DATA)
        self.assert_rows(["SubDataPropertyOf(owl:topDataProperty owl:bottomDataProperty)"], [[]], Loss.DATA)

    def test_a_range_and_its_complement(self):
        axioms = [
            "SubClassOf(:A DataSomeValuesFrom(:p xsd:integer))",
            "SubClassOf(:B DataAllValuesFrom(:p xsd:integer))",
            "SubClassOf(:C DataSomeValuesFrom(:p rdfs:Literal))",
        ]
        below_literal = [f"(p some {it}) SubClassOf (p some Literal)" for it in ("integer", "(not integer)")]
        rows = [
            ["A SubClassOf (p some integer)", "(p some Literal) SubClassOf (p some integer) or (p some (not integer))"],
            ["B SubClassOf not (p some (not integer))"],
            ["C SubClassOf (p some Literal)", *below_literal],
        ]
        self.assert_rows(axioms, rows, Loss.DATA)

    def test_assertions(self):
        axioms = ['DataPropertyAssertion(:p :a "x"@en)', 'NegativeDataPropertyAssertion(:p :b "x"@en)']
        rows = [['a Type (p value "x"@en)'], ['b Type not (p value "x"@en)']]
        self.assert_rows(axioms, rows, Loss.DATA)

    def test_disjoint_properties(self):
        axioms = [f'SubClassOf(:A DataHasValue({it} "x"))' for it in (":p", ":q")] + ["DisjointDataProperties(:p :q)"]
        rows = [['A SubClassOf (p value "x")'], ['A SubClassOf (q value "x")'],
                ['DisjointClasses: (q value "x"), (p value "x")']]
        self.assert_rows(axioms, rows, Loss.DATA)

    def test_datatype_definition(self):
        axioms = ["SubClassOf(:A DataSomeValuesFrom(:p :D))", "DatatypeDefinition(:D xsd:string)"]
        rows = [["A SubClassOf (p some D)"], ["(p some D) EquivalentTo (p some string)"]]
        self.assert_rows(axioms, rows, Loss.DATA, Loss.DATATYPE)


class Ranges(unittest.TestCase):
    """What is certain of data ranges, by the "OWL 2 Structural Specification"."""

    def read(self, text):
        """A data range, or a literal, of a text."""
        items = trees(tokens(text.encode("utf-8"))[0], 1)
        reader = OwlReader(Prefixes())
        return reader.literal(items[0]) if items[0].kind == "literal" else ranges.normal(reader.range_of(items[0]))

    def test_values_in_ranges(self):
        low = 'DatatypeRestriction(xsd:integer xsd:maxExclusive "3"^^xsd:integer)'
        for of, literal, wanted in [
            ("xsd:integer", '"1.0"^^xsd:decimal', True),
            ("xsd:integer", '"1.5"^^xsd:decimal', False),
            ("xsd:integer", '"1"^^xsd:float', None),
            ("xsd:byte", '"300"^^xsd:integer', False),
            ("xsd:string", '"x"@en', False),
            ("rdf:PlainLiteral", '"x"@en', True),
            (":other", '"x"', None),
            (low, '"2.5"^^xsd:decimal', False),
            (low, '"2"^^xsd:integer', True),
            (low, '"3"^^xsd:integer', False),
            (f"DataComplementOf({low})", '"x"', True),
            ('DataOneOf("1"^^xsd:integer "y"^^:other)', '"2"^^xsd:integer', None),
            ('DataOneOf("1"^^xsd:integer "y")', '"01"^^xsd:short', True),
            ("rdfs:Literal", '"y"^^:other', True),
        ]:
            with self.subTest(of=of, literal=literal):
                of = of.replace(":other", "<http://e.org/other>")
                literal = literal.replace(":other", "<http://e.org/other>")
                self.assertIs(ranges.has(self.read(of), self.read(literal)), wanted)

    def test_parts_and_ranges_apart(self):
        def between(datatype, least, greatest):
            return f"DatatypeRestriction({datatype} xsd:minExclusive {least} xsd:maxExclusive {greatest})"

        one, two, three = (f'"{it}"^^xsd:integer' for it in (1, 2, 3))
        only_two = f"DatatypeRestriction(xsd:integer xsd:minInclusive {two} xsd:maxInclusive {two})"
        for a, b, is_part, are_apart in [
            ("xsd:byte", "xsd:integer", True, False),
            ("xsd:integer", "xsd:byte", False, False),
            ("xsd:integer", "xsd:decimal", True, False),
            ("xsd:decimal", "xsd:integer", False, False),
            ("xsd:integer", "xsd:string", False, True),
            ("xsd:double", "xsd:decimal", False, True),
            ("xsd:integer", "<http://e.org/other>", False, False),
            (between("xsd:integer", one, three), "xsd:positiveInteger", True, False),
            (between("xsd:integer", one, two), "xsd:string", False, True),
            (between("xsd:integer", one, two), between("xsd:integer", one, three), True, True),
            (between("xsd:integer", one, three), between("xsd:integer", one, three), True, False),
            (between("xsd:decimal", one, three), between("xsd:integer", one, three), False, False),
            (between("xsd:decimal", one, two), between("xsd:decimal", two, three), False, True),
            (only_two, only_two, True, False),
            ("xsd:integer", "DataComplementOf(xsd:string)", True, False),
            ("DataComplementOf(xsd:decimal)", "DataComplementOf(xsd:integer)", True, False),
            ("DataIntersectionOf(xsd:integer xsd:string)", "xsd:boolean", True, True),
        ]:
            with self.subTest(one=a, other=b):
                pair = self.read(a), self.read(b)
                self.assertEqual((ranges.is_part(*pair), ranges.are_apart(*pair)), (is_part, are_apart))


class Texts(unittest.TestCase):
    def test_lines_stay(self):
        axioms = ["SubClassOf(:A\n  ObjectHasValue(:r :a)\n)", "SubClassOf(:B :C) # a comment", "HasKey(:A ()\n(:p))"]
        text = ontology(axioms)
        found = approximation(text.encode("utf-8")).data.decode("utf-8")
        self.assertEqual(found.count("\n"), text.count("\n"))
        lines = found.split("\n")
        self.assertTrue(lines[4].endswith("ObjectOneOf(%3Chttp://e.org/a%3E)>))"), lines[4])
        self.assertEqual(lines[5:8], ["", "", "SubClassOf(:B :C) # a comment"])
        self.assertEqual(lines[8:], ["", "", ")", ""])

    def test_a_name_of_the_file_is_not_taken(self):
        inner = "urn:owl2-as-shq:ObjectOneOf(%3Chttp://e.org/a%3E)"
        text = ontology([f"SubClassOf(<{inner}> :A)", "SubClassOf(:B ObjectOneOf(:a))"])
        found = approximation(text.encode("utf-8")).data.decode("utf-8")
        self.assertIn("SubClassOf(<http://e.org/B> <urn:owl2-as-shq-2:ObjectOneOf(%3Chttp://e.org/a%3E)>)", found)

    def test_new_names_have_inverses_as_owl_writes_them(self):
        axioms = ["SubObjectPropertyOf(ObjectPropertyChain(ObjectInverseOf(:r) :s) ObjectInverseOf(:r))",
                  "SubClassOf(:A ObjectAllValuesFrom(ObjectInverseOf(:r) :B))"]
        found = approximation(ontology(axioms).encode("utf-8"), Strength.FULL).data.decode("utf-8")
        all_of = "ObjectAllValuesFrom(ObjectInverseOf(%3Chttp://e.org/r%3E)%20%3Chttp://e.org/B%3E)"
        self.assertIn(f"<urn:owl2-as-shq:{all_of}>", found)
        # what the inverse leads back from is what the role itself leads to
        self.assertIn(f"<urn:owl2-as-shq:ObjectSomeValuesFrom(%3Chttp://e.org/r%3E%20{all_of})>", found)

    def test_what_is_inside_stays_byte_for_byte(self):
        text = ontology(['SubClassOf(Annotation(:n "é") :A  ObjectUnionOf(:B :C)) # x', "ClassAssertion(:A :a)"])
        self.assertEqual(approximation(text.encode("utf-8")).data, text.encode("utf-8"))

    def test_what_is_damaged_stays(self):
        text = ontology(["SubClassOf(:A)", "SubClassOf(:A x:B)", "SubClassOf(:A ObjectOneOf(:a))"])
        found = approximation(text.encode("utf-8")).data.decode("utf-8").split("\n")
        self.assertEqual(found[4:6], ["SubClassOf(:A)", "SubClassOf(:A x:B)"])

    def test_what_stands_behind_stays(self):
        text = ontology(["SubClassOf(:A ObjectOneOf(:a))"]) + "remove 1\n"
        self.assertTrue(approximation(text.encode("utf-8")).data.endswith(b"\n)\nremove 1\n"))


if __name__ == "__main__":
    unittest.main()
